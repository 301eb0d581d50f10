/* Measures every call on every file, and prints tables. Nothing here passes or fails: a person reads the ratios.
 *     measure ROUNDS compare FILE ..     all calls on each file, and the goals' ratios
 *     measure ROUNDS growth FILE ..      the library's calls on files of growing size: processor time for each byte
 * In a round every call is made once, one after the other; the shortest of all rounds counts. */
#define _GNU_SOURCE
#include "calls.h"

#include <stdio.h>
#include <stdlib.h>
#include <string.h>

enum { MEMCPY, SKIP, TEST, SUMMARY, STRICT, INDEX, COPY_LENGTH, COPY, FULL, VERDICT, FINDINGS, LINE, LINES, LOAD, DUMP, CALLS };
static const char *const names[CALLS] = {"memcpy", "C reader", "C verdict", "summary", "strict", "index", "copy_length", "copy", "full copy", "verdict", "findings", "line", "lines", "lua_load", "lua_dump"};
static const call runs[CALLS] = {run_memcpy, run_skip, run_test, run_summary, run_strict, run_index, run_copy_length, run_copy, run_full, run_verdict, run_findings, run_line, run_lines, run_load, run_dump};
#define FIRST_OWN SUMMARY
#define LAST_OWN LINES

#define MOST_FILES 64
static double best[MOST_FILES][CALLS];
static struct rust rust[MOST_FILES];
static int rust_ended[MOST_FILES];
static struct set sets[MOST_FILES];
static int files;

/* What the Rust takes is far above what is compared with it: few rounds do, and one on a long file, which takes it seconds and gigabytes. */
static int rust_rounds(const struct set *set) { return set->bytes < 4 << 20 ? 2 : 1; }

static void measure(int file, int rounds, int with_rust) {
    struct set *set = sets + file;
    fprintf(stderr, "%s\n", set->name);
    make_ready(set);
    for (int call = 0; call < CALLS; call++) best[file][call] = 1e9;
    for (int round = 0; round < rounds; round++) {
        for (int call = 0; call < CALLS; call++) {
            double took = runs[call](set);
            if (took < best[file][call]) best[file][call] = took;
        }
        if (!with_rust || round >= rust_rounds(set) || (round > 0 && !rust_ended[file])) continue;
        struct rust took;
        rust_ended[file] = run_rust(set, &took);
        if (rust_ended[file] && (round == 0 || took.decode < rust[file].decode)) rust[file] = took;
    }
}

static size_t functions(const struct set *set) {
    size_t n = 0;
    for (size_t i = 0; i < set->count; i++) n += set->chunks[i].functions;
    return n;
}

static void show_times(void) {
    printf("Milliseconds for a file, the shortest of all rounds:\n\n| file | bytes | functions |");
    for (int call = 0; call < CALLS; call++) printf(" %s |", names[call]);
    printf(" Rust decode | encode | validate |\n|---|--:|--:|");
    for (int call = 0; call < CALLS + 3; call++) printf("--:|");
    printf("\n");
    for (int f = 0; f < files; f++) {
        printf("| %s | %zu | %zu |", sets[f].name, sets[f].bytes, functions(sets + f));
        for (int call = 0; call < CALLS; call++) printf(" %.3f |", best[f][call] * 1e3);
        if (rust_ended[f]) printf(" %.0f | %.0f | %.0f |\n", rust[f].decode * 1e3, rust[f].encode * 1e3, rust[f].validate * 1e3);
        else printf(" out of memory | | |\n");
    }
}

static size_t instructions(const struct set *set) {
    size_t n = 0;
    for (size_t i = 0; i < set->count; i++) n += set->chunks[i].instructions;
    return n;
}

static void show_goals(void) {
    printf("\nAt least (above the goal: met; on tiny functions 1.3 for the verdict):\n\n"
           "| file | lua_load / summary | lua_load / verdict | lua_dump / copy | load and dump / copy |\n"
           "|---|--:|--:|--:|--:|\n| goal | 3 | 2 | 1.5 | |\n");
    for (int f = 0; f < files; f++) {
        const double *b = best[f];
        printf("| %s | %.2f | %.2f | %.2f | %.2f |\n", sets[f].name, b[LOAD] / b[SUMMARY], b[LOAD] / b[VERDICT], b[DUMP] / b[COPY], (b[LOAD] + b[DUMP]) / b[COPY]);
    }
    printf("\nAt most (below the goal: met):\n\n"
           "| file | summary / C reader | copy / (summary and two memcpy) | copy_length / summary | findings / verdict | verdict / C verdict |\n"
           "|---|--:|--:|--:|--:|--:|\n| goal | 1.2 | 1 | 1 | 1.5 | |\n");
    for (int f = 0; f < files; f++) {
        const double *b = best[f];
        printf("| %s | %.2f | %.2f | %.2f | %.2f | %.2f |\n", sets[f].name, b[SUMMARY] / b[SKIP], b[COPY] / (b[SUMMARY] + 2 * b[MEMCPY]), b[COPY_LENGTH] / b[SUMMARY],
               b[FINDINGS] / b[VERDICT], b[VERDICT] / b[TEST]);
    }
}

/* What testing an instruction takes: the verdict without the reading, and the same of the C reader. */
static void show_words(void) {
    printf("\nNanoseconds for an instruction, without reading (goal: 2.5 on large-16):\n\n| file | instructions | verdict | C verdict |\n|---|--:|--:|--:|\n");
    for (int f = 0; f < files; f++) {
        const double *b = best[f];
        double n = instructions(sets + f) / 1e9;
        printf("| %s | %zu | %.2f | %.2f |\n", sets[f].name, instructions(sets + f), (b[VERDICT] - b[SUMMARY]) / n, (b[TEST] - b[SKIP]) / n);
    }
}

static void show_own_calls(const char *title) {
    printf("\n%s:\n\n| file |", title);
    for (int call = FIRST_OWN; call <= LAST_OWN; call++) printf(" %s |", names[call]);
    printf("\n|---|");
    for (int call = FIRST_OWN; call <= LAST_OWN; call++) printf("--:|");
    printf("\n");
}

static void show_strict(void) {
    printf("\nThe stricter summary in times of the summary (goal: at most 2.2), and lua_load in times of it:\n\n| file | strict / summary | lua_load / strict |\n|---|--:|--:|\n");
    for (int f = 0; f < files; f++) printf("| %s | %.2f | %.2f |\n", sets[f].name, best[f][STRICT] / best[f][SUMMARY], best[f][LOAD] / best[f][STRICT]);
}

static void show_lines(void) {
    printf("\nA list of %d pcs in times of one lookup (goal on 16 MB: at most 1.5):\n\n| file | lines / line |\n|---|--:|\n", PCS);
    for (int f = 0; f < files; f++) printf("| %s | %.2f |\n", sets[f].name, best[f][LINES] / best[f][LINE]);
}

/* Each of the library's calls beside the C reader, and the Rust's decoding beside each. */
static void show_each(void) {
    show_own_calls("In times of the C reader (below 1: faster)");
    for (int f = 0; f < files; f++) {
        printf("| %s |", sets[f].name);
        for (int call = FIRST_OWN; call <= LAST_OWN; call++) printf(" %.2f |", best[f][call] / best[f][SKIP]);
        printf("\n");
    }
    show_own_calls("The Rust's decoding in times of each call (goal: 50)");
    for (int f = 0; f < files; f++) {
        if (!rust_ended[f]) continue;
        printf("| %s |", sets[f].name);
        for (int call = FIRST_OWN; call <= LAST_OWN; call++) printf(" %.0f |", rust[f].decode / best[f][call]);
        printf("\n");
    }
}

/* Picoseconds for a byte; behind the files of one kind, their name up to the dash, the last against the first. */
static void show_growth(void) {
    printf("Picoseconds for a byte:\n\n| file |");
    for (int call = 0; call < CALLS; call++) printf(" %s |", names[call]);
    printf("\n|---|");
    for (int call = 0; call < CALLS; call++) printf("--:|");
    printf("\n");
    int first = 0;
    for (int f = 0; f < files; f++) {
        size_t kind = strcspn(sets[f].name, "-");
        printf("| %s |", sets[f].name);
        for (int call = 0; call < CALLS; call++) printf(" %.0f |", best[f][call] / sets[f].bytes * 1e12);
        printf("\n");
        if (f + 1 < files && strncmp(sets[f].name, sets[f + 1].name, kind + 1) == 0) continue;
        printf("| last / first |");
        for (int call = 0; call < CALLS; call++) printf(" %.2f |", best[f][call] / sets[f].bytes / (best[first][call] / sets[first].bytes));
        printf("\n");
        first = f + 1;
    }
}

int main(int count, char **words) {
    if (count < 4 || count - 3 > MOST_FILES) {
        fprintf(stderr, "usage: measure ROUNDS compare|growth FILE ..\n");
        return 2;
    }
    int rounds = atoi(words[1]), growth = strcmp(words[2], "growth") == 0;
    double load[3] = {0};
    files = count - 3;
    getloadavg(load, 3);
    printf("%d rounds; load before: %.2f", rounds, load[0]);
    for (int f = 0; f < files; f++) load_set(sets + f, words[f + 3]);
    for (int f = 0; f < files; f++) measure(f, rounds, !growth);
    getloadavg(load, 3);
    printf(", behind: %.2f\n\n", load[0]);
    if (growth) show_growth();
    else show_times(), show_goals(), show_words(), show_strict(), show_lines(), show_each();
    return 0;
}
