/* The library beside an archive of before, in one process: beside ROUNDS FILE ..
 * The archive of before is linked twice, its calls once with `old_` and once with `again_` before their names: what its two copies differ by is what a difference
 * must be above to mean anything. In a round every call is made by each of the three in turn, first by another in each round; the shortest of all rounds counts. */
#define _GNU_SOURCE
#include "sets.h"

#include <stdio.h>
#include <stdlib.h>

#include "../include/lafzimdo.h"

#define DECLARED(prefix)                                                                                                                    \
    __typeof__(lafzimdo_summary) prefix##summary;                                                                                           \
    __typeof__(lafzimdo_verdict) prefix##verdict;                                                                                           \
    __typeof__(lafzimdo_function) prefix##function;                                                                                         \
    __typeof__(lafzimdo_line) prefix##line;                                                                                                 \
    __typeof__(lafzimdo_index) prefix##index;                                                                                               \
    __typeof__(lafzimdo_copy_length) prefix##copy_length;                                                                                   \
    __typeof__(lafzimdo_copy) prefix##copy;                                                                                                 \
    __typeof__(lafzimdo_full_copy) prefix##full_copy;                                                                                       \
    __typeof__(lafzimdo_findings) prefix##findings

DECLARED(old_lafzimdo_);
DECLARED(again_lafzimdo_);

enum archive { NEW, OLD, AGAIN, ARCHIVES };
#define CALLED(call) static __typeof__(lafzimdo_##call) *const call[ARCHIVES] = {lafzimdo_##call, old_lafzimdo_##call, again_lafzimdo_##call}
CALLED(summary);
CALLED(verdict);
CALLED(function);
CALLED(line);
CALLED(index);
CALLED(copy_length);
CALLED(full_copy);
CALLED(findings);
static __typeof__(lafzimdo_copy) *const copies[ARCHIVES] = {lafzimdo_copy, old_lafzimdo_copy, again_lafzimdo_copy};

/* What a call must answer besides 0 is its first number, as the C reader has it where it has one. */
#define TIMES(name, answer) \
    static double run_##name(const struct set *set, enum archive a) { TIMED(set, must((answer) == 0, #name)); }
#define ON(c) (c)->bytes, (c)->len, limits
TIMES(summary, summary[a](ON(c), out) || out[7] != c->functions)
TIMES(verdict, verdict[a](ON(c), out))
TIMES(main, function[a](ON(c), 0, out))
TIMES(middle, function[a](ON(c), c->functions / 2, out))
TIMES(last, function[a](ON(c), c->functions - 1, out))
TIMES(line, line[a](ON(c), c->function, c->pc, out))
TIMES(late, line[a](ON(c), c->late, 0, out))
TIMES(index, index[a](ON(c), rows, rows_len, out) || out[0] != c->functions)
TIMES(copy_length, copy_length[a](ON(c), out))
TIMES(copy, copies[a](ON(c), copy, copy_len, out))
TIMES(full, full_copy[a](ON(c), copy, copy_len, out))
TIMES(findings, findings[a](ON(c), list, LIST_LEN, out))

enum { SUMMARY, VERDICT, MAIN, MIDDLE, LAST, LINE, LATE, INDEX, COPY_LENGTH, COPY, FULL, FINDINGS, CALLS };
static const char *const names[CALLS] = {"summary", "verdict", "fields of main", "fields, middle", "fields, last", "line", "line, last", "index", "copy_length", "copy", "full copy", "findings"};
static double (*const runs[CALLS])(const struct set *, enum archive) = {run_summary, run_verdict, run_main, run_middle, run_last,
                                                                        run_line, run_late, run_index, run_copy_length, run_copy, run_full, run_findings};

#define MOST_FILES 64
static double best[MOST_FILES][CALLS][ARCHIVES];
static struct set sets[MOST_FILES];
static int files;

static void measure(int file, int rounds) {
    fprintf(stderr, "%s\n", sets[file].name);
    make_ready(sets + file);
    for (int call = 0; call < CALLS; call++)
        for (int a = 0; a < ARCHIVES; a++) best[file][call][a] = 1e9;
    for (int round = 0; round < rounds; round++)
        for (int call = 0; call < CALLS; call++)
            for (int turn = 0; turn < ARCHIVES; turn++) {
                enum archive a = (enum archive)((round + turn) % ARCHIVES);
                double took = runs[call](sets + file, a);
                if (took < best[file][call][a]) best[file][call][a] = took;
            }
}

static double shorter(const double *b) { return b[OLD] < b[AGAIN] ? b[OLD] : b[AGAIN]; }
static double longer(const double *b) { return b[OLD] < b[AGAIN] ? b[AGAIN] : b[OLD]; }

static void heads(const char *title, int from) {
    printf("\n%s:\n\n| file | archive |", title);
    for (int call = from; call < CALLS; call++) printf(" %s |", names[call]);
    printf("\n|---|---|");
    for (int call = from; call < CALLS; call++) printf("--:|");
    printf("\n");
}

static void show_times(void) {
    heads("Milliseconds for a file, the shortest of all rounds; of the two copies of before, the shorter", 0);
    for (int f = 0; f < files; f++) {
        printf("| %s | new |", sets[f].name);
        for (int call = 0; call < CALLS; call++) printf(" %.3f |", best[f][call][NEW] * 1e3);
        printf("\n| | before |");
        for (int call = 0; call < CALLS; call++) printf(" %.3f |", shorter(best[f][call]) * 1e3);
        printf("\n");
    }
}

static void show_ratios(void) {
    heads("In times of before (below 1: faster); `spread`: the longer of its two copies in times of the shorter. Not slower is what is not above the spread", 0);
    for (int f = 0; f < files; f++) {
        printf("| %s | new |", sets[f].name);
        for (int call = 0; call < CALLS; call++) printf(" %.3f |", best[f][call][NEW] / shorter(best[f][call]));
        printf("\n| | spread |");
        for (int call = 0; call < CALLS; call++) printf(" %.3f |", longer(best[f][call]) / shorter(best[f][call]));
        printf("\n");
    }
}

static void show_within(void) {
    heads("In times of the same archive's summary", VERDICT);
    for (int f = 0; f < files; f++)
        for (int a = NEW; a <= OLD; a++) {
            printf("| %s | %s |", a == NEW ? sets[f].name : "", a == NEW ? "new" : "before");
            for (int call = VERDICT; call < CALLS; call++)
                printf(" %.2f |", a == NEW ? best[f][call][NEW] / best[f][SUMMARY][NEW] : shorter(best[f][call]) / shorter(best[f][SUMMARY]));
            printf("\n");
        }
}

int main(int count, char **words) {
    if (count < 3 || count - 2 > MOST_FILES) {
        fprintf(stderr, "usage: beside ROUNDS FILE ..\n");
        return 2;
    }
    int rounds = atoi(words[1]);
    double load[3] = {0};
    files = count - 2;
    getloadavg(load, 3);
    printf("%d rounds; load before: %.2f", rounds, load[0]);
    for (int f = 0; f < files; f++) load_set(sets + f, words[f + 2]);
    for (int f = 0; f < files; f++) measure(f, rounds);
    getloadavg(load, 3);
    printf(", behind: %.2f\n", load[0]);
    show_times();
    show_ratios();
    show_within();
    return 0;
}
