/* The chunks that are measured, the memory that is lent to the calls, and the clock. */
#define _GNU_SOURCE
#include "sets.h"

#include <fcntl.h>
#include <stdio.h>
#include <stdlib.h>
#include <string.h>
#include <sys/mman.h>
#include <sys/stat.h>
#include <time.h>
#include <unistd.h>

#include "../include/lafzimdo.h"
#include "skip.h"

const uint64_t limits[9] = LAFZIMDO_CEILINGS;
uint64_t out[18];
uint8_t *copy;
uint32_t *rows;
uint64_t list[LIST_LEN];
size_t copy_len, rows_len;

double now(void) {
    struct timespec t;
    clock_gettime(CLOCK_PROCESS_CPUTIME_ID, &t);
    return t.tv_sec + t.tv_nsec / 1e9;
}

void must(int holds, const char *what) {
    if (holds) return;
    fprintf(stderr, "measure: %s\n", what);
    exit(1);
}

double run_skip(const struct set *set) { TIMED(set, must(skip_chunk(c->bytes, c->len, limits) == (int64_t)c->functions, "the C reader refused")); }

double run_test(const struct set *set) {
    struct tested t;
    TIMED(set, must(test_chunk(c->bytes, c->len, limits, &t) == (int64_t)c->functions && t.instructions == c->instructions, "the C reader refused"));
}

static void fail(const char *what) {
    perror(what);
    exit(1);
}

void load_set(struct set *set, const char *path) {
    int file = open(path, O_RDONLY);
    struct stat about;
    if (file < 0 || fstat(file, &about) < 0) fail(path);
    const uint8_t *bytes = mmap(NULL, about.st_size, PROT_READ, MAP_PRIVATE | MAP_POPULATE, file, 0);
    if (bytes == MAP_FAILED) fail(path);
    close(file);
    const char *slash = strrchr(path, '/');
    set->name = slash ? slash + 1 : path;
    for (const uint8_t *at = bytes; at < bytes + about.st_size; at += 8 + set->chunks[set->count - 1].len) {
        struct chunk c = {.bytes = at + 8};
        memcpy(&c.len, at, 8);
        set->chunks = realloc(set->chunks, (set->count + 1) * sizeof c);
        if (!set->chunks) fail("memory");
        set->chunks[set->count++] = c;
        set->bytes += c.len;
    }
}

/* A timed stretch is at least this long. */
#define SHORTEST 0.002

/* Long enough for the clock: by what the C reader takes. */
static unsigned repeats(struct set *set) {
    set->repeats = 1;
    double once = run_skip(set);
    return once * 16 < SHORTEST ? (unsigned)(SHORTEST / once) + 1 : 1;
}

static void *room(void *old, size_t bytes) {
    void *p = realloc(old, bytes);
    must(p != NULL, "no memory");
    memset(p, 0, bytes);
    return p;
}

void make_ready(struct set *set) {
    size_t functions = 0, longest = 0;
    for (size_t i = 0; i < set->count; i++) {
        struct chunk *c = set->chunks + i;
        int64_t n = skip_chunk(c->bytes, c->len, limits);
        must(n > 0, "the C reader refused");
        c->functions = (size_t)n;
        /* The C reader tests what the library tests: else it would be no measure of it. */
        struct tested t;
        must(test_chunk(c->bytes, c->len, limits, &t) == n, "the C reader refused");
        c->instructions = t.instructions;
        must(lafzimdo_finding_count(c->bytes, c->len, limits, out) == 0 && out[0] == t.findings, "the C reader finds other things");
        if (functions < c->functions) functions = c->functions;
        must(lafzimdo_copy_length(c->bytes, c->len, limits, out) == 0, "copy_length");
        if (longest < out[0]) longest = out[0];
        if (longest < c->len) longest = c->len;
    }
    copy = room(copy, copy_len = longest);
    rows_len = LAFZIMDO_ROW_NUMBERS * functions;
    rows = room(rows, rows_len * sizeof *rows);
    for (size_t i = 0; i < set->count; i++) {
        struct chunk *c = set->chunks + i;
        must(lafzimdo_index(c->bytes, c->len, limits, rows, rows_len, out) == 0, "index");
        size_t most = 0;
        for (size_t f = 0; f < c->functions; f++) {
            size_t instructions = rows[LAFZIMDO_ROW_NUMBERS * f + 4];
            if (instructions > most) c->function = f, most = instructions;
            if (instructions > 0) c->late = f;
        }
        c->pc = most ? most - 1 : 0;
        c->pcs = room(c->pcs, PCS * sizeof *c->pcs);
        for (size_t k = 0; k < PCS; k++) c->pcs[k] = k * most / PCS;
    }
    set->repeats = repeats(set);
}
