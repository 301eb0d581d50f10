/* Functions and entries by the calls on parts at a place: from the index to a function's head, to its words and its constants, from the head to its other entries and, behind the functions that nest in it, to its tail. */
#include "answers.h"

static uint64_t place;

/* Whether the part at `place` was there, in n numbers, of which the last is the place behind it: the next one's. */
static int part(uint64_t (*call)(const uint8_t *, size_t, const uint64_t[], size_t, uint64_t[]), int n) {
    fill();
    if (!answered(call(chunk, len, limits, place, out), n)) return 0;
    place = out[n - 1];
    return 1;
}

/* The entries of a list, given by its count and its place; then the place must be the one where the next part is known to begin. */
#define EACH(list, call, n, shows)                              \
    place = (list)[1];                                          \
    for (uint64_t i = 0; i < (list)[0] && part(call, n); i++) { \
        shows;                                                  \
    }

static void behind(uint64_t known) {
    if (place != known) printf("behind a list: %" PRIu64 ", not %" PRIu64 "\n", place, known);
}

/* Count and place of a list as the index has them, which must be those of the head. */
static void as_indexed(const uint64_t *head, const uint32_t *row, int count, int at) {
    if (row[count] != head[0] || row[at] != head[1]) printf("in the index: %" PRIu32 " at %" PRIu32 ", not %" PRIu64 " at %" PRIu64 "\n", row[count], row[at], head[0], head[1]);
}

static void local(void) {
    printf("l x");
    if (out[0]) hex(chunk + out[1], out[2]);
    else printf("3f");
    printf(" %" PRIu64 " %" PRIu64 "\n", out[3], out[4]);
}

static void entries(const uint32_t *row, const uint64_t *head, const uint64_t *tail) {
    const uint64_t words[] = {row[4], row[12]}, constants[] = {row[5], row[13]};
    EACH(words, lafzimdo_word_at, 2, printf("i %08" PRIx64 "\n", out[0]))
    EACH(constants, lafzimdo_constant_at, 4, constant())
    EACH(head + 12, lafzimdo_upvalue_at, 4, printf("u %" PRIu64 " %" PRIu64 " %" PRIu64 "\n", out[0], out[1], out[2]))
    EACH(tail, lafzimdo_delta_at, 2, printf("d %" PRId64 "\n", (int64_t)out[0]))
    EACH(tail + 2, lafzimdo_anchor_at, 3, printf("a %" PRIu64 " %" PRIu64 "\n", out[0], out[1]))
    EACH(tail + 4, lafzimdo_local_at, 6, local())
    EACH(tail + 6, lafzimdo_string_at, 4, printf("n "); string(out))
    behind(tail[8]);
}

/* Where the tail of the function f begins: behind the last function that nests in it. */
static uint64_t tail_place(const uint32_t *rows, uint64_t functions, uint64_t f, uint64_t nested) {
    for (uint64_t g = f + 1; g < functions && rows[LAFZIMDO_ROW_NUMBERS * g] < rows[LAFZIMDO_ROW_NUMBERS * f + 1]; g++)
        if (rows[LAFZIMDO_ROW_NUMBERS * g + 3] == f) nested = rows[LAFZIMDO_ROW_NUMBERS * g + 1];
    return nested;
}

void functions_by_parts(const uint32_t *rows, uint64_t functions) {
    uint64_t(*sources)[3] = malloc(functions * sizeof *sources); /* an absent one is the parent's */
    for (uint64_t f = 0; f < functions; f++) {
        const uint32_t *row = rows + LAFZIMDO_ROW_NUMBERS * f;
        uint64_t head[16], tail[9];
        fill();
        if (!answered(lafzimdo_head_at(chunk, len, limits, row[0], out), 16)) break;
        memcpy(head, out, sizeof head);
        memcpy(sources[f], f && !head[0] ? sources[row[3]] : head, sizeof *sources);
        fill();
        if (!answered(lafzimdo_tail_at(chunk, len, limits, tail_place(rows, functions, f, head[15]), out), 9)) break;
        memcpy(tail, out, sizeof tail);
        printf("function %" PRIu64 " depth %" PRIu32 " parent %" PRIu32 " start %" PRIu32 " end %" PRIu64 "\nsource ", f, row[2], row[3], row[0], tail[8]);
        string(sources[f]);
        printf("lines %" PRIu64 " %" PRIu64 "\nbytes %" PRIu64 " %" PRIu64 " %" PRIu64 "\ncounts", head[3], head[4], head[5], head[6], head[7]);
        for (int i = 0; i < 4; i++) printf(" %" PRIu64, head[8 + 2 * i]);
        for (int i = 0; i < 4; i++) printf(" %" PRIu64, tail[2 * i]);
        printf("\n");
        as_indexed(head + 8, row, 4, 12);
        as_indexed(head + 10, row, 5, 13);
        entries(row, head, tail);
    }
    free(sources);
}
