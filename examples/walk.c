/* Walks a chunk by places: every function with its code, its string constants and its local variables, each list from entry to entry. The whole costs a few passes, whatever the file holds; asked for by their
 * numbers, entries would cost a pass each.
 *     cc walk.c $(pkg-config --cflags --libs lafzimdo) -o walk && ./walk recentre.luac */
#include <inttypes.h>
#include <lafzimdo.h>
#include <lafzimdo_text.h>
#include <stdio.h>
#include <stdlib.h>

static const uint64_t limits[LAFZIMDO_LIMITS_NUMBERS] = LAFZIMDO_CEILINGS;
static uint8_t *chunk;
static size_t len;

/* Ends the program where a call refuses. A chunk that was read refuses nothing of what is asked below. */
static void see(uint64_t refusal) {
    if (refusal == 0)
        return;
    fprintf(stderr, "walk: refused %u", LAFZIMDO_NUMBER(refusal));
    if (LAFZIMDO_HAS_PLACE(refusal))
        fprintf(stderr, " at %" PRIu64, LAFZIMDO_PLACE(refusal));
    fprintf(stderr, ": %s\n", lafzimdo_refusal_text(LAFZIMDO_NUMBER(refusal)));
    exit(1);
}

/* At most one byte more than the library reads of any file. */
static void read_file(const char *name) {
    const size_t most = limits[LAFZIMDO_LIMIT_INPUT_BYTES] + 1;
    FILE *file = fopen(name, "rb");
    chunk = malloc(most);
    if (file == NULL || chunk == NULL) {
        perror(name);
        exit(3);
    }
    len = fread(chunk, 1, most, file);
    if (ferror(file)) {
        perror(name);
        exit(3);
    }
    fclose(file);
}

/* A string of the chunk, up to its first zero byte. */
static void print_string(uint64_t place, uint64_t length) {
    printf("\"%.*s\"\n", (int)length, (const char *)chunk + place);
}

/* The instructions: a word each. */
static void walk_code(uint64_t count, uint64_t place) {
    for (uint64_t pc = 0; pc < count; pc++) {
        uint64_t word[LAFZIMDO_WORD_AT_NUMBERS], field[LAFZIMDO_FIELD_NUMBERS];
        see(lafzimdo_word_at(chunk, len, limits, place, word));
        see(lafzimdo_decode((uint32_t)word[LAFZIMDO_WORD_AT_WORD], field));
        const char *name = lafzimdo_opcode_name((unsigned)field[LAFZIMDO_FIELD_OPCODE]);
        printf("  %" PRIu64 " %s\n", pc, name == NULL ? "?" : name);
        place = word[LAFZIMDO_WORD_AT_BEHIND];
    }
}

/* The constants that are strings. */
static void walk_constants(uint64_t count, uint64_t place) {
    for (uint64_t entry = 0; entry < count; entry++) {
        uint64_t constant[LAFZIMDO_CONSTANT_AT_NUMBERS];
        see(lafzimdo_constant_at(chunk, len, limits, place, constant));
        const uint64_t tag = constant[LAFZIMDO_CONSTANT_TAG];
        if (tag == LAFZIMDO_TAG_SHORT_STRING || tag == LAFZIMDO_TAG_LONG_STRING) {
            printf("  constant %" PRIu64 " ", entry);
            print_string(constant[LAFZIMDO_CONSTANT_VALUE], constant[LAFZIMDO_CONSTANT_LENGTH]);
        }
        place = constant[LAFZIMDO_CONSTANT_BEHIND];
    }
}

static void walk_locals(uint64_t count, uint64_t place) {
    for (uint64_t entry = 0; entry < count; entry++) {
        uint64_t local[LAFZIMDO_LOCAL_AT_NUMBERS];
        see(lafzimdo_local_at(chunk, len, limits, place, local));
        printf("  local %" PRIu64 " from %" PRIu64 " ", entry, local[LAFZIMDO_LOCAL_AT_STARTPC]);
        if (local[LAFZIMDO_LOCAL_AT_HAS_NAME])
            print_string(local[LAFZIMDO_LOCAL_AT_NAME_PLACE], local[LAFZIMDO_LOCAL_AT_NAME_LENGTH]);
        else
            printf("?\n");
        place = local[LAFZIMDO_LOCAL_AT_BEHIND];
    }
}

int main(int argc, char **argv) {
    if (argc != 2) {
        fprintf(stderr, "usage: walk FILE\n");
        return 2;
    }
    read_file(argv[1]);
    uint64_t summary[LAFZIMDO_SUMMARY_NUMBERS], filled;
    see(lafzimdo_summary(chunk, len, limits, summary));
    const size_t functions = summary[LAFZIMDO_SUMMARY_FUNCTIONS];
    uint32_t *rows = malloc(functions * LAFZIMDO_ROW_NUMBERS * sizeof *rows);
    uint64_t *tails = calloc(functions, sizeof *tails);
    if (rows == NULL || tails == NULL) {
        perror("walk");
        return 3;
    }
    see(lafzimdo_index(chunk, len, limits, rows, functions * LAFZIMDO_ROW_NUMBERS, &filled));

    /* The rest of a function begins where the last function nested in it ends. Functions come in the order in which they begin, so that the last of them is seen last. */
    for (size_t f = 1; f < functions; f++) {
        const uint32_t *row = rows + f * LAFZIMDO_ROW_NUMBERS;
        tails[row[LAFZIMDO_ROW_PARENT]] = row[LAFZIMDO_ROW_END];
    }
    for (size_t f = 0; f < functions; f++) {
        const uint32_t *row = rows + f * LAFZIMDO_ROW_NUMBERS;
        uint64_t head[LAFZIMDO_HEAD_NUMBERS], tail[LAFZIMDO_TAIL_NUMBERS];
        see(lafzimdo_head_at(chunk, len, limits, row[LAFZIMDO_ROW_START], head));
        see(lafzimdo_tail_at(chunk, len, limits, tails[f] == 0 ? head[LAFZIMDO_HEAD_NESTED_AT] : tails[f], tail));
        printf("function %zu depth %" PRIu32 " lines %" PRIu64 " to %" PRIu64 "\n", f, row[LAFZIMDO_ROW_DEPTH], head[LAFZIMDO_HEAD_FIRST_LINE], head[LAFZIMDO_HEAD_LAST_LINE]);
        walk_code(head[LAFZIMDO_HEAD_INSTRUCTIONS], head[LAFZIMDO_HEAD_INSTRUCTIONS_AT]);
        walk_constants(head[LAFZIMDO_HEAD_CONSTANTS], head[LAFZIMDO_HEAD_CONSTANTS_AT]);
        walk_locals(tail[LAFZIMDO_TAIL_LOCALS], tail[LAFZIMDO_TAIL_LOCALS_AT]);
    }
    free(tails);
    free(rows);
    free(chunk);
    return 0;
}
