/* Passes over a chunk as someone would write it in C: a pointer and an end, a return at the first fault, recursion for nested functions. It tests what the
 * library tests: the header, every number for overflow, every length against the end, the tags of constants, and the limits. It keeps nothing but counts.
 * Where it is asked to it also tests every instruction as the verdict does, in the same pass. */
#include "skip.h"

#include "../include/lafzimdo.h"

#include <string.h>

#define MOST_FINDINGS 10000

enum { INPUT_BYTES, NESTING, PROTOTYPES, INSTRUCTIONS, TOTAL_INSTRUCTIONS, CONSTANTS, UPVALUES, STRING_BYTES, DIAGNOSTICS };

struct state {
    const uint8_t *at, *end;
    const uint64_t *limits;
    uint64_t functions, instructions;
    struct tested *tested; /* NULL: instructions are passed over */
};

static const uint64_t ceilings[9] = LAFZIMDO_CEILINGS;

/* Each of these returns 0 where the chunk is refused. */

static int number(struct state *st, uint64_t *value) {
    uint64_t v = 0;
    while (st->at < st->end) {
        if (v >= 144115188075855871u) return 0;
        uint8_t byte = *st->at++;
        v = v * 128 + (byte & 127);
        if (byte & 128) {
            *value = v;
            return 1;
        }
    }
    return 0;
}

static int bytes(struct state *st, uint64_t n) {
    if ((uint64_t)(st->end - st->at) < n) return 0;
    st->at += n;
    return 1;
}

static int items(struct state *st, uint64_t n, uint64_t width) {
    if ((uint64_t)(st->end - st->at) / width < n) return 0;
    st->at += n * width;
    return 1;
}

static int count(struct state *st, uint64_t limit, uint64_t *n) { return number(st, n) && *n <= limit; }

static int string(struct state *st) {
    uint64_t size;
    if (!number(st, &size)) return 0;
    if (size == 0) return 1;
    return size - 1 <= st->limits[STRING_BYTES] && bytes(st, size - 1);
}

static int constant(struct state *st) {
    if (st->at == st->end) return 0;
    switch (*st->at++) {
    case 0: case 1: case 17: return 1;
    case 3: case 19: return bytes(st, 8);
    case 4: case 20: return string(st);
    default: return 0;
    }
}

/* What a function's instructions are held against. */
struct bounds {
    uint64_t stack, instructions, constants, upvalues, protos;
};

/* How many findings an instruction has, by validator.rs. */
static unsigned faults(uint32_t word, uint64_t pc, const struct bounds *b) {
    uint32_t op = word & 127, a = (word >> 7) & 255, bx = word >> 15, second = (word >> 16) & 255;
    unsigned high = b->stack <= a;
    switch (op) {
    case 3: return high + (b->constants <= bx);                      /* LOADK */
    case 9: case 10: case 11: return high + (b->upvalues <= second); /* GETUPVAL, SETUPVAL, GETTABUP */
    case 15: return b->upvalues <= a;                                /* SETTABUP */
    case 56: {                                                       /* JMP */
        int64_t target = (int64_t)pc + 1 + (int64_t)(word >> 7) - 16777215;
        return target < 0 || (int64_t)b->instructions <= target;
    }
    case 71: case 81: case 82: return 0;                             /* RETURN0, VARARGPREP, EXTRAARG */
    case 79: return high + (b->protos <= bx);                        /* CLOSURE */
    default: return 82 < op ? 1 : high;
    }
}

static void test(struct tested *t, const uint8_t *code, const struct bounds *b) {
    uint64_t findings = t->findings;
    for (uint64_t pc = 0; pc < b->instructions && findings < MOST_FINDINGS; pc++) {
        uint32_t word;
        memcpy(&word, code + 4 * pc, 4);
        findings += faults(word, pc, b);
    }
    t->findings = findings;
    t->instructions += b->instructions;
}

static int function(struct state *st, uint64_t left) {
    uint64_t n, ignored;
    struct bounds b;
    if (!string(st) || !number(st, &ignored) || !number(st, &ignored) || !bytes(st, 3)) return 0;
    b.stack = st->at[-1];
    if (!count(st, st->limits[INSTRUCTIONS], &n) || n > st->limits[TOTAL_INSTRUCTIONS] - st->instructions || !items(st, n, 4)) return 0;
    const uint8_t *code = st->at - 4 * n;
    b.instructions = n;
    st->instructions += n;
    st->functions++;
    if (!count(st, st->limits[CONSTANTS], &n)) return 0;
    for (b.constants = n; n > 0; n--)
        if (!constant(st)) return 0;
    if (!count(st, st->limits[UPVALUES], &n) || !items(st, n, 3)) return 0;
    b.upvalues = n;
    if (!count(st, st->limits[PROTOTYPES], &n)) return 0;
    b.protos = n;
    if (st->tested) test(st->tested, code, &b);
    for (; n > 0; n--)
        if (left == 0 || st->limits[PROTOTYPES] < st->functions || !function(st, left - 1)) return 0;
    if (!number(st, &n) || !bytes(st, n)) return 0;
    if (!number(st, &n)) return 0;
    for (; n > 0; n--)
        if (!number(st, &ignored) || !number(st, &ignored)) return 0;
    if (!number(st, &n)) return 0;
    for (; n > 0; n--)
        if (!string(st) || !number(st, &ignored) || !number(st, &ignored)) return 0;
    if (!number(st, &n)) return 0;
    for (; n > 0; n--)
        if (!string(st)) return 0;
    return 1;
}

/* Format may be any byte: it is a warning. */
static int header(struct state *st) {
    static const uint8_t front[5] = "\x1bLua\x54";
    static const uint8_t back[25] = "\x19\x93\r\n\x1a\n\x04\x08\x08\x78\x56\0\0\0\0\0\0\0\0\0\0\0\x28\x77\x40";
    const uint8_t *s = st->at;
    if (!bytes(st, 31) || memcmp(s, front, 5) != 0 || memcmp(s + 6, back, 25) != 0) return 0;
    return bytes(st, 1);
}

static int64_t pass(const uint8_t *chunk, size_t len, const uint64_t limits[9], struct tested *tested) {
    struct state st = {chunk, chunk + len, limits, 0, 0, tested};
    for (int i = 0; i < 9; i++)
        if (ceilings[i] < limits[i]) return -1;
    if (limits[INPUT_BYTES] < len) return -1;
    if (!header(&st) || !function(&st, limits[NESTING])) return -1;
    return (int64_t)st.functions;
}

int64_t skip_chunk(const uint8_t *chunk, size_t len, const uint64_t limits[9]) { return pass(chunk, len, limits, NULL); }

int64_t test_chunk(const uint8_t *chunk, size_t len, const uint64_t limits[9], struct tested *tested) {
    *tested = (struct tested){0};
    return pass(chunk, len, limits, tested);
}
