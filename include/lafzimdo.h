/* Lafzimdo: compiled Lua 5.4 scripts (chunks), read by proved code. Link liblafzimdo (`make install`, then `pkg-config --cflags --libs lafzimdo`), or target/staticlib/liblafzimdo.a, made by
 * `make target/staticlib/liblafzimdo.a`; x86-64, Linux. Texts for refusals and names of opcodes: lafzimdo_text.h. Examples: examples/.
 *
 * A call on a chunk takes the chunk, its length and the nine limits, asks nothing else, and fills the array `out` of the length that its declaration gives; some fill the front of
 * memory that is lent beside it. It returns 0, or a refusal as one number, and then `out` and lent memory are as they were. What each call promises is its contract in crates/lafzimdo/src.
 * A pointer must be good for the length that goes with it and must not be null, also where the length is 0; `out` and lent memory must overlap nothing else.
 * A negative number stands in `out` as its two's complement: cast it to int64_t.
 * The library has no state, takes no memory but its stack and what it is lent, and calls nothing but memcpy and memset: calls may run in many threads at once, on one chunk too, each with lent memory of its own.
 * Cost, in the first words of each comment: a pass goes over the whole chunk once, and reads each function's numbers, counts and entries, but no words and no bytes of strings (of nested functions that spell a source, that source).
 * Stack: a call takes at most 496 bytes for each level of nesting (480 where it copies), of which there are at most 14, and 10 kB in all. Measured by compare/stack.py, not proved.
 */
#ifndef LAFZIMDO_H
#define LAFZIMDO_H

#include <stddef.h>
#include <stdint.h>

#ifdef __cplusplus
extern "C" {
#endif

/* The version of this header: as a number, 1,000,000 * major + 1,000 * minor + patch, and as a text. lafzimdo_version gives that of the library. */
#define LAFZIMDO_VERSION_MAJOR 0
#define LAFZIMDO_VERSION_MINOR 1
#define LAFZIMDO_VERSION_PATCH 0
#define LAFZIMDO_VERSION (LAFZIMDO_VERSION_MAJOR * 1000000 + LAFZIMDO_VERSION_MINOR * 1000 + LAFZIMDO_VERSION_PATCH)
#define LAFZIMDO_VERSION_TEXT "0.1.0"

/* Of a refusal: its number, 1 to 33; whether it has a place; the place. (A place of 2^32 or more is left out: only a part asked for at such a place can have one.) */
#define LAFZIMDO_NUMBER(r) ((unsigned)((r) & 255))
#define LAFZIMDO_HAS_PLACE(r) (((r) >> 8) != 0)
#define LAFZIMDO_PLACE(r) (((r) >> 8) - 1)

/* The refusals, by their numbers (docs/REFUSALS.md). The first group is caused by the file, the second by the file with the limits, the third by the caller,
 * the last by the file in the stricter reading (lafzimdo_strict_summary). */
enum lafzimdo_refusal {
    LAFZIMDO_REFUSED_TRUNCATED = 1,
    LAFZIMDO_REFUSED_OVERFLOW = 2,
    LAFZIMDO_REFUSED_VARINT_OVERFLOW = 3,
    LAFZIMDO_REFUSED_SIGNATURE = 4,
    LAFZIMDO_REFUSED_VERSION = 5,
    LAFZIMDO_REFUSED_LUAC_DATA = 6,
    LAFZIMDO_REFUSED_INSTRUCTION_SIZE = 7,
    LAFZIMDO_REFUSED_LUA_INTEGER_SIZE = 8,
    LAFZIMDO_REFUSED_LUA_NUMBER_SIZE = 9,
    LAFZIMDO_REFUSED_LUAC_INT = 10,
    LAFZIMDO_REFUSED_LUAC_NUM = 11,
    LAFZIMDO_REFUSED_CONSTANT_TAG = 12,

    LAFZIMDO_REFUSED_STRING_BYTES = 13,
    LAFZIMDO_REFUSED_INSTRUCTIONS = 14,
    LAFZIMDO_REFUSED_TOTAL_INSTRUCTIONS = 15,
    LAFZIMDO_REFUSED_CONSTANTS = 16,
    LAFZIMDO_REFUSED_UPVALUES = 17,
    LAFZIMDO_REFUSED_PROTOTYPES = 18,
    LAFZIMDO_REFUSED_NESTING_DEPTH = 19,
    LAFZIMDO_REFUSED_TOTAL_PROTOTYPES = 20,

    LAFZIMDO_REFUSED_LIMIT_ABOVE_CEILING = 21,
    LAFZIMDO_REFUSED_INPUT_BYTES = 22,
    LAFZIMDO_REFUSED_NO_FUNCTION = 23,
    LAFZIMDO_REFUSED_NO_ENTRY = 24,
    LAFZIMDO_REFUSED_LINE_TOO_LARGE = 25,
    LAFZIMDO_REFUSED_LENT_SPACE = 26,
    LAFZIMDO_REFUSED_FIELD_RANGE = 27,
    LAFZIMDO_REFUSED_NO_OPCODE = 28,
    LAFZIMDO_REFUSED_ANCHOR_ORDER = 29,
    LAFZIMDO_REFUSED_PC_ORDER = 30,

    LAFZIMDO_REFUSED_FORMAT = 31,
    LAFZIMDO_REFUSED_INT_OVERFLOW = 32,
    LAFZIMDO_REFUSED_NULL_STRING = 33
};

/* The limits, in this order: input bytes, nesting depth, prototypes in all, instructions of a prototype, instructions in all, constants of a prototype,
 * upvalues of a prototype, bytes of a string, diagnostics. Above a ceiling is refusal 21. */
#define LAFZIMDO_CEILINGS {16777216, 14, 16777216, 16777216, 16777216, 16777216, 16777216, 16777216, 10000}

enum lafzimdo_limit {
    LAFZIMDO_LIMIT_INPUT_BYTES,
    LAFZIMDO_LIMIT_NESTING_DEPTH,
    LAFZIMDO_LIMIT_TOTAL_PROTOTYPES,
    LAFZIMDO_LIMIT_INSTRUCTIONS_PER_PROTO,
    LAFZIMDO_LIMIT_TOTAL_INSTRUCTIONS,
    LAFZIMDO_LIMIT_CONSTANTS_PER_PROTO,
    LAFZIMDO_LIMIT_UPVALUES_PER_PROTO,
    LAFZIMDO_LIMIT_STRING_BYTES,
    LAFZIMDO_LIMIT_DIAGNOSTICS
};
#define LAFZIMDO_LIMITS_NUMBERS 9

/* What stands where in the arrays: a name for each item, and behind each enum how many items there are. Arrays may grow at their end: declare them by these names, and compile again with a new header. */

enum lafzimdo_summary_item {
    LAFZIMDO_SUMMARY_VERSION,
    LAFZIMDO_SUMMARY_FORMAT,
    LAFZIMDO_SUMMARY_INSTRUCTION_SIZE,
    LAFZIMDO_SUMMARY_INTEGER_SIZE,
    LAFZIMDO_SUMMARY_SIZE_T_SIZE,
    LAFZIMDO_SUMMARY_NUMBER_SIZE,
    LAFZIMDO_SUMMARY_TEST_NUMBER, /* a float's bits */
    LAFZIMDO_SUMMARY_FUNCTIONS,
    LAFZIMDO_SUMMARY_TRAILING_PLACE,
    LAFZIMDO_SUMMARY_TRAILING_LENGTH,
    LAFZIMDO_SUMMARY_WARNING_1, /* of enum lafzimdo_warning */
    LAFZIMDO_SUMMARY_WARNING_1_PLACE,
    LAFZIMDO_SUMMARY_WARNING_2,
    LAFZIMDO_SUMMARY_WARNING_2_PLACE,
    LAFZIMDO_SUMMARY_PADDED
};
#define LAFZIMDO_SUMMARY_NUMBERS 15

enum lafzimdo_warning { LAFZIMDO_WARNING_NONE, LAFZIMDO_WARNING_FORMAT, LAFZIMDO_WARNING_TRAILING_BYTES };

enum lafzimdo_function_item {
    LAFZIMDO_FUNCTION_DEPTH,
    LAFZIMDO_FUNCTION_PARENT,
    LAFZIMDO_FUNCTION_HAS_SOURCE,
    LAFZIMDO_FUNCTION_SOURCE_PLACE,
    LAFZIMDO_FUNCTION_SOURCE_LENGTH,
    LAFZIMDO_FUNCTION_FIRST_LINE,
    LAFZIMDO_FUNCTION_LAST_LINE,
    LAFZIMDO_FUNCTION_PARAMETERS,
    LAFZIMDO_FUNCTION_VARARG,
    LAFZIMDO_FUNCTION_STACK,
    LAFZIMDO_FUNCTION_INSTRUCTIONS,
    LAFZIMDO_FUNCTION_CONSTANTS,
    LAFZIMDO_FUNCTION_UPVALUES,
    LAFZIMDO_FUNCTION_NESTED,
    LAFZIMDO_FUNCTION_DELTAS,
    LAFZIMDO_FUNCTION_ANCHORS,
    LAFZIMDO_FUNCTION_LOCALS,
    LAFZIMDO_FUNCTION_UPVALUE_NAMES
};
#define LAFZIMDO_FUNCTION_NUMBERS 18

/* The last one only at a place (lafzimdo_constant_at). */
enum lafzimdo_constant_item {
    LAFZIMDO_CONSTANT_TAG, /* of enum lafzimdo_tag */
    LAFZIMDO_CONSTANT_VALUE, /* the bits of an integer or a float, or a string's place */
    LAFZIMDO_CONSTANT_LENGTH,
    LAFZIMDO_CONSTANT_BEHIND
};
#define LAFZIMDO_CONSTANT_NUMBERS 3
#define LAFZIMDO_CONSTANT_AT_NUMBERS 4

enum lafzimdo_tag {
    LAFZIMDO_TAG_NIL = 0,
    LAFZIMDO_TAG_FALSE = 1,
    LAFZIMDO_TAG_TRUE = 17,
    LAFZIMDO_TAG_INTEGER = 3,
    LAFZIMDO_TAG_FLOAT = 19,
    LAFZIMDO_TAG_SHORT_STRING = 4,
    LAFZIMDO_TAG_LONG_STRING = 20
};

enum lafzimdo_upvalue_item {
    LAFZIMDO_UPVALUE_INSTACK,
    LAFZIMDO_UPVALUE_IDX,
    LAFZIMDO_UPVALUE_KIND,
    LAFZIMDO_UPVALUE_BEHIND /* only at a place */
};
#define LAFZIMDO_UPVALUE_NUMBERS 3
#define LAFZIMDO_UPVALUE_AT_NUMBERS 4

enum lafzimdo_anchor_item {
    LAFZIMDO_ANCHOR_PC,
    LAFZIMDO_ANCHOR_LINE,
    LAFZIMDO_ANCHOR_BEHIND /* only at a place */
};
#define LAFZIMDO_ANCHOR_NUMBERS 2
#define LAFZIMDO_ANCHOR_AT_NUMBERS 3

enum lafzimdo_local_item { LAFZIMDO_LOCAL_NAME_LENGTH, LAFZIMDO_LOCAL_STARTPC, LAFZIMDO_LOCAL_ENDPC };
#define LAFZIMDO_LOCAL_NUMBERS 3

/* A string that may be absent: an upvalue's name, or any string at a place. */
enum lafzimdo_string_item {
    LAFZIMDO_STRING_PRESENT,
    LAFZIMDO_STRING_PLACE,
    LAFZIMDO_STRING_LENGTH,
    LAFZIMDO_STRING_BEHIND /* only at a place */
};
#define LAFZIMDO_UPVALUE_NAME_NUMBERS 3
#define LAFZIMDO_STRING_AT_NUMBERS 4

/* A function's row of the index. */
enum lafzimdo_row_item {
    LAFZIMDO_ROW_START,
    LAFZIMDO_ROW_END,
    LAFZIMDO_ROW_DEPTH,
    LAFZIMDO_ROW_PARENT,
    LAFZIMDO_ROW_INSTRUCTIONS,
    LAFZIMDO_ROW_CONSTANTS,
    LAFZIMDO_ROW_UPVALUES,
    LAFZIMDO_ROW_NESTED,
    LAFZIMDO_ROW_DELTAS,
    LAFZIMDO_ROW_ANCHORS,
    LAFZIMDO_ROW_LOCALS,
    LAFZIMDO_ROW_UPVALUE_NAMES,
    LAFZIMDO_ROW_INSTRUCTIONS_AT,
    LAFZIMDO_ROW_CONSTANTS_AT
};
/* It has grown (before: 12): lend, and step from row to row, by this name. */
#define LAFZIMDO_ROW_NUMBERS 14

enum lafzimdo_verdict_number { LAFZIMDO_VERDICT_VALID_FOR_ANALYSIS, LAFZIMDO_VERDICT_INVALID, LAFZIMDO_VERDICT_INCOMPLETE };

/* What lafzimdo_findings fills: `out`, and in `list` a finding. */
enum lafzimdo_findings_item { LAFZIMDO_FINDINGS_VERDICT, LAFZIMDO_FINDINGS_COUNT };
#define LAFZIMDO_FINDINGS_NUMBERS 2
enum lafzimdo_finding_item { LAFZIMDO_FINDING_FUNCTION, LAFZIMDO_FINDING_PC, LAFZIMDO_FINDING_RULE, LAFZIMDO_FINDING_NUMBER };
#define LAFZIMDO_FINDING_NUMBERS 4
#define LAFZIMDO_MOST_FINDINGS 10001

/* Only a register is a warning; all else is an error. */
enum lafzimdo_rule {
    LAFZIMDO_RULE_OPCODE = 1,
    LAFZIMDO_RULE_REGISTER = 2,
    LAFZIMDO_RULE_CONSTANT = 3,
    LAFZIMDO_RULE_UPVALUE = 4,
    LAFZIMDO_RULE_TABLE_UPVALUE = 5,
    LAFZIMDO_RULE_PROTOTYPE = 6,
    LAFZIMDO_RULE_JUMP = 7
};

/* The fields of a word. */
enum lafzimdo_field_item {
    LAFZIMDO_FIELD_OPCODE,
    LAFZIMDO_FIELD_MODE, /* of enum lafzimdo_mode */
    LAFZIMDO_FIELD_A,
    LAFZIMDO_FIELD_K,
    LAFZIMDO_FIELD_B,
    LAFZIMDO_FIELD_SB,
    LAFZIMDO_FIELD_C,
    LAFZIMDO_FIELD_SC,
    LAFZIMDO_FIELD_BX,
    LAFZIMDO_FIELD_SBX,
    LAFZIMDO_FIELD_AX,
    LAFZIMDO_FIELD_SJ
};
#define LAFZIMDO_FIELD_NUMBERS 12

enum lafzimdo_mode { LAFZIMDO_MODE_IABC, LAFZIMDO_MODE_IABX, LAFZIMDO_MODE_IASBX, LAFZIMDO_MODE_IAX, LAFZIMDO_MODE_ISJ, LAFZIMDO_MODE_NONE };

/* A function up to those that nest in it, at a place: `_AT` is where a list's first entry is. */
enum lafzimdo_head_item {
    LAFZIMDO_HEAD_HAS_SOURCE,
    LAFZIMDO_HEAD_SOURCE_PLACE,
    LAFZIMDO_HEAD_SOURCE_LENGTH,
    LAFZIMDO_HEAD_FIRST_LINE,
    LAFZIMDO_HEAD_LAST_LINE,
    LAFZIMDO_HEAD_PARAMETERS,
    LAFZIMDO_HEAD_VARARG,
    LAFZIMDO_HEAD_STACK,
    LAFZIMDO_HEAD_INSTRUCTIONS,
    LAFZIMDO_HEAD_INSTRUCTIONS_AT,
    LAFZIMDO_HEAD_CONSTANTS,
    LAFZIMDO_HEAD_CONSTANTS_AT,
    LAFZIMDO_HEAD_UPVALUES,
    LAFZIMDO_HEAD_UPVALUES_AT,
    LAFZIMDO_HEAD_NESTED,
    LAFZIMDO_HEAD_NESTED_AT
};
#define LAFZIMDO_HEAD_NUMBERS 16

/* The rest of it. */
enum lafzimdo_tail_item {
    LAFZIMDO_TAIL_DELTAS,
    LAFZIMDO_TAIL_DELTAS_AT,
    LAFZIMDO_TAIL_ANCHORS,
    LAFZIMDO_TAIL_ANCHORS_AT,
    LAFZIMDO_TAIL_LOCALS,
    LAFZIMDO_TAIL_LOCALS_AT,
    LAFZIMDO_TAIL_UPVALUE_NAMES,
    LAFZIMDO_TAIL_UPVALUE_NAMES_AT,
    LAFZIMDO_TAIL_BEHIND
};
#define LAFZIMDO_TAIL_NUMBERS 9

enum lafzimdo_word_at_item { LAFZIMDO_WORD_AT_WORD, LAFZIMDO_WORD_AT_BEHIND };
#define LAFZIMDO_WORD_AT_NUMBERS 2
enum lafzimdo_delta_at_item { LAFZIMDO_DELTA_AT_DELTA, LAFZIMDO_DELTA_AT_BEHIND };
#define LAFZIMDO_DELTA_AT_NUMBERS 2

enum lafzimdo_local_at_item {
    LAFZIMDO_LOCAL_AT_HAS_NAME,
    LAFZIMDO_LOCAL_AT_NAME_PLACE,
    LAFZIMDO_LOCAL_AT_NAME_LENGTH,
    LAFZIMDO_LOCAL_AT_STARTPC,
    LAFZIMDO_LOCAL_AT_ENDPC,
    LAFZIMDO_LOCAL_AT_BEHIND
};
#define LAFZIMDO_LOCAL_AT_NUMBERS 6

/* No pass. LAFZIMDO_VERSION of the header that the library was built with: another than yours tells that arrays may have other lengths. */
uint64_t lafzimdo_version(void);

/* One pass. The summary: version, format, instruction size, integer size, size_t size, number size, the test number's bits; functions; place and length of the trailing bytes;
 * code and place of the first warning, code and place of the second (0: none, 1: L54-HEADER-003, 2: L54-CHUNK-001);
 * how many of the chunk's numbers, string sizes and counts among them, are padded: not in their shortest form */
uint64_t lafzimdo_summary(const uint8_t *chunk, size_t len, const uint64_t limits[9], uint64_t out[LAFZIMDO_SUMMARY_NUMBERS]);

/* Two passes. The stricter reading, as Lua's own loader (lundump.c) reads: where it accepts, what lafzimdo_summary gives. Refused besides: 31 a format byte other than 0; 32 a number of 2^31 - 128 or more where the
 * loader reads an int, which is every number but a string's size; 33 a string constant of size 0. They come among 1 to 20 in the order of the bytes. A chunk that is read here is read by every call, with the same
 * reading. Not objected to, as by the loader: more upvalue names than upvalues. */
uint64_t lafzimdo_strict_summary(const uint8_t *chunk, size_t len, const uint64_t limits[9], uint64_t out[LAFZIMDO_SUMMARY_NUMBERS]);

/* One pass. A function: depth, parent; whether there is a source, its place, its length; first line, last line; parameters, vararg, stack; how many instructions, constants,
 * upvalues, nested functions, deltas, anchors, locals, upvalue names */
uint64_t lafzimdo_function(const uint8_t *chunk, size_t len, const uint64_t limits[9], size_t function, uint64_t out[LAFZIMDO_FUNCTION_NUMBERS]);

/* One pass, then one over the function's anchors and deltas: the line of the instruction pc */
uint64_t lafzimdo_line(const uint8_t *chunk, size_t len, const uint64_t limits[9], size_t function, size_t pc, uint64_t out[1]);

/* One pass, then one over the anchors, the deltas that are read and the pcs: the lines of the instructions pcs[0], pcs[1], ..: each at the same place of `lines`; how many of the function's deltas were read for them, each once. Refusal 29 where the pcs of the
 * function's anchors do not rise strictly, whatever the pcs are; 30 where a pc is below the one before it; 26 last, where `lines` is shorter than `pcs`. */
uint64_t lafzimdo_lines(const uint8_t *chunk, size_t len, const uint64_t limits[9], size_t function, const uint64_t *pcs, size_t pcs_len, uint64_t *lines, size_t lines_len, uint64_t out[1]);

/* One pass. An instruction: the word */
uint64_t lafzimdo_instruction(const uint8_t *chunk, size_t len, const uint64_t limits[9], size_t function, size_t entry, uint64_t out[1]);

/* One pass. A constant: tag (0 nil, 1 false, 17 true, 3 integer, 19 float, 4 short string, 20 long string); an integer's or a float's bits, or a string's place in the chunk; a string's length */
uint64_t lafzimdo_constant(const uint8_t *chunk, size_t len, const uint64_t limits[9], size_t function, size_t entry, uint64_t out[LAFZIMDO_CONSTANT_NUMBERS]);

/* One pass. An upvalue: instack, idx, kind */
uint64_t lafzimdo_upvalue(const uint8_t *chunk, size_t len, const uint64_t limits[9], size_t function, size_t entry, uint64_t out[LAFZIMDO_UPVALUE_NUMBERS]);

/* One pass. A delta: what an instruction adds to the line, -128 to 127 */
uint64_t lafzimdo_delta(const uint8_t *chunk, size_t len, const uint64_t limits[9], size_t function, size_t entry, uint64_t out[1]);

/* One pass. An anchor: pc, line */
uint64_t lafzimdo_anchor(const uint8_t *chunk, size_t len, const uint64_t limits[9], size_t function, size_t entry, uint64_t out[LAFZIMDO_ANCHOR_NUMBERS]);

/* One pass. A local variable: the name's length, startpc, endpc; the name at the front of `name`, an absent one as `?`. Refusal 26 where `name` is shorter; as long as the chunk is always enough. */
uint64_t lafzimdo_local(const uint8_t *chunk, size_t len, const uint64_t limits[9], size_t function, size_t entry, uint8_t *name, size_t name_len, uint64_t out[LAFZIMDO_LOCAL_NUMBERS]);

/* One pass. An upvalue's name: whether there is one, its place, its length */
uint64_t lafzimdo_upvalue_name(const uint8_t *chunk, size_t len, const uint64_t limits[9], size_t function, size_t entry, uint64_t out[LAFZIMDO_UPVALUE_NAME_NUMBERS]);

/* Two passes. The index: how many functions there are; for each, in the order their bytes begin, 14 numbers at the front of `rows`: start, end, depth, parent; how many instructions, constants,
 * upvalues, nested functions, deltas, anchors, locals, upvalue names; the place of its first instruction word and that of its first constant (with none, the place just after their count).
 * Refusal 26 where `rows` is shorter; lafzimdo_summary says how many functions there are. */
uint64_t lafzimdo_index(const uint8_t *chunk, size_t len, const uint64_t limits[9], uint32_t *rows, size_t rows_len, uint64_t out[1]);

/* One pass where the chunk is spelt as its copy is, as luac writes it, else one or two: the length of the archive copy */
uint64_t lafzimdo_copy_length(const uint8_t *chunk, size_t len, const uint64_t limits[9], uint64_t out[1]);

/* One pass where the chunk is spelt as its copy is, and its bytes are copied; else two or three. The same; the copy at the front of `copy`. Refusal 26 where `copy` is shorter. */
uint64_t lafzimdo_copy(const uint8_t *chunk, size_t len, const uint64_t limits[9], uint8_t *copy, size_t copy_len, uint64_t out[1]);

/* One pass where the chunk is spelt as its full copy is, as luac writes it of one file or of several, else one or two. The length of the full copy: the archive copy, with the source of every nested function that has another than the function around it */
uint64_t lafzimdo_full_copy_length(const uint8_t *chunk, size_t len, const uint64_t limits[9], uint64_t out[1]);

/* One pass where the chunk is spelt as its full copy is, and its bytes are copied; else two or three. The same; the full copy at the front of `copy`. Refusal 26 where `copy` is shorter. */
uint64_t lafzimdo_full_copy(const uint8_t *chunk, size_t len, const uint64_t limits[9], uint8_t *copy, size_t copy_len, uint64_t out[1]);

/* Two passes, and each word is looked at once. The verdict: 0 valid for analysis, 1 invalid, 2 incomplete */
uint64_t lafzimdo_verdict(const uint8_t *chunk, size_t len, const uint64_t limits[9], uint64_t out[1]);

/* Two passes, and each word once: how many findings there are */
uint64_t lafzimdo_finding_count(const uint8_t *chunk, size_t len, const uint64_t limits[9], uint64_t out[1]);

/* Three passes, and each word twice. The verdict, how many findings there are; for each, in the order found, 4 numbers at the front of `list`: its function, its instruction's number, its rule (1 opcode, 2 register, 3 constant, 4 upvalue,
 * 5 table upvalue, 6 prototype, 7 jump) and the offending number (a jump's target may be negative). Only rule 2 is a warning. Refusal 26 where `list` is shorter; 40,004 numbers are always enough. */
uint64_t lafzimdo_findings(const uint8_t *chunk, size_t len, const uint64_t limits[9], uint64_t *list, size_t list_len, uint64_t out[LAFZIMDO_FINDINGS_NUMBERS]);

/* No pass. The fields of an instruction word: opcode, mode (0 iABC, 1 iABx, 2 iAsBx, 3 iAx, 4 isJ, 5 no such opcode), a, k, b, sb, c, sc, bx, sbx, ax, sj. Always 0. */
uint64_t lafzimdo_decode(uint32_t word, uint64_t out[LAFZIMDO_FIELD_NUMBERS]);

/* No pass. The word of an opcode and of the fields that its mode uses. Refusal 28 where there is no such opcode, 27 where a field that is used does not fit. */
uint64_t lafzimdo_encode(uint8_t op, uint8_t a, uint8_t k, uint8_t b, uint8_t c, uint32_t bx, int32_t sbx, uint32_t ax, int32_t sj, uint64_t out[1]);

/* Parts at a place. The calls above take a pass over the chunk each; these take none, and cost what the part costs. They are for going on, in a chunk that was read, from a place that the
 * index or another part gave. 21 and 22 are tested first, as everywhere; a string, a list's count and the instructions of this one function are held against their limits, totals of the chunk are not counted.
 * At a place where no such part begins, the answer is what those bytes spell; at or behind the end of the chunk there are none. Each also gives the place behind the part. */

/* No pass: the cost of its constants. The function that begins at `place`, up to the functions that nest in it: whether there is a source, its place, its length; first line, last line; parameters, vararg, stack;
 * count and place of instructions, constants, upvalues, nested functions (where the first nested function begins, or with none the tail) */
uint64_t lafzimdo_head_at(const uint8_t *chunk, size_t len, const uint64_t limits[9], size_t place, uint64_t out[LAFZIMDO_HEAD_NUMBERS]);

/* No pass: the cost of its anchors and locals. The rest of a function, from the place behind its nested functions on: count and place of deltas, anchors, locals, upvalue names; the place behind the function */
uint64_t lafzimdo_tail_at(const uint8_t *chunk, size_t len, const uint64_t limits[9], size_t place, uint64_t out[LAFZIMDO_TAIL_NUMBERS]);

/* No pass: the word; the place behind */
uint64_t lafzimdo_word_at(const uint8_t *chunk, size_t len, const uint64_t limits[9], size_t place, uint64_t out[LAFZIMDO_WORD_AT_NUMBERS]);

/* No pass: tag, value or a string's place, a string's length, as lafzimdo_constant has them; the place behind */
uint64_t lafzimdo_constant_at(const uint8_t *chunk, size_t len, const uint64_t limits[9], size_t place, uint64_t out[LAFZIMDO_CONSTANT_AT_NUMBERS]);

/* No pass: instack, idx, kind; the place behind */
uint64_t lafzimdo_upvalue_at(const uint8_t *chunk, size_t len, const uint64_t limits[9], size_t place, uint64_t out[LAFZIMDO_UPVALUE_AT_NUMBERS]);

/* No pass: the delta, signed; the place behind */
uint64_t lafzimdo_delta_at(const uint8_t *chunk, size_t len, const uint64_t limits[9], size_t place, uint64_t out[LAFZIMDO_DELTA_AT_NUMBERS]);

/* No pass: pc, line; the place behind */
uint64_t lafzimdo_anchor_at(const uint8_t *chunk, size_t len, const uint64_t limits[9], size_t place, uint64_t out[LAFZIMDO_ANCHOR_AT_NUMBERS]);

/* No pass: whether there is a name (an absent one reads as `?`), its place, its length; startpc, endpc; the place behind */
uint64_t lafzimdo_local_at(const uint8_t *chunk, size_t len, const uint64_t limits[9], size_t place, uint64_t out[LAFZIMDO_LOCAL_AT_NUMBERS]);

/* No pass: whether there is a string, its place, its length; the place behind (upvalue names) */
uint64_t lafzimdo_string_at(const uint8_t *chunk, size_t len, const uint64_t limits[9], size_t place, uint64_t out[LAFZIMDO_STRING_AT_NUMBERS]);

#ifdef __cplusplus
}
#endif

#endif
