/* The texts of include/lafzimdo_text.h. They are those of bindings/rust, which tests/texts.py sees to. */
#include "lafzimdo_text.h"

#include <stddef.h>

static const char *text_of(const char *const *texts, size_t count, unsigned number) {
    return number < count ? texts[number] : NULL;
}

#define TEXT_OF(texts, number) text_of(texts, sizeof texts / sizeof *texts, number)

const char *lafzimdo_refusal_text(unsigned number) {
    static const char *const texts[] = {
        NULL,
        "the file is cut short (CORE-TRUNC-001)",
        "a place plus a length is 2^64 or more (CORE-OVERFLOW-001)",
        "a number is 2^64 - 128 or more (L54-VARINT-001)",
        "this is no compiled Lua script (L54-HEADER-001)",
        "the version is not 5.4 (L54-HEADER-002)",
        "the check bytes of the header are damaged (L54-HEADER-004)",
        "instructions are not of 4 bytes (L54-HEADER-005)",
        "integers are not of 8 bytes (L54-HEADER-006)",
        "floats are not of 8 bytes (L54-HEADER-007)",
        "the test integer is not 22136 (L54-HEADER-008)",
        "the test float is not 370.5 (L54-HEADER-009)",
        "a constant's tag is unknown (L54-CONST-002)",
        "a string is longer than max_string_bytes (L54-STR-001)",
        "a function has more instructions than max_instructions_per_proto (L54-CODE-001)",
        "there are more instructions than max_total_instructions (CORE-LIMIT-004)",
        "a function has more constants than max_constants_per_proto (L54-CONST-001)",
        "a function has more upvalues than max_upvalues_per_proto (L54-UPVAL-001)",
        "a function has more nested functions than max_total_prototypes (L54-PROTO-001)",
        "a function is nested deeper than max_nesting_depth (CORE-LIMIT-001)",
        "there are more nested functions than max_total_prototypes (CORE-LIMIT-002)",
        "a limit is above its ceiling",
        "the file is longer than max_input_bytes",
        "there is no function of that number",
        "there is no entry of that number",
        "a first line or an anchor's line is 2^62 or more",
        "the space lent is shorter than the result",
        "a field of an instruction word is out of range",
        "there is no opcode above 82",
        "the pcs of the function's anchors do not rise strictly",
        "a pc of the list is below the one before it",
        "the format byte is not 0 (Lua's loader: format mismatch)",
        "a number that Lua reads as an int is 2^31 - 128 or more (Lua's loader: integer overflow)",
        "a string constant has size 0 (Lua's loader: bad format for constant string)",
    };
    return TEXT_OF(texts, number);
}

const char *lafzimdo_opcode_name(unsigned opcode) {
    static const char *const names[LAFZIMDO_OPCODES] = {
        "MOVE", "LOADI", "LOADF", "LOADK", "LOADKX", "LOADFALSE", "LFALSESKIP", "LOADTRUE", "LOADNIL", "GETUPVAL", "SETUPVAL", "GETTABUP",
        "GETTABLE", "GETI", "GETFIELD", "SETTABUP", "SETTABLE", "SETI", "SETFIELD", "NEWTABLE", "SELF", "ADDI", "ADDK", "SUBK", "MULK", "MODK",
        "POWK", "DIVK", "IDIVK", "BANDK", "BORK", "BXORK", "SHRI", "SHLI", "ADD", "SUB", "MUL", "MOD", "POW", "DIV", "IDIV", "BAND", "BOR", "BXOR",
        "SHL", "SHR", "MMBIN", "MMBINI", "MMBINK", "UNM", "BNOT", "NOT", "LEN", "CONCAT", "CLOSE", "TBC", "JMP", "EQ", "LT", "LE", "EQK", "EQI",
        "LTI", "LEI", "GTI", "GEI", "TEST", "TESTSET", "CALL", "TAILCALL", "RETURN", "RETURN0", "RETURN1", "FORLOOP", "FORPREP", "TFORPREP",
        "TFORCALL", "TFORLOOP", "SETLIST", "CLOSURE", "VARARG", "VARARGPREP", "EXTRAARG",
    };
    return TEXT_OF(names, opcode);
}

const char *lafzimdo_rule_name(unsigned rule) {
    static const char *const names[] = {NULL, "OPCODE-001", "REG-001", "CONST-001", "UPVAL-001", "UPVAL-002", "PROTO-001", "JUMP-001"};
    return TEXT_OF(names, rule);
}

const char *lafzimdo_rule_text(unsigned rule) {
    static const char *const texts[] = {
        NULL,
        "there is no opcode",
        "beyond the stack is register",
        "there is no constant",
        "there is no upvalue",
        "there is no upvalue",
        "there is no nested function",
        "outside the function is the jump's target",
    };
    return TEXT_OF(texts, rule);
}

const char *lafzimdo_verdict_name(unsigned verdict) {
    static const char *const names[] = {"valid-for-analysis", "invalid", "incomplete"};
    return TEXT_OF(names, verdict);
}

const char *lafzimdo_warning_text(unsigned warning) {
    static const char *const texts[] = {
        NULL,
        "the format byte is not 0: Lua's own loader refuses the chunk (L54-HEADER-003)",
        "bytes follow the main function: Lua's own loader does not look at them (L54-CHUNK-001)",
    };
    return TEXT_OF(texts, warning);
}
