/* Lafzimdo: texts for people, and the names of opcodes. Plain C, not proved; in the library that `make` builds, or compile bindings/c/lafzimdo_text.c with your program.
 * Each call gives a text that stays, or NULL where there is no such number. */
#ifndef LAFZIMDO_TEXT_H
#define LAFZIMDO_TEXT_H

#ifdef __cplusplus
extern "C" {
#endif

/* The opcodes (lopcodes.h), by their numbers. */
enum lafzimdo_opcode {
    LAFZIMDO_OP_MOVE, LAFZIMDO_OP_LOADI, LAFZIMDO_OP_LOADF, LAFZIMDO_OP_LOADK, LAFZIMDO_OP_LOADKX, LAFZIMDO_OP_LOADFALSE, LAFZIMDO_OP_LFALSESKIP,
    LAFZIMDO_OP_LOADTRUE, LAFZIMDO_OP_LOADNIL, LAFZIMDO_OP_GETUPVAL, LAFZIMDO_OP_SETUPVAL, LAFZIMDO_OP_GETTABUP, LAFZIMDO_OP_GETTABLE,
    LAFZIMDO_OP_GETI, LAFZIMDO_OP_GETFIELD, LAFZIMDO_OP_SETTABUP, LAFZIMDO_OP_SETTABLE, LAFZIMDO_OP_SETI, LAFZIMDO_OP_SETFIELD, LAFZIMDO_OP_NEWTABLE,
    LAFZIMDO_OP_SELF, LAFZIMDO_OP_ADDI, LAFZIMDO_OP_ADDK, LAFZIMDO_OP_SUBK, LAFZIMDO_OP_MULK, LAFZIMDO_OP_MODK, LAFZIMDO_OP_POWK, LAFZIMDO_OP_DIVK,
    LAFZIMDO_OP_IDIVK, LAFZIMDO_OP_BANDK, LAFZIMDO_OP_BORK, LAFZIMDO_OP_BXORK, LAFZIMDO_OP_SHRI, LAFZIMDO_OP_SHLI, LAFZIMDO_OP_ADD, LAFZIMDO_OP_SUB,
    LAFZIMDO_OP_MUL, LAFZIMDO_OP_MOD, LAFZIMDO_OP_POW, LAFZIMDO_OP_DIV, LAFZIMDO_OP_IDIV, LAFZIMDO_OP_BAND, LAFZIMDO_OP_BOR, LAFZIMDO_OP_BXOR,
    LAFZIMDO_OP_SHL, LAFZIMDO_OP_SHR, LAFZIMDO_OP_MMBIN, LAFZIMDO_OP_MMBINI, LAFZIMDO_OP_MMBINK, LAFZIMDO_OP_UNM, LAFZIMDO_OP_BNOT, LAFZIMDO_OP_NOT,
    LAFZIMDO_OP_LEN, LAFZIMDO_OP_CONCAT, LAFZIMDO_OP_CLOSE, LAFZIMDO_OP_TBC, LAFZIMDO_OP_JMP, LAFZIMDO_OP_EQ, LAFZIMDO_OP_LT, LAFZIMDO_OP_LE,
    LAFZIMDO_OP_EQK, LAFZIMDO_OP_EQI, LAFZIMDO_OP_LTI, LAFZIMDO_OP_LEI, LAFZIMDO_OP_GTI, LAFZIMDO_OP_GEI, LAFZIMDO_OP_TEST, LAFZIMDO_OP_TESTSET,
    LAFZIMDO_OP_CALL, LAFZIMDO_OP_TAILCALL, LAFZIMDO_OP_RETURN, LAFZIMDO_OP_RETURN0, LAFZIMDO_OP_RETURN1, LAFZIMDO_OP_FORLOOP, LAFZIMDO_OP_FORPREP,
    LAFZIMDO_OP_TFORPREP, LAFZIMDO_OP_TFORCALL, LAFZIMDO_OP_TFORLOOP, LAFZIMDO_OP_SETLIST, LAFZIMDO_OP_CLOSURE, LAFZIMDO_OP_VARARG,
    LAFZIMDO_OP_VARARGPREP, LAFZIMDO_OP_EXTRAARG
};
#define LAFZIMDO_OPCODES 83

/* Why a refusal of that number (LAFZIMDO_NUMBER) is one: "the file is cut short (CORE-TRUNC-001)". */
const char *lafzimdo_refusal_text(unsigned number);

/* An opcode's name: "MOVE". */
const char *lafzimdo_opcode_name(unsigned opcode);

/* A rule's name and what is wrong, in words that the finding's number completes: "JUMP-001", "outside the function is the jump's target". */
const char *lafzimdo_rule_name(unsigned rule);
const char *lafzimdo_rule_text(unsigned rule);

/* A verdict: "valid-for-analysis". */
const char *lafzimdo_verdict_name(unsigned verdict);

/* A warning of the summary: "bytes follow the main function: .. (L54-CHUNK-001)". */
const char *lafzimdo_warning_text(unsigned warning);

#ifdef __cplusplus
}
#endif

#endif
