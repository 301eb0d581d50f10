# Instruction words by their fields, and the opcodes that a rule names.
LOADK, LOADKX, GETUPVAL, SETUPVAL, GETTABUP, SETTABUP = 3, 4, 9, 10, 11, 15
JMP, RETURN0, FORLOOP, CLOSURE, VARARGPREP, EXTRAARG = 56, 71, 73, 79, 81, 82
MOVE = 0
LAST_OPCODE = 82


def iabc(op, a=0, b=0, c=0, k=0):
    return op | a << 7 | k << 15 | b << 16 | c << 24


def iabx(op, a=0, bx=0):
    return op | a << 7 | bx << 15


def jump(sj):
    return JMP | (sj + 16777215) << 7
