# Validation: every rule for every opcode that it concerns, at the index and one below; jumps; which function; two findings at one instruction.
from .build import Function, chunk
from .instructions import (CLOSURE, EXTRAARG, FORLOOP, GETTABUP, GETUPVAL, JMP, LAST_OPCODE, LOADK, LOADKX, MOVE, RETURN0, SETTABUP, SETUPVAL,
                           VARARGPREP, iabc, iabx, jump)

NIL, UPVALUE = ("nil",), (0, 0, 0)


def stacks(requests):
    requests.title("validation: every opcode with A at the stack size and one below")
    for op in range(LAST_OPCODE + 1):
        # Without an index beyond: only the register is wrong. Jumps have no A: theirs are below.
        words = [jump(-1)] if op == JMP else [op | a << 7 for a in (4, 5, 255)]
        requests.chunk(chunk(Function(stack=5, words=words, constants=[NIL], upvalues=[UPVALUE] * 6, nested=[Function()])))
    requests.title("validation: stack sizes at their ends")
    for stack, a in ((0, 0), (1, 0), (1, 1), (254, 254), (255, 254), (255, 255), (0, 255)):
        words = [iabc(op, a) for op in (MOVE, RETURN0, VARARGPREP, EXTRAARG, FORLOOP, LOADKX)] + [iabc(SETTABUP, 0, 9, 9, 1)]
        requests.chunk(chunk(Function(stack=stack, words=words, upvalues=[UPVALUE])))
    # SETTABUP's A is an upvalue, not a register.
    for a in (0, 1, 2, 3):
        requests.chunk(chunk(Function(stack=2, words=[iabc(SETTABUP, a)], upvalues=[UPVALUE] * 3)))


def opcodes(requests):
    requests.title("validation: words without an opcode")
    for op in range(LAST_OPCODE, 128):
        requests.chunk(chunk(Function(words=[op, op | 0xffffff80])))


def indices(requests):
    requests.title("validation: indices at the count and one below")
    for count in (0, 1, 2, 3, 200):
        for index in sorted({0, max(count - 1, 0), count, count + 1, 255}):
            constants, upvalues = [NIL] * count, [UPVALUE] * count
            if count < 200:
                requests.chunk(chunk(Function(words=[iabx(CLOSURE, 0, index)], nested=[Function()] * count)))
            requests.chunk(chunk(Function(words=[iabx(LOADK, 0, index), iabx(LOADKX, 0, index)], constants=constants)))
            words = [iabc(op, 0, index) for op in (GETUPVAL, SETUPVAL, GETTABUP)] + [iabc(SETTABUP, index)]
            requests.chunk(chunk(Function(words=words, upvalues=upvalues)))
            # Each list has its own count.
            requests.chunk(chunk(Function(words=words + [iabx(LOADK, 0, index), iabx(CLOSURE, 0, index)], constants=[NIL], upvalues=[UPVALUE] * 2,
                                          nested=[Function()] * 3, names=[b"u"] * 5)))
    requests.title("validation: indices at the ends of their fields")
    for upvalues in (255, 256):
        words = [iabc(op, 0, 255) for op in (GETUPVAL, SETUPVAL, GETTABUP)] + [iabc(SETTABUP, 255)]
        requests.chunk(chunk(Function(words=words, upvalues=[UPVALUE] * upvalues)))
    for bx in (131071, 131070, 65536, 256):
        requests.chunk(chunk(Function(words=[iabx(LOADK, 0, bx), iabx(CLOSURE, 0, bx)], constants=[NIL] * 2)))
    # Fields that the rule does not name are anything.
    for op in (GETUPVAL, SETUPVAL, GETTABUP, SETTABUP):
        requests.chunk(chunk(Function(stack=1, words=[iabc(op, 0, 0, 255, 1), iabc(op, 0, 1, 255, 0)], upvalues=[UPVALUE])))
    requests.chunk(chunk(Function(words=[iabc(SETTABUP, 0, 255, 255, 1)], upvalues=[UPVALUE])))


def both(requests):
    requests.title("validation: two findings at one instruction, the register first")
    for word in (iabx(LOADK, 9, 4), iabx(CLOSURE, 9, 4), *(iabc(op, 9, 4) for op in (GETUPVAL, SETUPVAL, GETTABUP, SETTABUP))):
        for stack in (9, 10):
            requests.chunk(chunk(Function(stack=stack, words=[word, MOVE, word])))


def jumps(requests):
    requests.title("validation: jumps to -1, 0, the last instruction, the count")
    for count in range(1, 5):
        for pc in range(count):
            for target in sorted({-2, -1, 0, pc, count - 1, count, count + 1}):
                words = [MOVE] * count
                words[pc] = jump(target - pc - 1)
                requests.chunk(chunk(Function(words=words)))
    requests.title("validation: jumps as far as they go, and 01's")
    for word in (jump(-16777215), jump(16777216), 0x7fffff38, 0x7fffffb8, 0x00000038, 0xffffffb8):
        requests.chunk(chunk(Function(words=[word])))
        requests.chunk(chunk(Function(stack=0, words=[MOVE, word, MOVE])))


def families(requests):
    requests.title("validation: each function by its own counts, in the order of their numbers")
    words = [iabx(LOADK, 0, 1), iabc(GETUPVAL, 1, 1), iabc(SETTABUP, 1), iabx(CLOSURE, 2, 1), jump(1), 0x53, iabc(MOVE, 2)]
    rich = {"constants": [NIL] * 2, "upvalues": [UPVALUE] * 2, "nested": [Function(), Function()], "stack": 3}
    for main in ({}, rich):
        for nested in ({}, rich):
            inner = Function(words=words, **nested)
            requests.chunk(chunk(Function(words=words, **{**main, "nested": [inner]})))
            requests.chunk(chunk(Function(words=words, **{**main, "nested": [Function(words=[MOVE], nested=[inner]), inner]})))
    for stack in (0, 1, 2):
        deep = Function(stack=stack, words=[iabc(MOVE, 1)])
        for _ in range(3):
            deep = Function(stack=2 - stack, words=[iabc(MOVE, 1)], nested=[Function(stack=stack, words=[0x7f]), deep])
        requests.chunk(chunk(deep))
    requests.title("validation: warnings of reading and findings together")
    for limit in (0, 1, 2):
        requests.chunk(chunk(Function(words=[iabc(MOVE, 3), 0x60]), format=b"\x09", trailing=b"\x60"), max_diagnostics=limit)


def random_words(requests, rng, count):
    requests.title("validation: words by chance")
    checked = (LOADK, GETUPVAL, SETUPVAL, GETTABUP, SETTABUP, CLOSURE, JMP)
    for _ in range(count):
        words = []
        for _ in range(rng.randrange(1, 7)):
            op = rng.choice(checked) if rng.randrange(3) else rng.randrange(128)
            word = jump(rng.randrange(-7, 7)) if op == JMP else iabc(op, rng.randrange(4), rng.randrange(4), rng.randrange(256))
            if op in (LOADK, CLOSURE):
                word = iabx(op, rng.randrange(4), rng.randrange(4))
            words.append(word)
        requests.chunk(chunk(Function(stack=rng.randrange(4), words=words, constants=[NIL] * rng.randrange(4), upvalues=[UPVALUE] * rng.randrange(4),
                                      nested=[Function()] * rng.randrange(3))))
