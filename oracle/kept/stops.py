# Validation that stops at 10,000 findings. Whole answers are long, above all those with warnings alone: one word each, and the list of both. So most of
# what is kept asks for the verdict and the number of findings alone.
from .build import Function, chunk
from .instructions import LOADK, MOVE, iabc, iabx

MOST = 10000
WARNED = iabc(MOVE, 9)  # a register beyond the stack
WRONG = 0x53  # no opcode
TWICE = iabx(LOADK, 9, 0)  # a register beyond the stack and a constant that is not there
FINE = iabc(MOVE)


def warned(main, warnings):
    """The chunk with so many warnings of reading: a format byte, then trailing bytes."""
    return chunk(main, format=bytes([warnings > 0]), trailing=b"\x07" * (warnings > 1))


def spread(word, count, parts, **rest):
    """So many words over functions side by side; the first are main's."""
    share = count // parts
    nested = [Function(words=[word] * share) for _ in range(parts - 1)]
    return Function(words=[word] * (count - share * (parts - 1)), nested=nested, **rest)


def kept(requests):
    """Two findings at most instructions, so half the words. After 9,999 findings an instruction without any, and then one that brings them to 10,001;
    the same with a warning of reading, which makes 9,999 the last. The words behind are not looked at."""
    requests.title("stops: at 10,001 findings, and at 9,999 with a warning of reading")
    main = spread(TWICE, MOST // 2 - 5, 9)
    main.nested.append(Function(words=[WARNED] + [TWICE] * 4 + [FINE, TWICE, TWICE], nested=[Function(words=[TWICE])]))
    for warnings in (0, 1):
        requests.chunk(warned(main, warnings))


def verdicts(requests):
    requests.title("stops: the verdict alone, of what is read and of what is refused")
    for words in ([], [FINE], [WARNED], [WRONG], [TWICE, FINE]):
        requests.verdict(chunk(Function(words=words)))
        requests.verdict(warned(Function(words=words), 2), max_diagnostics=1)
    requests.verdict(chunk(Function())[:-1])
    requests.verdict(b"")
    requests.verdict(chunk(Function()), max_diagnostics=10001)
    requests.verdict(chunk(Function(words=[FINE])), max_total_instructions=0)
    requests.title("stops: register warnings, with warnings of reading kept and dropped")
    # So many warnings of reading, the limit that keeps some of them, and counts of register warnings: up to 10,000 in all is no stop.
    for warnings, limit, counts in ((0, 0, (MOST - 1, MOST, MOST + 1)), (1, 0, (MOST,)), (1, 1, (MOST - 1, MOST)), (2, 0, (MOST,)),
                                    (2, 1, (MOST - 1, MOST)), (2, 2, (MOST - 2, MOST - 1))):
        for count in counts:
            requests.verdict(warned(Function(words=[WARNED] * count), warnings), max_diagnostics=limit)
    requests.title("stops: a function without instructions behind the last finding, and before it; several functions")
    empty = Function()
    for count in (MOST - 1, MOST):
        requests.verdict(chunk(Function(words=[WARNED] * count, nested=[Function(nested=[empty])])))
    requests.verdict(chunk(Function(nested=[Function(words=[WARNED] * MOST), empty])))
    requests.verdict(chunk(Function(nested=[empty, Function(words=[WARNED] * MOST)])))
    for count in (MOST, MOST + 1):
        requests.verdict(chunk(spread(WARNED, count, 100)))


def incomplete(requests):
    """The shortest answer with this verdict: two warnings of reading, 9,998 of registers, and an instruction more."""
    requests.title("stops: incomplete")
    requests.chunk(warned(spread(WARNED, MOST - 1, 10), 2))


def warnings_alone(requests):
    requests.title("stops: 9,998 to 10,001 register warnings, with warnings of reading kept and dropped")
    for count in (MOST - 2, MOST - 1, MOST, MOST + 1):
        for warnings in (0, 1, 2):
            for limit in range(warnings + 1):
                requests.chunk(warned(Function(words=[WARNED] * count), warnings), max_diagnostics=limit)


def what_follows(requests):
    requests.title("stops: what follows the last finding")
    empty, fine = Function(), Function(words=[FINE])
    for count in (MOST - 1, MOST):
        words = [WARNED] * count
        for main in (Function(words=words, nested=[empty]), Function(words=words + [FINE]), Function(words=words, nested=[fine]),
                     Function(words=words, nested=[Function(nested=[empty])]), Function(nested=[Function(words=words), empty]),
                     Function(nested=[empty, Function(words=words)]), Function(words=words + [WRONG]),
                     Function(words=words, nested=[Function(words=[WRONG])])):
            requests.chunk(chunk(main))
            requests.chunk(chunk(main, format=b"\x01"))


def errors_and_twice(requests):
    requests.title("stops: errors among them, and two findings at the last instruction")
    for words in ([WRONG] * (MOST + 1), [WRONG] + [WARNED] * (MOST - 1), [WARNED] * (MOST - 1) + [WRONG], [WARNED] * MOST + [WRONG],
                  [WARNED] * (MOST - 1) + [TWICE], [WARNED] * (MOST - 1) + [TWICE, TWICE], [WARNED] * (MOST - 2) + [TWICE], [TWICE] * (MOST // 2 + 1),
                  [WARNED] + [TWICE] * (MOST // 2)):
        requests.chunk(chunk(Function(words=words)))
        requests.chunk(chunk(Function(words=words, nested=[Function()]), trailing=b"\x01"))
    requests.title("stops: over several functions")
    for parts in (2, 10, 100):
        for count in (MOST - 1, MOST, MOST + 1):
            requests.chunk(chunk(spread(WARNED, count, parts)))
            requests.chunk(chunk(spread(WARNED, count, parts, source=b"@s"), format=b"\x01"))
