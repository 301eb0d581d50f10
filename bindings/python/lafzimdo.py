"""Compiled Lua 5.4 scripts (chunks), read by the proved code of liblafzimdo. One module over ctypes, standard library only; Python 3.9 or later, x86-64, Linux.

    import lafzimdo

    chunk = lafzimdo.Chunk.read(open("recentre.luac", "rb").read())
    for function in chunk.functions:
        print(function.number, function.line_defined, [constant.value for constant in function.constants()])
    print(chunk.verdict())
    open("archive.luac", "wb").write(chunk.copy())

What is refused raises `Refused`, with its number, its place and why. Strings of a chunk are bytes. Lists of a function are gone through from place to place: the whole of a chunk costs a few passes
over it. The library is looked for in the folder (or the file) that LAFZIMDO_SO names, then in target/lib of the repository around this file, then where `make install` put it. Not proved is what this
module adds: handing numbers on.
"""
import ctypes
import ctypes.util
import enum
import os
import pathlib
import struct
from typing import NamedTuple, Optional, Union

__version__ = "0.1.0"
SONAME = "liblafzimdo.so.0"


def _candidates():
    named = os.environ.get("LAFZIMDO_SO")
    if named:
        return [os.path.join(named, SONAME) if os.path.isdir(named) else named]
    own = pathlib.Path(__file__).resolve().parents[2] / "target/lib" / SONAME
    return ([str(own)] if own.is_file() else []) + [SONAME]


def _version(text):
    major, minor, patch = map(int, text.split("."))
    return 1_000_000 * major + 1_000 * minor + patch


def _load():
    """The library, of this module's own version: in another, arrays may hold other numbers."""
    errors = []
    for name in _candidates():
        try:
            library = ctypes.CDLL(name)
            library.lafzimdo_version.restype = ctypes.c_uint64
            if library.lafzimdo_version() == _version(__version__):
                return library
            errors.append(f"{name}: its version is {library.lafzimdo_version()}, and the module's {_version(__version__)}")
        except (OSError, AttributeError) as error:
            errors.append(str(error))
    raise OSError(f"liblafzimdo is not found ({'; '.join(errors)}): run make at the top of the repository, or make install; or name its folder in LAFZIMDO_SO")


_library = _load()
# More than any call fills.
_ROOM = 64
_Out = ctypes.c_uint64 * _ROOM


def _text(name, number):
    """A text of lafzimdo_text.h; None where there is none, or where the library was built without texts."""
    call = getattr(_library, name, None)
    if call is None:
        return None
    call.restype = ctypes.c_char_p
    found = call(ctypes.c_uint(number))
    return None if found is None else found.decode()


def _size(number):
    if not 0 <= number < 1 << 64:
        raise OverflowError(f"{number} is no number of 64 bits")
    return ctypes.c_size_t(number)


class Refused(ValueError):
    """What a call refuses: its number, its place in the file or None, and why."""

    def __init__(self, status):
        self._status = status
        self.number = status & 255
        self.place = (status >> 8) - 1 if status >> 8 else None
        self.text = _text("lafzimdo_refusal_text", self.number) or "no text for this number"
        super().__init__(f"refused {self.number}" + ("" if self.place is None else f" at {self.place}") + f": {self.text}")

    def __reduce__(self):
        """As it was made: a process of a pool sends it so, and one that could not be made again would stop the pool."""
        return type(self), (self._status,), self.__dict__


def _ask(name, *arguments):
    """What a call fills, from the front; more than it has stand behind."""
    call = getattr(_library, name)
    call.restype = ctypes.c_uint64
    out = _Out()
    status = call(*arguments, out)
    if status:
        raise Refused(status)
    return out


def _signed(number, bits=64):
    return number - (1 << bits) if number >> (bits - 1) else number


class Limits(NamedTuple):
    """The limits of reading, each at its ceiling where it is not given. Above a ceiling is refusal 21."""

    max_input_bytes: int = 16777216
    max_nesting_depth: int = 14
    max_total_prototypes: int = 16777216
    max_instructions_per_proto: int = 16777216
    max_total_instructions: int = 16777216
    max_constants_per_proto: int = 16777216
    max_upvalues_per_proto: int = 16777216
    max_string_bytes: int = 16777216
    max_diagnostics: int = 10000


class Header(NamedTuple):
    version: int
    format: int
    instruction_size: int
    lua_integer_size: int
    sizeof_sizet: int
    lua_number_size: int
    luac_num: float


class Warned(NamedTuple):
    """What was unusual in reading: 1, the format byte is not 0; 2, bytes follow the main function."""

    number: int
    place: int

    @property
    def text(self):
        return _text("lafzimdo_warning_text", self.number)


class Tag(enum.IntEnum):
    NIL = 0
    FALSE = 1
    TRUE = 17
    INTEGER = 3
    FLOAT = 19
    SHORT_STRING = 4
    LONG_STRING = 20


class Constant(NamedTuple):
    """A constant: None, False, True, an int, a float or bytes; `bits` are those of an integer or a float."""

    tag: Tag
    value: Union[None, bool, int, float, bytes]
    bits: int = 0


class Upvalue(NamedTuple):
    instack: int
    idx: int
    kind: int


class Anchor(NamedTuple):
    pc: int
    line: int


class Local(NamedTuple):
    """A local variable, in scope from startpc up to endpc; an absent name is `?`."""

    name: bytes
    startpc: int
    endpc: int


class Verdict(enum.IntEnum):
    VALID_FOR_ANALYSIS = 0
    INVALID = 1
    INCOMPLETE = 2

    def __str__(self):
        return _text("lafzimdo_verdict_name", self.value)


class Finding(NamedTuple):
    """An instruction that breaks a rule: its function, its number in it, the rule's number and the number that breaks it."""

    function: int
    pc: int
    rule: int
    number: int

    @property
    def name(self):
        return _text("lafzimdo_rule_name", self.rule)

    @property
    def severity(self):
        """Only a register (rule 2) is a warning."""
        return "warning" if self.rule == 2 else "error"

    @property
    def text(self):
        return f"{_text('lafzimdo_rule_text', self.rule)} {self.number}"


class Instruction(NamedTuple):
    """Every field that a word has in some mode (0 iABC, 1 iABx, 2 iAsBx, 3 iAx, 4 isJ, 5: there is no such opcode)."""

    opcode: int
    mode: int
    a: int
    k: int
    b: int
    sb: int
    c: int
    sc: int
    bx: int
    sbx: int
    ax: int
    sj: int

    @property
    def name(self):
        """The opcode's name, or None."""
        return _text("lafzimdo_opcode_name", self.opcode)


def decode(word):
    """The fields of an instruction word."""
    return Instruction(*map(_signed, _ask("lafzimdo_decode", ctypes.c_uint32(word))[:12]))


def encode(opcode, a=0, k=0, b=0, c=0, bx=0, sbx=0, ax=0, sj=0):
    """The word of an opcode and of the fields that its mode uses. Refused with 28 where there is no such opcode, with 27 where a field does not fit."""
    if not all(0 <= byte < 256 for byte in (opcode, a, k, b, c)) or not all(0 <= n < 1 << 32 for n in (bx, ax)) or not all(-1 << 31 <= n < 1 << 31 for n in (sbx, sj)):
        raise OverflowError("a field is beyond the bits of its type")
    bytes_ = map(ctypes.c_uint8, (opcode, a, k, b, c))
    return _ask("lafzimdo_encode", *bytes_, ctypes.c_uint32(bx), ctypes.c_int32(sbx), ctypes.c_uint32(ax), ctypes.c_int32(sj))[0]


def opcode_name(opcode):
    """The name of an opcode, or None where there is none of that number."""
    return _text("lafzimdo_opcode_name", opcode)


_ROW = 14
_MOST_FINDINGS = 10001


class Chunk:
    """A chunk that was read."""

    def __init__(self, data, limits, summary):
        """By `read`."""
        self.bytes, self.limits = data, limits
        self._limits = (ctypes.c_uint64 * 9)(*_fitting(limits))
        self.header = Header(*summary[:6], struct.unpack("<d", struct.pack("<Q", summary[6]))[0])
        self.function_count = summary[7]
        self.trailing_place = summary[8]
        self.trailing_bytes = data[summary[8]:summary[8] + summary[9]]
        self.warnings = [Warned(*pair) for pair in (summary[10:12], summary[12:14]) if pair[0]]
        self.padded_numbers = summary[14]
        self._rows = self._functions = None

    @classmethod
    def read(cls, data, limits=Limits(), strict=False):
        """Reads a chunk, in one pass. `data` are its bytes. With `strict` as Lua's own loader would, in two passes: what it objects to is refused besides, with 31 (a format byte other than 0), 32 (a
        number of 2^31 - 128 or more that the loader reads as an int) and 33 (a string constant of size 0); what is read is the same chunk."""
        data = bytes(data)
        numbers = (ctypes.c_uint64 * 9)(*_fitting(limits))
        call = "lafzimdo_strict_summary" if strict else "lafzimdo_summary"
        return cls(data, Limits(*limits), _ask(call, data, ctypes.c_size_t(len(data)), numbers)[:15])

    def __reduce__(self):
        """By its bytes, which are read again: what was read strictly is read without it too, and is the same chunk."""
        return type(self).read, (self.bytes, self.limits)

    def __repr__(self):
        return f"<lafzimdo.Chunk of {len(self.bytes)} bytes, {self.function_count} functions>"

    def _call(self, name, *arguments):
        numbers = [_size(n) if isinstance(n, int) else n for n in arguments]
        return _ask("lafzimdo_" + name, self.bytes, ctypes.c_size_t(len(self.bytes)), self._limits, *numbers)

    def _string(self, present, place, length):
        return self.bytes[place:place + length] if present else None

    # ---- Functions

    @property
    def index(self):
        """A row of numbers for each function: start, end, depth, parent, how long its eight lists are, and where its words and its constants begin. Made once, in two passes."""
        if self._rows is None:
            rows = (ctypes.c_uint32 * (_ROW * self.function_count))()
            self._call("index", rows, len(rows))
            self._rows = [tuple(rows[at:at + _ROW]) for at in range(0, len(rows), _ROW)]
        return self._rows

    @property
    def functions(self):
        """All functions, from main on, in the order their bytes begin: a function's number is its place in this list."""
        if self._functions is None:
            self._functions = [Function(self, number) for number in range(self.function_count)]
            for function in self._functions[1:]:
                function.parent._nested.append(function)
        return self._functions

    # ---- Validation and the archive copy

    def verdict(self):
        return Verdict(self._call("verdict")[0])

    def findings(self):
        """The findings, in the order found; at most 10,001."""
        found = (ctypes.c_uint64 * (4 * _MOST_FINDINGS))()
        count = self._call("findings", found, len(found))[1]
        return [Finding(*found[at:at + 3], _signed(found[at + 3])) for at in range(0, 4 * count, 4)]

    def copy(self):
        """The archive copy: the same for every spelling of one script."""
        return self._copied("copy")

    def full_copy(self):
        """The same, with the source of every nested function that has another than the function around it."""
        return self._copied("full_copy")

    def _copied(self, call):
        room = self._call(call + "_length")[0]
        copied = (ctypes.c_uint8 * max(room, 1))()
        return bytes(copied[:self._call(call, copied, room)[0]])

    # ---- Single questions by numbers: a pass over the chunk each

    def line(self, function, pc):
        """The line of an instruction; any pc may be asked. Refused with 25 where lines are 2^62 or more."""
        return self._call("line", function, pc)[0]

    def lines(self, function, pcs):
        """The lines of a list of pcs that never falls, in one pass: their list, and how many of the function's line deltas were read for them, each once. Refused with 29 where the pcs of the
        function's anchors do not rise strictly, with 30 where a pc is below the one before it."""
        asked = (ctypes.c_uint64 * max(len(pcs), 1))(*[_size(pc).value for pc in pcs])
        lines = (ctypes.c_uint64 * max(len(pcs), 1))()
        read = self._call("lines", function, asked, len(pcs), lines, len(pcs))[0]
        return list(lines[:len(pcs)]), read


def _fitting(limits):
    """The limits as numbers of 64 bits."""
    if len(limits) != 9:
        raise ValueError("there are nine limits")
    return [_size(limit).value for limit in limits]


def _function(chunk, number):
    return chunk.functions[number]


class Function:
    """A function of a chunk. Its fields are read when they are first asked for; its lists are gone through from place to place."""

    def __init__(self, chunk, number):
        self.chunk, self.number = chunk, number
        self._row, self._nested, self._parts, self._own_source = chunk.index[number], [], None, None

    def __reduce__(self):
        """By its chunk and its number: functions of one chunk that are sent together have one chunk there too."""
        return _function, (self.chunk, self.number)

    def __repr__(self):
        return f"<lafzimdo.Function {self.number}, lines {self.line_defined} to {self.last_line_defined}>"

    start = property(lambda self: self._row[0], doc="Where it begins in the chunk.")
    end = property(lambda self: self._row[1], doc="The place just behind its last byte.")
    depth = property(lambda self: self._row[2], doc="How deep it is nested; main is 0.")
    counts = property(lambda self: self._row[4:12], doc="How long its lists are: instructions, constants, upvalues, nested functions, deltas, anchors, locals, upvalue names.")

    @property
    def parent(self):
        """The function that it is nested in; of main itself."""
        return self.chunk.functions[self._row[3]]

    def nested(self):
        """The functions nested in it, in the order in which CLOSURE counts them."""
        return list(self._nested)

    @property
    def _both(self):
        """Its part before the nested functions, and that behind them, which begins where the last of them ends."""
        if self._parts is None:
            self.chunk.functions
            head = self.chunk._call("head_at", self.start)[:16]
            tail = self.chunk._call("tail_at", self._nested[-1].end if self._nested else head[15])[:9]
            self._parts = head, tail
        return self._parts

    @property
    def source(self) -> Optional[bytes]:
        """Its source; an absent one is its parent's, the same object: thousands of functions may share a long one."""
        if self._own_source is None:
            self._own_source = self.chunk._string(*self._both[0][:3])
        return self.parent.source if self._own_source is None and self.number else self._own_source

    line_defined = property(lambda self: self._both[0][3])
    last_line_defined = property(lambda self: self._both[0][4])
    numparams = property(lambda self: self._both[0][5])
    is_vararg = property(lambda self: self._both[0][6])
    maxstacksize = property(lambda self: self._both[0][7])

    # ---- Lists

    def _entries(self, part, at, call, shown):
        """The entries of a list: its count and place stand at `at` of a part; each call gives the place behind the entry last."""
        numbers, size = shown
        count, place = self._both[part][at:at + 2]
        for _ in range(count):
            out = self.chunk._call(call, place)
            place = out[size]
            yield numbers(*out[:size])

    def instructions(self):
        """Its instruction words; `decode` takes one apart."""
        return self._entries(0, 8, "word_at", (int, 1))

    def constants(self):
        return self._entries(0, 10, "constant_at", (self._constant, 3))

    def _constant(self, tag, number, length):
        tag = Tag(tag)
        if tag in (Tag.SHORT_STRING, Tag.LONG_STRING):
            return Constant(tag, self.chunk.bytes[number:number + length])
        if tag is Tag.INTEGER:
            return Constant(tag, _signed(number), number)
        if tag is Tag.FLOAT:
            return Constant(tag, struct.unpack("<d", struct.pack("<Q", number))[0], number)
        return Constant(tag, {Tag.NIL: None, Tag.FALSE: False, Tag.TRUE: True}[tag])

    def upvalues(self):
        return self._entries(0, 12, "upvalue_at", (Upvalue, 3))

    def deltas(self):
        """Its line information: how far each instruction's line is from the one before."""
        return self._entries(1, 0, "delta_at", (_signed, 1))

    def anchors(self):
        """Its absolute line information."""
        return self._entries(1, 2, "anchor_at", (Anchor, 2))

    def locals(self):
        """Its local variables."""
        named = lambda present, place, length, startpc, endpc: Local(self.chunk._string(present, place, length) if present else b"?", startpc, endpc)
        return self._entries(1, 4, "local_at", (named, 5))

    def upvalue_names(self):
        """The names of its upvalues, None where one is absent; there may be more or fewer of them than upvalues."""
        return self._entries(1, 6, "string_at", (self.chunk._string, 3))

    def line(self, pc):
        """The line of an instruction, in a pass over the chunk; any pc may be asked."""
        return self.chunk.line(self.number, pc)

    def lines(self):
        """The line of each instruction, in one pass over the chunk; a pass for each where the pcs of its anchors do not rise strictly."""
        pcs = range(self.counts[0])
        try:
            return self.chunk.lines(self.number, pcs)[0]
        except Refused as refused:
            if refused.number != 29:
                raise
            return [self.line(pc) for pc in pcs]
