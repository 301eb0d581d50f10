//! A function's code, with what its operands stand for.
use lafzimdo::{decode, Constant, Function, Instruction};

/// The names of the metamethods, by their numbers (ltm.h).
const EVENTS: [&str; 25] = [
    "index", "newindex", "gc", "mode", "len", "eq", "add", "sub", "mul", "mod", "pow", "div", "idiv", "band", "bor",
    "bxor", "shl", "shr", "unm", "bnot", "lt", "le", "concat", "call", "close",
];

pub fn event(number: u8) -> String {
    format!("__{}", EVENTS.get(usize::from(number)).unwrap_or(&"?"))
}

/// A function of which the words and what they name have been read.
pub struct Code<'a> {
    pub function: Function<'a>,
    pub words: Vec<u32>,
    pub constants: Vec<Constant<'a>>,
    upvalue_names: Vec<Option<&'a [u8]>>,
    pub nested: Vec<Nested>,
    lines: Option<Vec<u64>>,
}

/// A nested function: its number, where it begins, its first and last line.
pub struct Nested {
    pub number: usize,
    pub start: usize,
    pub lines: (u64, u64),
}

impl<'a> Code<'a> {
    pub fn new(function: Function<'a>) -> Code<'a> {
        let nested = function.nested().map(|nested| {
            let fields = nested.fields();
            let lines = (fields.line_defined, fields.last_line_defined);
            Nested { number: nested.number(), start: nested.start(), lines }
        });
        Code {
            words: function.instructions().collect(),
            constants: function.constants().collect(),
            upvalue_names: function.upvalue_names().collect(),
            nested: nested.collect(),
            lines: lines(&function),
            function,
        }
    }

    pub fn instruction(&self, pc: usize) -> Instruction {
        decode(self.words[pc])
    }

    /// The line of an instruction, where the function has lines.
    pub fn line(&self, pc: usize) -> Option<u64> {
        self.lines.as_ref().map(|lines| lines[pc])
    }

    /// The name of an upvalue, where it has one.
    pub fn upvalue_name(&self, upvalue: u8) -> Option<&'a [u8]> {
        self.upvalue_names.get(usize::from(upvalue)).copied().flatten()
    }

    /// What the word behind an instruction adds to it.
    pub fn extra(&self, pc: usize) -> u64 {
        self.words.get(pc + 1).map_or(0, |word| decode(*word).ax.into())
    }

    /// Whether that word is there for it.
    pub fn next_is_extra(&self, pc: usize) -> bool {
        self.words.get(pc + 1).is_some_and(|word| decode(*word).name() == Some("EXTRAARG"))
    }

    /// The constant of an instruction's number.
    pub fn constant(&self, constant: u64) -> Option<&Constant<'a>> {
        self.constants.get(usize::try_from(constant).ok()?)
    }
}

/// The lines of a function's instructions; none where they are stripped, or too large to be told.
pub fn lines(function: &Function<'_>) -> Option<Vec<u64>> {
    let counts = function.fields().counts;
    let stored = counts.line_info > 0 || counts.abs_line_info == counts.instructions;
    stored.then(|| function.computed_lines().ok()).flatten()
}
