//! Instruction words.
use crate::ffi;
use crate::input::granted;
use crate::refusal::Refusal;

/// How an instruction's fields lie in its word.
#[derive(Debug, Clone, Copy, PartialEq, Eq, Hash)]
#[allow(missing_docs)]
pub enum Mode {
    IABC,
    IABx,
    IAsBx,
    IAx,
    IsJ,
}

impl Mode {
    fn of_number(number: u64) -> Option<Mode> {
        match number {
            0 => Some(Mode::IABC),
            1 => Some(Mode::IABx),
            2 => Some(Mode::IAsBx),
            3 => Some(Mode::IAx),
            4 => Some(Mode::IsJ),
            5 => None,
            other => unreachable!("the library's modes are 0 to 5, not {other}"),
        }
    }
}

/// Every field that a word has in some mode; `mode` says which of them the opcode uses, `None` where there is no such opcode.
#[derive(Debug, Clone, Copy, PartialEq, Eq, Hash, Default)]
#[allow(missing_docs)]
pub struct Instruction {
    pub opcode: u8,
    pub mode: Option<Mode>,
    pub a: u8,
    pub k: u8,
    pub b: u8,
    pub sb: i16,
    pub c: u8,
    pub sc: i16,
    pub bx: u32,
    pub sbx: i32,
    pub ax: u32,
    pub sj: i32,
}

/// The names of the opcodes (lopcodes.h), by number.
const NAMES: [&str; 83] = [
    "MOVE",
    "LOADI",
    "LOADF",
    "LOADK",
    "LOADKX",
    "LOADFALSE",
    "LFALSESKIP",
    "LOADTRUE",
    "LOADNIL",
    "GETUPVAL",
    "SETUPVAL",
    "GETTABUP",
    "GETTABLE",
    "GETI",
    "GETFIELD",
    "SETTABUP",
    "SETTABLE",
    "SETI",
    "SETFIELD",
    "NEWTABLE",
    "SELF",
    "ADDI",
    "ADDK",
    "SUBK",
    "MULK",
    "MODK",
    "POWK",
    "DIVK",
    "IDIVK",
    "BANDK",
    "BORK",
    "BXORK",
    "SHRI",
    "SHLI",
    "ADD",
    "SUB",
    "MUL",
    "MOD",
    "POW",
    "DIV",
    "IDIV",
    "BAND",
    "BOR",
    "BXOR",
    "SHL",
    "SHR",
    "MMBIN",
    "MMBINI",
    "MMBINK",
    "UNM",
    "BNOT",
    "NOT",
    "LEN",
    "CONCAT",
    "CLOSE",
    "TBC",
    "JMP",
    "EQ",
    "LT",
    "LE",
    "EQK",
    "EQI",
    "LTI",
    "LEI",
    "GTI",
    "GEI",
    "TEST",
    "TESTSET",
    "CALL",
    "TAILCALL",
    "RETURN",
    "RETURN0",
    "RETURN1",
    "FORLOOP",
    "FORPREP",
    "TFORPREP",
    "TFORCALL",
    "TFORLOOP",
    "SETLIST",
    "CLOSURE",
    "VARARG",
    "VARARGPREP",
    "EXTRAARG",
];

impl Instruction {
    /// The opcode's name, if there is such an opcode.
    pub fn name(&self) -> Option<&'static str> {
        NAMES.get(usize::from(self.opcode)).copied()
    }
}

/// A word's fields.
pub fn decode(word: u32) -> Instruction {
    let [opcode, mode, a, k, b, sb, c, sc, bx, sbx, ax, sj] = granted(ffi::decode(word));
    Instruction {
        opcode: opcode as u8,
        mode: Mode::of_number(mode),
        a: a as u8,
        k: k as u8,
        b: b as u8,
        sb: sb as i16,
        c: c as u8,
        sc: sc as i16,
        bx: bx as u32,
        sbx: sbx as i32,
        ax: ax as u32,
        sj: sj as i32,
    }
}

/// The word of these fields: the opcode and those that its own mode uses. `mode`, `sb` and `sc` are not looked at.
///
/// ```
/// use lafzimdo::{decode, encode, Instruction, Refusal};
///
/// let load = Instruction { opcode: 1, a: 1, sbx: -1, ..Instruction::default() };
/// assert_eq!(encode(&load), Ok(0x7fff0081));
/// assert_eq!(decode(0x7fff0081).name(), Some("LOADI"));
/// assert_eq!(encode(&decode(0x53)), Err(Refusal::NoOpcode));
/// ```
pub fn encode(fields: &Instruction) -> Result<u32, Refusal> {
    let Instruction { opcode, a, k, b, c, bx, sbx, ax, sj, .. } = *fields;
    ffi::encode(opcode, a, k, b, c, bx, sbx, ax, sj)
}

#[cfg(all(test, repository))]
mod tests {
    use super::*;

    #[test]
    fn names_are_the_librarys() {
        let list = include_str!("../../../crates/word_opcodes/src/opcode.rt");
        let (_, list) = list.split_once("pub enum Opcode54 {").unwrap();
        let (list, _) = list.split_once('}').unwrap();
        let variants = list.split(',').filter_map(|variant| variant.split_once(" = "));
        let names =
            variants.map(|(name, number)| (number.into(), name.trim().to_uppercase().replace("SELFOP", "SELF")));
        let ours = NAMES.iter().enumerate().map(|(number, name)| (number.to_string(), name.to_string()));
        assert_eq!(names.collect::<Vec<(String, String)>>(), ours.collect::<Vec<_>>());
    }
}
