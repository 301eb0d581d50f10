// Chunks from the grammar of 01: a function as a tree, and how it is spelt. A claim is a count that differs from the number of entries behind it.
use crate::chance::Chance;

pub const HEADER: [u8; 31] = [
    0x1b, b'L', b'u', b'a', 0x54, 0, 0x19, 0x93, b'\r', b'\n', 0x1a, b'\n', 4, 8, 8, 0x78, 0x56, 0, 0, 0, 0, 0, 0, 0,
    0, 0, 0, 0, 0x28, 0x77, 0x40,
];
pub const FORMAT: usize = 5;
/// The largest number there is.
pub const LARGEST: u64 = u64::MAX - 128;

/// Bytes, or none where it is absent.
pub type Name = Option<Vec<u8>>;

/// A tag and what follows it; a string has its size there.
pub enum Constant {
    Plain(u8, Vec<u8>),
    String(u8, Name),
}

#[derive(Default)]
pub struct Made {
    pub source: Name,
    pub lines: [u64; 2],
    pub bytes: [u8; 3],
    pub words: Vec<u32>,
    pub constants: Vec<Constant>,
    pub upvalues: Vec<[u8; 3]>,
    pub nested: Vec<Made>,
    pub deltas: Vec<u8>,
    pub anchors: Vec<[u64; 2]>,
    pub locals: Vec<(Name, [u64; 2])>,
    pub names: Vec<Name>,
    /// Which of the eight counts, and what it claims.
    pub claim: Option<(usize, u64)>,
}

/// Writes numbers, with leading zeros now and then where padded.
pub struct Spelling<'a> {
    pub bytes: Vec<u8>,
    padded: Option<Padding<'a>>,
}

/// One number in so many is padded.
pub struct Padding<'a> {
    pub chance: &'a mut Chance,
    pub one_in: usize,
}

/// The shortest spelling.
pub fn number(bytes: &mut Vec<u8>, value: u64) {
    let groups = (64 - value.leading_zeros()).div_ceil(7).max(1);
    for group in (0..groups).rev() {
        let end = if group == 0 { 0x80 } else { 0 };
        bytes.push((value >> (7 * group)) as u8 & 0x7f | end);
    }
}

impl<'a> Spelling<'a> {
    pub fn new(padded: Option<Padding<'a>>) -> Spelling<'a> {
        Spelling { bytes: HEADER.to_vec(), padded }
    }

    fn number(&mut self, value: u64) {
        if let Some(Padding { chance, one_in }) = &mut self.padded {
            let zeros = if chance.one_in(*one_in) { chance.of(&[1, 1, 2, 5, 12]) } else { 0 };
            self.bytes.resize(self.bytes.len() + zeros, 0);
        }
        number(&mut self.bytes, value);
    }

    fn name(&mut self, name: &Name) {
        match name {
            None => self.number(0),
            Some(content) => {
                self.number(content.len() as u64 + 1);
                self.bytes.extend(content);
            }
        }
    }

    fn count(&mut self, made: &Made, which: usize, length: usize) {
        let claimed = made.claim.filter(|(claimed, _)| *claimed == which);
        self.number(claimed.map_or(length as u64, |(_, count)| count));
    }

    fn pair(&mut self, [first, second]: [u64; 2]) {
        self.number(first);
        self.number(second);
    }

    pub fn function(&mut self, made: &Made) {
        self.name(&made.source);
        self.pair(made.lines);
        self.bytes.extend(made.bytes);
        self.count(made, 0, made.words.len());
        made.words.iter().for_each(|word| self.bytes.extend(word.to_le_bytes()));
        self.count(made, 1, made.constants.len());
        for constant in &made.constants {
            match constant {
                Constant::Plain(tag, rest) => {
                    self.bytes.push(*tag);
                    self.bytes.extend(rest);
                }
                Constant::String(tag, content) => {
                    self.bytes.push(*tag);
                    self.name(content);
                }
            }
        }
        self.count(made, 2, made.upvalues.len());
        made.upvalues.iter().for_each(|upvalue| self.bytes.extend(upvalue));
        self.count(made, 3, made.nested.len());
        made.nested.iter().for_each(|nested| self.function(nested));
        self.count(made, 4, made.deltas.len());
        self.bytes.extend(&made.deltas);
        self.count(made, 5, made.anchors.len());
        made.anchors.iter().for_each(|anchor| self.pair(*anchor));
        self.count(made, 6, made.locals.len());
        for (name, pcs) in &made.locals {
            self.name(name);
            self.pair(*pcs);
        }
        self.count(made, 7, made.names.len());
        made.names.iter().for_each(|name| self.name(name));
    }
}
