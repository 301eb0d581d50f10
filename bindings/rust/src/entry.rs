//! The entries of a function's lists.
use crate::input::Input;
use crate::text::Text;
use std::fmt;

/// A constant. Strings are parts of the chunk.
#[derive(Clone, Copy)]
#[allow(missing_docs)]
pub enum Constant<'a> {
    Nil,
    Boolean(bool),
    Integer(i64),
    Float(f64),
    ShortString(&'a [u8]),
    LongString(&'a [u8]),
}

/// Floats are compared by their bits: a NaN is equal to itself, and 0.0 is not -0.0.
impl PartialEq for Constant<'_> {
    fn eq(&self, other: &Self) -> bool {
        use Constant::*;
        match (self, other) {
            (Nil, Nil) => true,
            (Boolean(x), Boolean(y)) => x == y,
            (Integer(x), Integer(y)) => x == y,
            (Float(x), Float(y)) => x.to_bits() == y.to_bits(),
            (ShortString(x), ShortString(y)) | (LongString(x), LongString(y)) => x == y,
            _ => false,
        }
    }
}

impl Eq for Constant<'_> {}

/// Strings as text.
impl fmt::Debug for Constant<'_> {
    fn fmt(&self, f: &mut fmt::Formatter<'_>) -> fmt::Result {
        match self {
            Constant::Nil => f.write_str("Nil"),
            Constant::Boolean(value) => f.debug_tuple("Boolean").field(value).finish(),
            Constant::Integer(value) => f.debug_tuple("Integer").field(value).finish(),
            Constant::Float(value) => f.debug_tuple("Float").field(value).finish(),
            Constant::ShortString(value) => f.debug_tuple("ShortString").field(&Text(value)).finish(),
            Constant::LongString(value) => f.debug_tuple("LongString").field(&Text(value)).finish(),
        }
    }
}

impl<'a> Constant<'a> {
    /// Of its tag, its bits or its string's place, and its string's length.
    pub(crate) fn of_numbers(input: &Input<'a>, [tag, number, len]: [u64; 3]) -> Constant<'a> {
        match tag {
            0 => Constant::Nil,
            1 => Constant::Boolean(false),
            17 => Constant::Boolean(true),
            3 => Constant::Integer(number as i64),
            19 => Constant::Float(f64::from_bits(number)),
            4 => Constant::ShortString(input.string(number, len)),
            20 => Constant::LongString(input.string(number, len)),
            other => unreachable!("no constant that was read has the tag {other}"),
        }
    }
}

/// Where a function's upvalue comes from: the three bytes as they are.
#[derive(Debug, Clone, Copy, PartialEq, Eq, Hash)]
#[allow(missing_docs)]
pub struct Upvalue {
    pub instack: u8,
    pub idx: u8,
    pub kind: u8,
}

impl Upvalue {
    pub(crate) fn of_numbers([instack, idx, kind]: [u64; 3]) -> Upvalue {
        Upvalue { instack: instack as u8, idx: idx as u8, kind: kind as u8 }
    }
}

/// An entry of the absolute line information.
#[derive(Debug, Clone, Copy, PartialEq, Eq, Hash)]
#[allow(missing_docs)]
pub struct Anchor {
    pub pc: u64,
    pub line: u64,
}

/// A local variable, in scope from startpc up to endpc. `Name` is `&[u8]`, a part of the chunk, or `Vec<u8>`; an absent name is `?`.
#[derive(Clone, Copy, PartialEq, Eq, Hash)]
#[allow(missing_docs)]
pub struct Local<Name> {
    pub name: Name,
    pub startpc: u64,
    pub endpc: u64,
}

/// Names as text; of [`Chunk::local_into`](crate::Chunk::local_into) the name's length.
macro_rules! shown_locals {
    ($($kind:ty, $name:ident => $shown:expr;)*) => {
        $(impl fmt::Debug for Local<$kind> {
            fn fmt(&self, f: &mut fmt::Formatter<'_>) -> fmt::Result {
                let $name = &self.name;
                let (startpc, endpc) = (&self.startpc, &self.endpc);
                f.debug_struct("Local").field("name", &$shown).field("startpc", startpc).field("endpc", endpc).finish()
            }
        })*
    };
}

shown_locals! {
    &[u8], name => Text(name);
    Vec<u8>, name => Text(name);
    usize, name => name;
}
