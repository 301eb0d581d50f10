//! A chunk's header, and what is unusual in a chunk that is read all the same.
use std::fmt;

/// The fields of the header that can be told from one another.
#[derive(Debug, Clone, Copy, PartialEq)]
#[allow(missing_docs)]
pub struct Header {
    pub version: u8,
    pub format: u8,
    pub instruction_size: u8,
    pub lua_integer_size: u8,
    /// Not in the file: always 8.
    pub sizeof_sizet: u8,
    pub lua_number_size: u8,
    /// The test float, 370.5.
    pub luac_num: f64,
}

impl Header {
    pub(crate) fn of_numbers(numbers: [u64; 7]) -> Header {
        let [version, format, instruction_size, lua_integer_size, sizeof_sizet, lua_number_size, luac_num] = numbers;
        Header {
            version: version as u8,
            format: format as u8,
            instruction_size: instruction_size as u8,
            lua_integer_size: lua_integer_size as u8,
            sizeof_sizet: sizeof_sizet as u8,
            lua_number_size: lua_number_size as u8,
            luac_num: f64::from_bits(luac_num),
        }
    }
}

/// What is unusual, with its place.
#[derive(Debug, Clone, Copy, PartialEq, Eq, Hash)]
#[non_exhaustive]
pub enum Warning {
    /// The format byte is not 0.
    NonStandardFormat(usize),
    /// Bytes follow the main function.
    TrailingBytes(usize),
}

impl Warning {
    /// The Rust's code of it.
    pub const fn code(&self) -> &'static str {
        match self {
            Warning::NonStandardFormat(_) => "L54-HEADER-003",
            Warning::TrailingBytes(_) => "L54-CHUNK-001",
        }
    }

    /// Where it is.
    pub const fn place(&self) -> usize {
        match *self {
            Warning::NonStandardFormat(place) | Warning::TrailingBytes(place) => place,
        }
    }

    /// Why, in words.
    pub const fn why(&self) -> &'static str {
        match self {
            Warning::NonStandardFormat(_) => "the format byte is not 0: Lua's own loader refuses the chunk",
            Warning::TrailingBytes(_) => "bytes follow the main function: Lua's own loader does not look at them",
        }
    }

    /// Of a warning's code and place as the library numbers them.
    pub(crate) fn of_numbers(code: u64, place: u64) -> Option<Warning> {
        match code {
            0 => None,
            1 => Some(Warning::NonStandardFormat(place as usize)),
            2 => Some(Warning::TrailingBytes(place as usize)),
            other => unreachable!("the library's warnings have the codes 1 and 2, not {other}"),
        }
    }
}

impl fmt::Display for Warning {
    fn fmt(&self, f: &mut fmt::Formatter<'_>) -> fmt::Result {
        write!(f, "warning at {}: {} ({})", self.place(), self.why(), self.code())
    }
}
