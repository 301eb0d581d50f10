//! Why a call refuses.
use std::error::Error;
use std::fmt;

/// One line a refusal: its number, its name, whether it holds a place, and why.
macro_rules! refusals {
    ($($number:literal $name:ident $(($place:ty))? $why:literal;)*) => {
        /// Why a call refuses. A case that holds a number holds the place in the file. There will be more of them.
        #[derive(Debug, Clone, Copy, PartialEq, Eq, Hash)]
        #[non_exhaustive]
        pub enum Refusal {
            $(#[doc = concat!(stringify!($number), ": ", $why, ".")] $name $(($place))?,)*
        }

        impl Refusal {
            /// The number, 1 to 33.
            pub const fn number(&self) -> u8 {
                match self { $(Refusal::$name { .. } => $number,)* }
            }

            /// Why, in words.
            pub const fn why(&self) -> &'static str {
                match self { $(Refusal::$name { .. } => $why,)* }
            }

            fn of_number(number: u8, place: usize) -> Refusal {
                match number {
                    $($number => Refusal::$name $((place as $place))?,)*
                    _ => unreachable!("the library's refusals have the numbers 1 to 33, not {number}"),
                }
            }
        }
    };
}

refusals! {
    1 Truncated(usize) "the file is cut short (CORE-TRUNC-001)";
    2 Overflow "a place plus a length is 2^64 or more (CORE-OVERFLOW-001)";
    3 VarintOverflow "a number is 2^64 - 128 or more (L54-VARINT-001)";
    4 Signature(usize) "this is no compiled Lua script (L54-HEADER-001)";
    5 Version(usize) "the version is not 5.4 (L54-HEADER-002)";
    6 LuacData(usize) "the check bytes of the header are damaged (L54-HEADER-004)";
    7 InstructionSize(usize) "instructions are not of 4 bytes (L54-HEADER-005)";
    8 LuaIntegerSize(usize) "integers are not of 8 bytes (L54-HEADER-006)";
    9 LuaNumberSize(usize) "floats are not of 8 bytes (L54-HEADER-007)";
    10 LuacInt(usize) "the test integer is not 22136 (L54-HEADER-008)";
    11 LuacNum(usize) "the test float is not 370.5 (L54-HEADER-009)";
    12 ConstantTag(usize) "a constant's tag is unknown (L54-CONST-002)";
    13 StringBytes(usize) "a string is longer than max_string_bytes (L54-STR-001)";
    14 Instructions(usize) "a function has more instructions than max_instructions_per_proto (L54-CODE-001)";
    15 TotalInstructions(usize) "there are more instructions than max_total_instructions (CORE-LIMIT-004)";
    16 Constants(usize) "a function has more constants than max_constants_per_proto (L54-CONST-001)";
    17 Upvalues(usize) "a function has more upvalues than max_upvalues_per_proto (L54-UPVAL-001)";
    18 Prototypes(usize) "a function has more nested functions than max_total_prototypes (L54-PROTO-001)";
    19 NestingDepth(usize) "a function is nested deeper than max_nesting_depth (CORE-LIMIT-001)";
    20 TotalPrototypes(usize) "there are more nested functions than max_total_prototypes (CORE-LIMIT-002)";
    21 LimitAboveCeiling "a limit is above its ceiling";
    22 InputBytes "the file is longer than max_input_bytes";
    23 NoFunction "there is no function of that number";
    24 NoEntry "there is no entry of that number";
    25 LineTooLarge "a first line or an anchor's line is 2^62 or more";
    26 LentSpace "the space lent is shorter than the result";
    27 FieldRange "a field of an instruction word is out of range";
    28 NoOpcode "there is no opcode above 82";
    29 AnchorOrder "the pcs of the function's anchors do not rise strictly";
    30 PcOrder "a pc of the list is below the one before it";
    31 Format(usize) "the format byte is not 0 (Lua's loader: format mismatch)";
    32 IntOverflow(usize) "a number that Lua reads as an int is 2^31 - 128 or more (Lua's loader: integer overflow)";
    33 NullString(usize) "a string constant has size 0 (Lua's loader: bad format for constant string)";
}

impl Refusal {
    /// The place in the file, of a refusal that has one.
    pub const fn place(&self) -> Option<usize> {
        use Refusal::*;
        match *self {
            Truncated(place)
            | Signature(place)
            | Version(place)
            | LuacData(place)
            | InstructionSize(place)
            | LuaIntegerSize(place)
            | LuaNumberSize(place)
            | LuacInt(place)
            | LuacNum(place)
            | ConstantTag(place)
            | StringBytes(place)
            | Instructions(place)
            | TotalInstructions(place)
            | Constants(place)
            | Upvalues(place)
            | Prototypes(place)
            | NestingDepth(place)
            | TotalPrototypes(place)
            | Format(place)
            | IntOverflow(place)
            | NullString(place) => Some(place),
            Overflow | VarintOverflow | LimitAboveCeiling | InputBytes | NoFunction | NoEntry | LineTooLarge
            | LentSpace | FieldRange | NoOpcode | AnchorOrder | PcOrder => None,
        }
    }

    /// What a call of the library returned: 0, or a refusal's number and, above its eight bits, the place and one.
    pub(crate) fn of_status(status: u64) -> Result<(), Refusal> {
        if status == 0 {
            return Ok(());
        }
        Err(Refusal::of_number((status & 255) as u8, (status >> 8).saturating_sub(1) as usize))
    }
}

impl fmt::Display for Refusal {
    fn fmt(&self, f: &mut fmt::Formatter<'_>) -> fmt::Result {
        write!(f, "refused {}", self.number())?;
        if let Some(place) = self.place() {
            write!(f, " at {place}")?;
        }
        write!(f, ": {}", self.why())
    }
}

impl Error for Refusal {}

#[cfg(test)]
mod tests {
    use super::*;

    fn refusal(status: u64) -> Refusal {
        Refusal::of_status(status).unwrap_err()
    }

    #[test]
    fn numbers_and_places() {
        assert_eq!(Refusal::of_status(0), Ok(()));
        for number in 1..=33 {
            let without = refusal(number);
            let with = refusal(number + 256 * 46);
            assert_eq!((u64::from(without.number()), u64::from(with.number())), (number, number));
            let has_place = !matches!(number, 2 | 3 | 21..=30);
            assert_eq!(with.place(), has_place.then_some(45), "{number}");
        }
    }

    #[test]
    fn shown() {
        assert_eq!(refusal(1 + 256 * 46).to_string(), "refused 1 at 45: the file is cut short (CORE-TRUNC-001)");
        assert_eq!(refusal(22).to_string(), "refused 22: the file is longer than max_input_bytes");
    }

    /// In the library's own list, in the order of the numbers: `Name(usize),` with a place, `Name,` without one.
    #[test]
    #[cfg(repository)]
    fn names_are_the_librarys() {
        let list = include_str!("../../../crates/format/src/refusal.rt");
        let (_, list) = list.split_once("pub enum Refusal {").unwrap();
        let (list, _) = list.split_once('}').unwrap();
        let names = list.lines().map(str::trim).filter(|line| !line.is_empty() && !line.starts_with("//"));
        let ours = (1..=33).map(|number| format!("{:?},", refusal(number + 256)).replace("(0)", "(usize)"));
        assert_eq!(names.collect::<Vec<_>>(), ours.collect::<Vec<_>>());
    }
}
