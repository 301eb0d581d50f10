//! The limits under which a chunk is read.

/// The nine limits, with the names of the Rust reader that the library is a port of. A limit above its ceiling is refused ([`Refusal::LimitAboveCeiling`]); zero is allowed.
///
/// [`Refusal::LimitAboveCeiling`]: crate::Refusal::LimitAboveCeiling
#[derive(Debug, Clone, Copy, PartialEq, Eq, Hash)]
#[allow(missing_docs)]
pub struct Limits {
    pub max_input_bytes: u64,
    pub max_nesting_depth: u64,
    pub max_total_prototypes: u64,
    pub max_instructions_per_proto: u64,
    pub max_total_instructions: u64,
    pub max_constants_per_proto: u64,
    pub max_upvalues_per_proto: u64,
    pub max_string_bytes: u64,
    pub max_diagnostics: u64,
}

impl Limits {
    /// Each limit at its ceiling: nesting 14, diagnostics 10,000, all others 16,777,216.
    pub const fn ceilings() -> Limits {
        Limits {
            max_input_bytes: 16_777_216,
            max_nesting_depth: 14,
            max_total_prototypes: 16_777_216,
            max_instructions_per_proto: 16_777_216,
            max_total_instructions: 16_777_216,
            max_constants_per_proto: 16_777_216,
            max_upvalues_per_proto: 16_777_216,
            max_string_bytes: 16_777_216,
            max_diagnostics: 10_000,
        }
    }

    /// The nine in the order in which they are declared.
    pub const fn numbers(&self) -> [u64; 9] {
        [
            self.max_input_bytes,
            self.max_nesting_depth,
            self.max_total_prototypes,
            self.max_instructions_per_proto,
            self.max_total_instructions,
            self.max_constants_per_proto,
            self.max_upvalues_per_proto,
            self.max_string_bytes,
            self.max_diagnostics,
        ]
    }

    /// The limits of which these are the numbers.
    pub const fn of_numbers(numbers: [u64; 9]) -> Limits {
        Limits {
            max_input_bytes: numbers[0],
            max_nesting_depth: numbers[1],
            max_total_prototypes: numbers[2],
            max_instructions_per_proto: numbers[3],
            max_total_instructions: numbers[4],
            max_constants_per_proto: numbers[5],
            max_upvalues_per_proto: numbers[6],
            max_string_bytes: numbers[7],
            max_diagnostics: numbers[8],
        }
    }
}

impl Default for Limits {
    fn default() -> Limits {
        Limits::ceilings()
    }
}

#[cfg(test)]
mod tests {
    use super::*;

    #[test]
    fn numbers_and_back() {
        let numbers = [1, 2, 3, 4, 5, 6, 7, 8, 9];
        let limits = Limits::of_numbers(numbers);
        assert_eq!(limits.numbers(), numbers);
        assert_eq!((limits.max_input_bytes, limits.max_string_bytes, limits.max_diagnostics), (1, 8, 9));
    }
}
