// The stricter summary: expected is what the walk of strict.rs refuses, or the ordinary summary. The walk itself is held against the Rust: it takes nothing that the Rust refuses, and what it refuses with a number of the ordinary
// reading the Rust refuses so.
use crate::calls::STRICT_SUMMARY;
use crate::check::{judge, Asked};
use crate::difference::Difference;
use crate::lender::{coded, Answer};
use crate::strict::walk;
use luad_core::limits::ResourceLimits;

/// The last number of the ordinary reading.
const ORDINARY: u64 = 22;

pub fn strict_summary(asked: &mut Asked, limits: &ResourceLimits, ordinary: Answer<15>) -> Result<(), Difference> {
    let (chunk, wrong) = (&asked.case.chunk, asked.lender.wrong_strict());
    let strict = judge("the strict walk", || walk(limits, chunk, wrong).map_err(coded))?;
    let alike = match (strict, ordinary) {
        (Ok(()), ordinary) => ordinary.is_ok(),
        (Err(code), ordinary) => code % 256 > ORDINARY || ordinary == Err(code),
    };
    if !alike && wrong.is_none() {
        return Err(Difference::new("the strict walk", &[], ordinary, strict));
    }
    asked.tally.strict(strict.err().map(|code| (code % 256) as u8), ordinary.is_ok());
    asked.whole(&STRICT_SUMMARY, strict.and(ordinary))
}
