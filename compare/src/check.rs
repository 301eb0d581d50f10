// One case: the Rust and the library are asked everything, and each answer and all lent memory is compared.
use crate::case::Case;
use crate::chance::Chance;
use crate::check_places::{parts_in_order, places};
use crate::check_read::read_chunk;
use crate::check_refused::refused_chunk;
use crate::check_strict::strict_summary;
use crate::check_words::words;
use crate::difference::Difference;
use crate::full::full_copy;
use crate::judged::Judged;
use crate::lender::{coded, Lender};
use crate::limits::read;
use crate::tally::Tally;
use std::panic::{catch_unwind, AssertUnwindSafe};

/// The name under which it is told that a call wrote to the chunk.
pub const CHUNK: &str = "the chunk itself";

/// What a comparison goes on with: the case, the library's calls, what is counted, and chance for what is asked of it.
pub struct Asked<'a> {
    pub case: &'a Case,
    pub lender: &'a mut Lender,
    pub tally: &'a mut Tally,
    pub chance: Chance,
}

pub fn check(case: &Case, lender: &mut Lender, tally: &mut Tally) -> Result<(), Difference> {
    let limits = case.resource_limits();
    let mut asked = Asked { case, lender, tally, chance: Chance::new(case.ask) };
    let mut before = case.chunk.clone();
    match judge("the Rust's reading", || read(&limits, &case.chunk))? {
        Err(refusal) => {
            asked.tally.refused(refusal.number);
            refused_chunk(&mut asked, refusal)?;
            strict_summary(&mut asked, &limits, Err(coded(refusal)))?;
        }
        Ok(chunk) => {
            let mut judged = judge("the Rust's answers", || Judged::of(&chunk, &case.chunk, &limits))?;
            asked.tally.read(&judged);
            judged.summary[14] -= asked.lender.left_out(&judged.padded);
            if let Some(wrong) = asked.lender.wrong_sources() {
                judged.full = full_copy(&judged.functions, &judged.heads, &judged.copy, Some(wrong));
            }
            read_chunk(&mut asked, &judged)?;
            strict_summary(&mut asked, &limits, Ok(judged.summary))?;
            parts_in_order(&mut asked, &judged)?;
        }
    }
    places(&mut asked, &limits)?;
    words(&mut asked)?;
    if asked.lender.alters(CHUNK) {
        before.push(0);
    }
    if before != case.chunk {
        return Err(Difference::new(CHUNK, &[], "untouched", "touched"));
    }
    asked.tally.cases += 1;
    Ok(())
}

/// An answer of the Rust. It is built with overflow checks: where it stops, that is a difference.
pub fn judge<T>(what: &'static str, ask: impl FnOnce() -> T) -> Result<T, Difference> {
    catch_unwind(AssertUnwindSafe(ask)).map_err(|reason| {
        let reason =
            reason.downcast_ref::<String>().cloned().or_else(|| reason.downcast_ref::<&str>().map(|s| s.to_string()));
        Difference::new(what, &[], format!("stopped: {}", reason.unwrap_or_default()), "-")
    })
}
