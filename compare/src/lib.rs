// The comparison of the library with the Rust, case by case. What the Rust answers is told by the judge's own modules.
#[path = "../../oracle/src/findings.rs"]
#[allow(dead_code)]
mod findings;
#[path = "../../oracle/src/functions.rs"]
mod functions;
#[path = "../../oracle/src/limits.rs"]
mod limits;
#[path = "../../oracle/src/lines.rs"]
#[allow(dead_code)]
mod lines;
#[path = "../../oracle/src/padded.rs"]
mod padded;
#[path = "../../oracle/src/refusals.rs"]
#[allow(dead_code)]
mod refusals;
#[path = "../../oracle/src/text.rs"]
#[allow(dead_code)]
mod text;
#[path = "../../oracle/src/words.rs"]
#[allow(dead_code)]
mod words;

mod ask;
pub mod bounds;
mod calls;
pub mod case;
pub mod cases;
pub mod chance;
pub mod check;
mod check_lines;
mod check_places;
mod check_read;
mod check_refused;
mod check_strict;
mod check_words;
mod damage;
pub mod difference;
mod full;
mod functions_made;
mod judged;
pub mod lender;
mod make;
mod parts;
pub mod self_test;
pub mod shrink;
mod strict;
pub mod tally;
