//! Compiled Lua 5.4 scripts (chunks), read by the proved code of liblafzimdo.a.
//!
//! A [`Chunk`] borrows the bytes of a file and has been read under [`Limits`]; its strings are parts of those bytes. What is refused comes back as a
//! [`Refusal`], with the number and the place that the library gives it.
//!
//! ```
//! use lafzimdo::{Chunk, Constant, Limits};
//!
//! # let file = concat!(env!("CARGO_MANIFEST_DIR"), "/tests/data/recentre.luac");
//! # #[cfg(any())]
//! let file = "recentre.luac";
//! let bytes = std::fs::read(file)?;
//! let chunk = Chunk::read(&bytes, Limits::ceilings())?;
//! for function in chunk.functions() {
//!     let fields = function.fields();
//!     println!("function {} from line {}", function.number(), fields.line_defined);
//!     for constant in function.constants() {
//!         if let Constant::ShortString(text) = constant {
//!             println!("  {}", String::from_utf8_lossy(text));
//!         }
//!     }
//! }
//! let copy = chunk.copy();
//! # assert_eq!(copy, bytes);
//! # Ok::<(), Box<dyn std::error::Error>>(())
//! ```
//!
//! [`Chunk::read_strict`] reads as Lua's own loader would, and refuses what that objects to.
//!
//! Every call on a chunk by numbers, such as [`Chunk::constant`], is a pass over the file. Who wants all of a chunk goes through [`Chunk::functions`] and the lists of
//! each [`Function`]: these go on from place to place, and the whole costs a few passes, whatever the file holds.
//!
//! Not proved is what this crate adds: how it stores and hands on the library's numbers, and [`Function::computed_lines`], which [`Function::lines`] takes where the anchors of a
//! function are out of order.
#![deny(unsafe_code)]
#![warn(missing_docs)]

#[cfg(not(target_pointer_width = "64"))]
compile_error!("liblafzimdo.a is for 64-bit machines: places and lengths are of 64 bits");

mod chunk;
mod entries;
mod entry;
#[allow(unsafe_code)]
mod ffi;
mod finding;
mod function;
mod header;
mod index;
mod input;
mod limits;
mod lines;
mod operand;
mod owned;
mod refusal;
mod text;
mod word;

pub use chunk::{Chunk, Functions};
pub use entries::Entries;
pub use entry::{Anchor, Constant, Local, Upvalue};
pub use finding::{Finding, Rule, Severity, Verdict};
pub use function::{Fields, Function, Nested};
pub use header::{Header, Warning};
pub use index::{Counts, Row};
pub use limits::Limits;
pub use lines::Lines;
pub use operand::{operand_kinds, Field, Operand, OperandKind};
pub use owned::OwnedChunk;
pub use refusal::Refusal;
pub use word::{decode, encode, Instruction, Mode};

/// The version of the library that is linked, 1,000,000 * major + 1,000 * minor + patch.
pub fn library_version() -> u64 {
    ffi::version()
}
