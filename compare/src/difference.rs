// What is said of an answer that is not the Rust's.
use std::fmt::{Debug, Display, Formatter, Result};

#[derive(Clone, Debug)]
pub struct Difference {
    /// The call, or what of the Rust stopped.
    pub call: &'static str,
    /// The numbers that it was asked with: function, entry, pc, place, length of lent space, as it takes them; behind that a list of pcs.
    pub at: Vec<u64>,
    pub judge: String,
    pub library: String,
}

impl Difference {
    pub fn new(call: &'static str, at: &[u64], judge: impl Debug, library: impl Debug) -> Difference {
        Difference { call, at: at.to_vec(), judge: format!("{judge:?}"), library: format!("{library:?}") }
    }
}

impl Display for Difference {
    fn fmt(&self, out: &mut Formatter) -> Result {
        write!(out, "{} {:?}\n  the Rust: {}\n  the library: {}", self.call, self.at, self.judge, self.library)
    }
}
