//! What can go wrong, the words for it, and the exit statuses.
use crate::visible::Visible;
use lafzimdo::Refusal;
use std::ffi::{OsStr, OsString};
use std::fmt;
use std::io;

pub const REFUSED: u8 = 1;
pub const USAGE: u8 = 2;
pub const FILE: u8 = 3;
pub const INVALID: u8 = 4;
pub const INCOMPLETE: u8 = 5;

/// The exit statuses of work on a file, from the best to the worst: a run on many files ends with the worst of theirs.
pub const BY_BADNESS: [u8; 5] = [0, INCOMPLETE, INVALID, REFUSED, FILE];

/// The worse of two.
pub fn worse(one: u8, other: u8) -> u8 {
    let bad = |status: &u8| BY_BADNESS.iter().position(|known| known == status);
    if bad(&other) > bad(&one) {
        other
    } else {
        one
    }
}

pub enum Trouble {
    /// The library refuses the file, or what is asked of it.
    Refused(OsString, Refusal),
    /// The arguments are wrong.
    Usage(String),
    /// A file cannot be read or written.
    File(OsString, io::Error),
    /// Standard output cannot be written.
    Output(io::Error),
}

impl Trouble {
    pub fn status(&self) -> u8 {
        match self {
            Trouble::Refused(..) => REFUSED,
            Trouble::Usage(_) => USAGE,
            Trouble::File(..) | Trouble::Output(_) => FILE,
        }
    }
}

impl fmt::Display for Trouble {
    fn fmt(&self, f: &mut fmt::Formatter<'_>) -> fmt::Result {
        match self {
            Trouble::Refused(name, refusal) => write!(f, "{}: {refusal}", Name(name)),
            Trouble::Usage(what) => write!(f, "{what}\nTry 'lafzimdo --help'."),
            Trouble::File(name, error) => write!(f, "{}: {error}", Name(name)),
            Trouble::Output(error) => write!(f, "standard output: {error}"),
        }
    }
}

/// The name of a file, in one line: what is no text is replaced, what a terminal would not show as it is told by its
/// number.
pub struct Name<'a>(pub &'a OsStr);

impl fmt::Display for Name<'_> {
    fn fmt(&self, f: &mut fmt::Formatter<'_>) -> fmt::Result {
        Visible(&self.0.to_string_lossy()).fmt(f)
    }
}

/// What came of writing to standard output. A reader that wants no more, such as `head`, is no trouble.
pub fn printed(written: io::Result<()>) -> Result<(), Trouble> {
    match written {
        Err(error) if error.kind() != io::ErrorKind::BrokenPipe => Err(Trouble::Output(error)),
        _ => Ok(()),
    }
}
