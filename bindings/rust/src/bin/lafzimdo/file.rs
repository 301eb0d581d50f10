//! The file that a command works on.
use crate::open::open;
use crate::trouble::Trouble;
use lafzimdo::{Chunk, Limits, Refusal};
use std::ffi::{OsStr, OsString};
use std::io::{self, BufWriter, Read, StdoutLock};

/// The name of the file, `-` for standard input, the limits under which it is read, and whether as strictly as Lua's own loader reads.
pub struct Input {
    pub name: OsString,
    pub limits: Limits,
    pub strict: bool,
}

impl Input {
    /// The bytes. One more than the library reads of any file are enough for it to refuse the file, so that memory is bounded.
    pub fn bytes(&self) -> Result<Vec<u8>, Trouble> {
        let most = Limits::ceilings().max_input_bytes + 1;
        let mut bytes = Vec::new();
        let read = if self.name == OsStr::new("-") {
            io::stdin().lock().take(most).read_to_end(&mut bytes)
        } else {
            open(&self.name).and_then(|file| file.take(most).read_to_end(&mut bytes))
        };
        match read {
            Ok(_) => Ok(bytes),
            Err(error) => Err(Trouble::File(self.shown(), error)),
        }
    }

    /// The chunk that these bytes are.
    pub fn chunk<'a>(&self, bytes: &'a [u8]) -> Result<Chunk<'a>, Trouble> {
        let read = if self.strict { Chunk::read_strict } else { Chunk::read };
        read(bytes, self.limits).map_err(|refusal| self.refused(refusal))
    }

    /// A refusal of the library, of this file.
    pub fn refused(&self, refusal: Refusal) -> Trouble {
        Trouble::Refused(self.shown(), refusal)
    }

    /// Its name, as it is told.
    pub fn shown(&self) -> OsString {
        if self.name == OsStr::new("-") {
            "standard input".into()
        } else {
            self.name.clone()
        }
    }
}

/// Standard output, written in large pieces. Who uses it flushes it.
pub type Out = BufWriter<StdoutLock<'static>>;

pub fn out() -> Out {
    BufWriter::with_capacity(1 << 16, io::stdout().lock())
}
