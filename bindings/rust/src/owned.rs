//! A chunk that owns its bytes.
use crate::chunk::{Chunk, Shown};
use crate::input::Input;
use crate::limits::Limits;
use crate::refusal::Refusal;
use std::fmt;
use std::sync::Arc;

/// A chunk that was read, with its bytes: what can be returned, stored and sent where a [`Chunk`] would borrow. A clone shares both.
///
/// ```
/// use lafzimdo::{Limits, OwnedChunk};
///
/// # let file = concat!(env!("CARGO_MANIFEST_DIR"), "/tests/data/recentre.luac");
/// # #[cfg(any())]
/// let file = "recentre.luac";
/// fn load(file: &str) -> Result<OwnedChunk, Box<dyn std::error::Error>> {
///     Ok(OwnedChunk::read(std::fs::read(file)?, Limits::ceilings())?)
/// }
/// let owned = load(file)?;
/// println!("{}", owned.chunk().function_count());
/// # assert_eq!(owned.chunk().function_count(), 7);
/// # Ok::<(), Box<dyn std::error::Error>>(())
/// ```
#[derive(Clone)]
pub struct OwnedChunk {
    bytes: Arc<[u8]>,
    limits: [u64; 9],
    shown: Arc<Shown>,
}

impl OwnedChunk {
    /// Reads a chunk, in one pass.
    pub fn read(bytes: impl Into<Arc<[u8]>>, limits: Limits) -> Result<OwnedChunk, Refusal> {
        let bytes = bytes.into();
        let Chunk { shown, .. } = Chunk::read(&bytes, limits)?;
        Ok(OwnedChunk { limits: limits.numbers(), shown, bytes })
    }

    /// Reads a chunk as Lua's own loader would ([`Chunk::read_strict`]), in two passes.
    pub fn read_strict(bytes: impl Into<Arc<[u8]>>, limits: Limits) -> Result<OwnedChunk, Refusal> {
        let bytes = bytes.into();
        let Chunk { shown, .. } = Chunk::read_strict(&bytes, limits)?;
        Ok(OwnedChunk { limits: limits.numbers(), shown, bytes })
    }

    /// The chunk, with everything that can be asked of it. It is not read again, and its index is made once, however often this is called.
    pub fn chunk(&self) -> Chunk<'_> {
        Chunk { input: Input { bytes: &self.bytes, limits: self.limits }, shown: self.shown.clone() }
    }

    /// All of the bytes.
    pub fn bytes(&self) -> &[u8] {
        &self.bytes
    }
}

/// With a copy of the bytes.
impl From<Chunk<'_>> for OwnedChunk {
    fn from(chunk: Chunk<'_>) -> OwnedChunk {
        OwnedChunk { bytes: chunk.input.bytes.into(), limits: chunk.input.limits, shown: chunk.shown }
    }
}

impl fmt::Debug for OwnedChunk {
    fn fmt(&self, f: &mut fmt::Formatter<'_>) -> fmt::Result {
        self.chunk().fmt(f)
    }
}
