//! What every call is asked with: the bytes and the limits of a chunk that was read.
use crate::refusal::Refusal;

#[derive(Debug, Clone, Copy)]
pub(crate) struct Input<'a> {
    pub(crate) bytes: &'a [u8],
    pub(crate) limits: [u64; 9],
}

impl<'a> Input<'a> {
    /// The bytes of a string that a call showed by place and length.
    pub(crate) fn string(&self, place: u64, len: u64) -> &'a [u8] {
        &self.bytes[place as usize..][..len as usize]
    }

    /// The same of a string that may be absent: whether it is there, its place, its length.
    pub(crate) fn string_if(&self, shown: [u64; 3]) -> Option<&'a [u8]> {
        let [present, place, len] = shown;
        (present != 0).then(|| self.string(place, len))
    }
}

/// The answer of a call that has nothing to refuse: the chunk was read, and is asked for a part that it has, with room enough. The library's contracts say so.
pub(crate) fn granted<T>(answer: Result<T, Refusal>) -> T {
    match answer {
        Ok(value) => value,
        Err(refusal) => unreachable!("a part of a chunk that was read is refused: {refusal}"),
    }
}
