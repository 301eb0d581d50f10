//! Going through a list from entry to entry.
use crate::entry::{Anchor, Constant, Local, Upvalue};
use crate::ffi;
use crate::input::{granted, Input};
use std::fmt;
use std::iter::FusedIterator;

/// Reads the entry that begins at a place, and gives the place behind it.
type ReadAt<'a, T> = fn(&Input<'a>, usize) -> (T, usize);

/// The entries of one list of a function, in order. Each costs what its own bytes cost.
#[derive(Clone)]
pub struct Entries<'a, T> {
    input: Input<'a>,
    place: usize,
    left: usize,
    read_at: ReadAt<'a, T>,
}

impl<'a, T> Entries<'a, T> {
    /// `left` entries, the first of which begins at `place`.
    pub(crate) fn new(input: Input<'a>, left: usize, place: usize, read_at: ReadAt<'a, T>) -> Entries<'a, T> {
        Entries { input, place, left, read_at }
    }
}

impl<T> Iterator for Entries<'_, T> {
    type Item = T;

    fn next(&mut self) -> Option<T> {
        self.left = self.left.checked_sub(1)?;
        let (entry, behind) = (self.read_at)(&self.input, self.place);
        self.place = behind;
        Some(entry)
    }

    fn size_hint(&self) -> (usize, Option<usize>) {
        (self.left, Some(self.left))
    }
}

impl<T> ExactSizeIterator for Entries<'_, T> {}
impl<T> FusedIterator for Entries<'_, T> {}

impl<T> fmt::Debug for Entries<'_, T> {
    fn fmt(&self, f: &mut fmt::Formatter<'_>) -> fmt::Result {
        f.debug_struct("Entries").field("place", &self.place).field("left", &self.left).finish_non_exhaustive()
    }
}

pub(crate) fn word(input: &Input<'_>, place: usize) -> (u32, usize) {
    let [word, behind] = granted(ffi::word_at(input.bytes, &input.limits, place));
    (word as u32, behind as usize)
}

pub(crate) fn constant<'a>(input: &Input<'a>, place: usize) -> (Constant<'a>, usize) {
    let [tag, number, len, behind] = granted(ffi::constant_at(input.bytes, &input.limits, place));
    (Constant::of_numbers(input, [tag, number, len]), behind as usize)
}

pub(crate) fn upvalue(input: &Input<'_>, place: usize) -> (Upvalue, usize) {
    let [instack, idx, kind, behind] = granted(ffi::upvalue_at(input.bytes, &input.limits, place));
    (Upvalue::of_numbers([instack, idx, kind]), behind as usize)
}

pub(crate) fn delta(input: &Input<'_>, place: usize) -> (i8, usize) {
    let [delta, behind] = granted(ffi::delta_at(input.bytes, &input.limits, place));
    (delta as i8, behind as usize)
}

pub(crate) fn anchor(input: &Input<'_>, place: usize) -> (Anchor, usize) {
    let [pc, line, behind] = granted(ffi::anchor_at(input.bytes, &input.limits, place));
    (Anchor { pc, line }, behind as usize)
}

pub(crate) fn local<'a>(input: &Input<'a>, place: usize) -> (Local<&'a [u8]>, usize) {
    let [present, at, len, startpc, endpc, behind] = granted(ffi::local_at(input.bytes, &input.limits, place));
    let name = input.string_if([present, at, len]).unwrap_or(b"?");
    (Local { name, startpc, endpc }, behind as usize)
}

pub(crate) fn string<'a>(input: &Input<'a>, place: usize) -> (Option<&'a [u8]>, usize) {
    let [present, at, len, behind] = granted(ffi::string_at(input.bytes, &input.limits, place));
    (input.string_if([present, at, len]), behind as usize)
}
