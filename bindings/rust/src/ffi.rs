//! The calls of the static library, as include/lafzimdo.h declares them, each behind a safe function. All unsafe code of the crate is in this module.
//!
//! What every unsafe block here rests on: the library asks nothing of its caller but memory of the lengths that its declarations name. It reads the chunk and the limits, writes
//! only into what it is lent, and keeps no pointer. A slice is handed over as its own pointer and length, and an array by a reference whose type has the length.
use crate::index::Row;
use crate::refusal::Refusal;

/// One line a call that takes the chunk, the limits and some numbers, and fills an array: its name, the library's, the numbers, how long the array is.
macro_rules! calls {
    ($($name:ident $symbol:ident($($number:ident),*) $n:literal;)*) => {
        extern "C" {
            $(fn $symbol(chunk: *const u8, len: usize, limits: &[u64; 9], $($number: usize,)* out: &mut [u64; $n]) -> u64;)*
        }

        $(pub(crate) fn $name(chunk: &[u8], limits: &[u64; 9], $($number: usize),*) -> Result<[u64; $n], Refusal> {
            let mut out = [0; $n];
            // SAFETY: pointer and length are those of one slice; the arrays are of the lengths that the header names.
            let status = unsafe { $symbol(chunk.as_ptr(), chunk.len(), limits, $($number,)* &mut out) };
            Refusal::of_status(status).map(|()| out)
        })*
    };
}

calls! {
    summary lafzimdo_summary() 15;
    strict_summary lafzimdo_strict_summary() 15;
    fields lafzimdo_function(function) 18;
    line lafzimdo_line(function, pc) 1;
    instruction lafzimdo_instruction(function, entry) 1;
    constant lafzimdo_constant(function, entry) 3;
    upvalue lafzimdo_upvalue(function, entry) 3;
    delta lafzimdo_delta(function, entry) 1;
    anchor lafzimdo_anchor(function, entry) 2;
    upvalue_name lafzimdo_upvalue_name(function, entry) 3;
    copy_length lafzimdo_copy_length() 1;
    full_copy_length lafzimdo_full_copy_length() 1;
    verdict lafzimdo_verdict() 1;
    finding_count lafzimdo_finding_count() 1;

    head_at lafzimdo_head_at(place) 16;
    tail_at lafzimdo_tail_at(place) 9;
    word_at lafzimdo_word_at(place) 2;
    constant_at lafzimdo_constant_at(place) 4;
    upvalue_at lafzimdo_upvalue_at(place) 4;
    delta_at lafzimdo_delta_at(place) 2;
    anchor_at lafzimdo_anchor_at(place) 3;
    local_at lafzimdo_local_at(place) 6;
    string_at lafzimdo_string_at(place) 4;
}

extern "C" {
    fn lafzimdo_version() -> u64;
    fn lafzimdo_local(
        chunk: *const u8,
        len: usize,
        limits: &[u64; 9],
        function: usize,
        entry: usize,
        name: *mut u8,
        name_len: usize,
        out: &mut [u64; 3],
    ) -> u64;
    fn lafzimdo_index(
        chunk: *const u8,
        len: usize,
        limits: &[u64; 9],
        rows: *mut u32,
        rows_len: usize,
        out: &mut [u64; 1],
    ) -> u64;
    fn lafzimdo_copy(
        chunk: *const u8,
        len: usize,
        limits: &[u64; 9],
        copy: *mut u8,
        copy_len: usize,
        out: &mut [u64; 1],
    ) -> u64;
    fn lafzimdo_full_copy(
        chunk: *const u8,
        len: usize,
        limits: &[u64; 9],
        copy: *mut u8,
        copy_len: usize,
        out: &mut [u64; 1],
    ) -> u64;
    fn lafzimdo_findings(
        chunk: *const u8,
        len: usize,
        limits: &[u64; 9],
        list: *mut u64,
        list_len: usize,
        out: &mut [u64; 2],
    ) -> u64;
    fn lafzimdo_lines(
        chunk: *const u8,
        len: usize,
        limits: &[u64; 9],
        function: usize,
        pcs: *const u64,
        pcs_len: usize,
        lines: *mut u64,
        lines_len: usize,
        out: &mut [u64; 1],
    ) -> u64;
    fn lafzimdo_decode(word: u32, out: &mut [u64; 12]) -> u64;
    fn lafzimdo_encode(
        op: u8,
        a: u8,
        k: u8,
        b: u8,
        c: u8,
        bx: u32,
        sbx: i32,
        ax: u32,
        sj: i32,
        out: &mut [u64; 1],
    ) -> u64;
}

/// The version of the library.
pub(crate) fn version() -> u64 {
    // SAFETY: it takes nothing and returns a number.
    unsafe { lafzimdo_version() }
}

/// The name's length, startpc, endpc; the name is at the front of `name`.
pub(crate) fn local(
    chunk: &[u8],
    limits: &[u64; 9],
    function: usize,
    entry: usize,
    name: &mut [u8],
) -> Result<[u64; 3], Refusal> {
    let mut out = [0; 3];
    let (lent, room) = (name.as_mut_ptr(), name.len());
    // SAFETY: as above; the name is written into `name`, for which this function has the only reference.
    let status = unsafe { lafzimdo_local(chunk.as_ptr(), chunk.len(), limits, function, entry, lent, room, &mut out) };
    Refusal::of_status(status).map(|()| out)
}

/// The number of functions; their rows are at the front of `rows`.
pub(crate) fn index(chunk: &[u8], limits: &[u64; 9], rows: &mut [[u32; Row::COLUMNS]]) -> Result<usize, Refusal> {
    let mut out = [0; 1];
    // An array has no gaps, so that there are `Row::COLUMNS` numbers for each row; their bytes fit a usize, and so does how many they are.
    let (lent, room) = (rows.as_mut_ptr().cast::<u32>(), rows.len() * Row::COLUMNS);
    // SAFETY: as above; the rows are written into `rows`, for which this function has the only reference.
    let status = unsafe { lafzimdo_index(chunk.as_ptr(), chunk.len(), limits, lent, room, &mut out) };
    Refusal::of_status(status).map(|()| out[0] as usize)
}

/// The copy's length; it is at the front of `copy`.
pub(crate) fn copy(chunk: &[u8], limits: &[u64; 9], copy: &mut [u8]) -> Result<usize, Refusal> {
    copy_by(lafzimdo_copy, chunk, limits, copy)
}

/// The full copy's length; it is at the front of `copy`.
pub(crate) fn full_copy(chunk: &[u8], limits: &[u64; 9], copy: &mut [u8]) -> Result<usize, Refusal> {
    copy_by(lafzimdo_full_copy, chunk, limits, copy)
}

/// A call that writes a copy.
type Copies = unsafe extern "C" fn(*const u8, usize, &[u64; 9], *mut u8, usize, &mut [u64; 1]) -> u64;

fn copy_by(call: Copies, chunk: &[u8], limits: &[u64; 9], copy: &mut [u8]) -> Result<usize, Refusal> {
    let mut out = [0; 1];
    let (lent, room) = (copy.as_mut_ptr(), copy.len());
    // SAFETY: as above; the copy is written into `copy`, for which this function has the only reference.
    let status = unsafe { call(chunk.as_ptr(), chunk.len(), limits, lent, room, &mut out) };
    Refusal::of_status(status).map(|()| out[0] as usize)
}

/// The verdict and the number of findings, which are at the front of `list`.
pub(crate) fn findings(chunk: &[u8], limits: &[u64; 9], list: &mut [[u64; 4]]) -> Result<[u64; 2], Refusal> {
    let mut out = [0; 2];
    // As for the rows of the index.
    let (lent, room) = (list.as_mut_ptr().cast::<u64>(), list.len() * 4);
    // SAFETY: as above; the findings are written into `list`, for which this function has the only reference.
    let status = unsafe { lafzimdo_findings(chunk.as_ptr(), chunk.len(), limits, lent, room, &mut out) };
    Refusal::of_status(status).map(|()| out)
}

/// How many deltas were read; the line of each pc is at the front of `lines`.
pub(crate) fn lines(
    chunk: &[u8],
    limits: &[u64; 9],
    function: usize,
    pcs: &[u64],
    lines: &mut [u64],
) -> Result<usize, Refusal> {
    let mut out = [0; 1];
    let (asked, count) = (pcs.as_ptr(), pcs.len());
    let (lent, room) = (lines.as_mut_ptr(), lines.len());
    // SAFETY: as above; the pcs are read, and the lines are written into `lines`, for which this function has the only reference.
    let status =
        unsafe { lafzimdo_lines(chunk.as_ptr(), chunk.len(), limits, function, asked, count, lent, room, &mut out) };
    Refusal::of_status(status).map(|()| out[0] as usize)
}

/// Opcode, mode, a, k, b, sb, c, sc, bx, sbx, ax, sj.
pub(crate) fn decode(word: u32) -> Result<[u64; 12], Refusal> {
    let mut out = [0; 12];
    // SAFETY: the array is of the length that the header names.
    let status = unsafe { lafzimdo_decode(word, &mut out) };
    Refusal::of_status(status).map(|()| out)
}

/// The word of these fields.
#[allow(clippy::too_many_arguments)]
pub(crate) fn encode(op: u8, a: u8, k: u8, b: u8, c: u8, bx: u32, sbx: i32, ax: u32, sj: i32) -> Result<u32, Refusal> {
    let mut out = [0; 1];
    // SAFETY: the array is of the length that the header names.
    let status = unsafe { lafzimdo_encode(op, a, k, b, c, bx, sbx, ax, sj, &mut out) };
    Refusal::of_status(status).map(|()| out[0] as u32)
}
