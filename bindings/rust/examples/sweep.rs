//! A sweep log of 10,000 pcs of one function, in 16 MB: `cargo run --release --offline --example sweep`.
//!
//! Prints what one lookup takes, the list in one call, as many lookups (20 of them are made), and all lines of the function by going through its deltas and anchors entry by entry; each in
//! milliseconds, the shortest of nine. Exit status 1 where the list takes more than 1.5 lookups.
use lafzimdo::{Chunk, Limits};
use std::hint::black_box;
use std::process::ExitCode;
use std::time::Instant;

const BYTES: usize = 1 << 24;
const PCS: u64 = 10_000;
const MADE: u64 = 20;

fn main() -> ExitCode {
    let (bytes, instructions) = large();
    let chunk = Chunk::read(&bytes, Limits::ceilings()).expect("it is well formed");
    let function = chunk.function(0).expect("main");
    let pcs: Vec<u64> = (0..PCS).map(|k| k * instructions / PCS).collect();
    let mut lines = vec![0; pcs.len()];
    let last = instructions as usize - 1;

    let one = shortest(|| chunk.line(0, last).expect("a line"));
    let list = shortest(|| chunk.lines_into(0, &pcs, &mut lines).expect("lines"));
    let some = pcs.iter().step_by((PCS / MADE) as usize);
    let each = shortest(|| some.clone().map(|pc| chunk.line(0, *pc as usize).expect("a line")).sum::<u64>());
    let walked = shortest(|| function.computed_lines().expect("lines").len());

    println!("{} bytes, {instructions} instructions, {PCS} pcs", bytes.len());
    println!("one lookup            {one:>12.3}");
    println!("the list              {list:>12.3}   {:.2} lookups", list / one);
    println!("as many lookups       {:>12.3}", each / MADE as f64 * PCS as f64);
    println!("entry by entry        {walked:>12.3}   of all instructions");
    ExitCode::from(u8::from(list > 1.5 * one))
}

fn shortest<T>(mut run: impl FnMut() -> T) -> f64 {
    let mut once = || {
        let start = Instant::now();
        black_box(run());
        start.elapsed().as_secs_f64() * 1e3
    };
    (0..9).map(|_| once()).fold(f64::INFINITY, f64::min)
}

/// A number in four bytes: leading zeros are free.
fn number(value: usize) -> [u8; 4] {
    let group = |shift: usize| (value >> shift & 127) as u8;
    [group(21), group(14), group(7), group(0) | 128]
}

const HEADER: [u8; 32] = *b"\x1bLua\x54\x00\x19\x93\r\n\x1a\n\x04\x08\x08\x78\x56\0\0\0\0\0\0\0\0\0\0\0\x28\x77\x40\0";

/// One function that fills the file, as luac writes one: a delta for each instruction, an anchor for each 128, a constant for each four, a local for each 16.
fn large() -> (Vec<u8>, u64) {
    let words = (BYTES - 100) * 16 / 113 / 128 * 128;
    let anchors = 1..words / 128;
    let mut bytes = HEADER.to_vec();
    bytes.extend([0x80, 0x80, 0x80, 0, 0, 2]);
    bytes.extend(number(words));
    bytes.resize(bytes.len() + 4 * words, 0);
    bytes.extend(number(words / 4));
    bytes.extend([4, 0x85, b'n', b'a', b'm', b'e'].repeat(words / 4));
    bytes.extend([0x80; 2]);
    bytes.extend(number(words));
    bytes.resize(bytes.len() + words, 1);
    bytes.extend(number(anchors.len()));
    bytes.extend(anchors.flat_map(|at| [number(at * 128), number(at)].concat()));
    bytes.extend(number(words / 16));
    bytes.extend([0x85, b'n', b'a', b'm', b'e', 0x81, 0x82].repeat(words / 16));
    bytes.push(0x80);
    (bytes, words as u64)
}
