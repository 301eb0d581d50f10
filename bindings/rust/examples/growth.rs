//! How the cost of going through everything in a chunk grows with it: `cargo run --release --offline --example growth`.
//!
//! For each kind of chunk a line for each size: its bytes, functions and entries, the time to read it and the time to read it and go through every function,
//! entry and line, and that time by the byte. Linear growth keeps the last column as it is. Exit status 1 where it grows by more than half from 1 to 16 MB.
use lafzimdo::{Chunk, Limits};
use std::hint::black_box;
use std::process::ExitCode;
use std::time::Duration;

const MB: usize = 1 << 20;

/// Makes a chunk of about so many bytes.
type Make = fn(usize) -> Vec<u8>;

fn main() -> ExitCode {
    let kinds: [(&str, Make); 5] = [
        ("tiny functions", tiny),
        ("nested 14 deep", nested),
        ("one large function", large),
        ("strings", strings),
        ("anchors out of order", anchors),
    ];
    let mut linear = true;
    println!(
        "{:<22}{:>10}{:>10}{:>10}{:>10}{:>10}{:>9}",
        "", "bytes", "functions", "entries", "read ms", "all ms", "ns/byte"
    );
    for (name, make) in kinds {
        let costs = [1, 2, 4, 8, 16].map(|size| measured(name, &make(size * MB)));
        linear &= costs[4] <= 1.5 * costs[0];
    }
    ExitCode::from(u8::from(!linear))
}

/// Prints the line of a chunk, and gives nanoseconds by the byte.
fn measured(name: &str, bytes: &[u8]) -> f64 {
    let (chunk, reading) = timed(|| Chunk::read(bytes, Limits::ceilings()).expect("it is well formed"));
    let (entries, all) = timed(|| gone_through(&Chunk::read(bytes, Limits::ceilings()).expect("it is well formed")));
    let by_byte = all.as_nanos() as f64 / bytes.len() as f64;
    let (reading, all) = (reading.as_secs_f64() * 1e3, all.as_secs_f64() * 1e3);
    let functions = chunk.function_count();
    println!("{name:<22}{:>10}{functions:>10}{entries:>10}{reading:>10.2}{all:>10.1}{by_byte:>9.2}", bytes.len());
    by_byte
}

/// The shortest of three means, each over so many runs that the kernel's clock, which ticks every few milliseconds, is fine enough.
fn timed<T>(run: impl Fn() -> T) -> (T, Duration) {
    let mean = || {
        let (start, mut runs) = (spent(), 0);
        loop {
            let value = run();
            runs += 1;
            let all = spent() - start;
            if all.as_millis() >= 100 {
                return (value, all / runs);
            }
        }
    };
    (1..3).map(|_| mean()).fold(mean(), |best, again| if again.1 < best.1 { again } else { best })
}

/// The time that this thread has spent on a processor so far, which other programs change less than the time of day; the first number of the kernel's line, in nanoseconds.
fn spent() -> Duration {
    let line = std::fs::read_to_string("/proc/thread-self/schedstat").expect("this is Linux");
    Duration::from_nanos(line.split(' ').next().and_then(|number| number.parse().ok()).expect("it is a number"))
}

/// How many entries there are, each of which is read.
fn gone_through(chunk: &Chunk<'_>) -> usize {
    let mut entries = 0;
    for function in chunk.functions() {
        entries += function.instructions().map(black_box).count();
        entries += function.constants().map(black_box).count();
        entries += function.upvalues().map(black_box).count();
        entries += function.deltas().map(black_box).count();
        entries += function.anchors().map(black_box).count();
        entries += function.locals().map(black_box).count();
        entries += function.upvalue_names().map(black_box).count();
        black_box(function.computed_lines().expect("lines are small"));
    }
    entries
}

/// A number in four bytes: leading zeros are free.
fn number(value: usize) -> [u8; 4] {
    let group = |shift: usize| (value >> shift & 127) as u8;
    [group(21), group(14), group(7), group(0) | 128]
}

const HEADER: [u8; 32] = *b"\x1bLua\x54\x00\x19\x93\r\n\x1a\n\x04\x08\x08\x78\x56\0\0\0\0\0\0\0\0\0\0\0\x28\x77\x40\0";

/// A function: what stands before its nested functions, these, and what stands behind them.
fn function(
    words: usize,
    constants: (usize, &[u8]),
    nested: (usize, &[u8]),
    deltas: &[u8],
    anchors: (usize, &[u8]),
    locals: (usize, &[u8]),
) -> Vec<u8> {
    let mut bytes = vec![0x80, 0x80, 0x80, 0, 0, 2];
    bytes.extend(number(words));
    bytes.resize(bytes.len() + 4 * words, 0);
    bytes.extend(number(constants.0));
    bytes.extend(constants.1);
    bytes.push(0x80);
    bytes.extend(number(nested.0));
    bytes.extend(nested.1);
    bytes.extend(number(deltas.len()));
    bytes.extend(deltas);
    bytes.extend(number(anchors.0));
    bytes.extend(anchors.1);
    bytes.extend(number(locals.0));
    bytes.extend(locals.1);
    bytes.push(0x80);
    bytes
}

const NONE: (usize, &[u8]) = (0, &[]);
const TINY: [u8; 14] = [0x80, 0x80, 0x80, 0, 0, 2, 0x80, 0x80, 0x80, 0x80, 0x80, 0x80, 0x80, 0x80];

fn tiny(size: usize) -> Vec<u8> {
    let count = (size - 100) / TINY.len();
    [&HEADER[..], &function(0, NONE, (count, &TINY.repeat(count)), &[], NONE, NONE)].concat()
}

fn nested(size: usize) -> Vec<u8> {
    let mut chain = TINY.to_vec();
    // Within main, and within each other up to the ceiling.
    for _ in 1..Limits::ceilings().max_nesting_depth {
        chain = [&TINY[..9], &[0x81], &chain, &TINY[10..]].concat();
    }
    let count = (size - 100) / chain.len();
    [&HEADER[..], &function(0, NONE, (count, &chain.repeat(count)), &[], NONE, NONE)].concat()
}

/// As luac writes it: a delta for each instruction, an anchor for each 128, a constant for each four, a local for each 16.
fn large(size: usize) -> Vec<u8> {
    let words = (size - 100) * 16 / 140 / 128 * 128;
    let constants = [4, 0x85, b'n', b'a', b'm', b'e'].repeat(words / 4);
    let anchors: Vec<u8> = (1..words / 128).flat_map(|at| [number(at * 128), number(at)].concat()).collect();
    let locals = [&[0x85, b'n', b'a', b'm', b'e'][..], &number(1), &number(2)].concat().repeat(words / 16);
    let main = function(
        words,
        (words / 4, &constants),
        NONE,
        &[1].repeat(words),
        (words / 128 - 1, &anchors),
        (words / 16, &locals),
    );
    [&HEADER[..], &main].concat()
}

fn strings(size: usize) -> Vec<u8> {
    let count = (size - 100) / 4;
    [&HEADER[..], &function(0, (count, &[4, 0x83, b'o', b'k'].repeat(count)), NONE, &[], NONE, NONE)].concat()
}

/// Each instruction has the base 0 again, far before it, and an anchor for a delta of -128: what would cost the product of both lengths.
fn anchors(size: usize) -> Vec<u8> {
    let words = (size - 100) / 21;
    let anchors: Vec<u8> = (0..words).flat_map(|pc| [number(pc), number(pc), number(0), number(1)].concat()).collect();
    [&HEADER[..], &function(words, NONE, NONE, &[0x80].repeat(words), (2 * words, &anchors), NONE)].concat()
}
