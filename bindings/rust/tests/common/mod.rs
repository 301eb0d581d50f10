//! What the tests share: the repository's kept requests and answers, and small chunks.
#![allow(dead_code)] // each test uses a part of it
use lafzimdo::Limits;
use std::fs;
use std::path::{Path, PathBuf};

pub mod chance;
pub mod kept;
pub mod run;
pub mod undump;

/// samples/recentre.luac, kept with the tests so that they run where the crate stands alone.
pub fn sample() -> PathBuf {
    Path::new(env!("CARGO_MANIFEST_DIR")).join("tests/data/recentre.luac")
}

/// A file of the repository. Tests that ask for one are marked `#[cfg(repository)]`: they are left out where the crate stands alone.
pub fn file(name: &str) -> PathBuf {
    Path::new(env!("CARGO_MANIFEST_DIR")).join("../..").join(name)
}

pub fn text(name: &str) -> String {
    fs::read_to_string(file(name)).unwrap_or_else(|error| panic!("{name}: {error}"))
}

/// The kept requests, each with the answer of the Rust (docs/PROTOCOL.md), without its line `end`.
pub fn kept() -> Vec<(String, Vec<String>)> {
    let kept = kept::told(&text("crates/vectors/stdin"));
    assert!(kept.len() > 11_000, "only {} requests", kept.len());
    kept
}

/// The kept requests for a whole chunk: its limits, its bytes, and the Rust's answer.
pub fn kept_chunks() -> Vec<(Limits, Vec<u8>, Vec<String>)> {
    let chunks: Vec<_> = kept()
        .into_iter()
        .filter(|(request, _)| request.starts_with(|c: char| c.is_ascii_digit()))
        .map(|(request, answer)| {
            let words: Vec<&str> = request.split(' ').collect();
            (limits(&words[..9]), bytes(words[9]), answer)
        })
        .collect();
    assert!(chunks.len() > 5_000, "only {} chunks", chunks.len());
    chunks
}

pub fn limits(words: &[&str]) -> Limits {
    let numbers: Vec<u64> = words.iter().map(|word| word.parse().unwrap()).collect();
    Limits::of_numbers(numbers.try_into().unwrap())
}

/// HEX of the protocol: `-` where there are no bytes.
pub fn bytes(hex: &str) -> Vec<u8> {
    let digits = if hex == "-" { "" } else { hex };
    (0..digits.len()).step_by(2).map(|at| u8::from_str_radix(&digits[at..at + 2], 16).unwrap()).collect()
}

pub fn hex(bytes: &[u8]) -> String {
    if bytes.is_empty() {
        return "-".into();
    }
    bytes.iter().map(|byte| format!("{byte:02x}")).collect()
}

/// STR of the protocol: `x` and the bytes, `-` for an absent one.
pub fn string(string: Option<&[u8]>) -> String {
    match string {
        None => "-".into(),
        Some([]) => "x".into(),
        Some(bytes) => format!("x{}", hex(bytes)),
    }
}

/// The 31 bytes of the header, and the byte behind them.
pub fn header() -> Vec<u8> {
    bytes("1b4c7561540019930d0a1a0a0408087856000000000000000000000028774000")
}

/// A number in its shortest form.
pub fn number(mut value: u64) -> Vec<u8> {
    let mut groups = vec![(value & 127) as u8 | 128];
    while value > 127 {
        value >>= 7;
        groups.push((value & 127) as u8);
    }
    groups.reverse();
    groups
}

/// A function without source, with so many instructions (MOVE 0 0), these deltas, these anchors, and these functions nested in it.
pub fn function(line: u64, instructions: usize, nested: &[Vec<u8>], deltas: &[i8], anchors: &[(u64, u64)]) -> Vec<u8> {
    let mut bytes = vec![0x80];
    bytes.extend(number(line));
    bytes.extend([0x80, 0, 0, 2]);
    bytes.extend(number(instructions as u64));
    bytes.extend(vec![0; 4 * instructions]);
    bytes.extend([0x80, 0x80]);
    bytes.extend(number(nested.len() as u64));
    bytes.extend(nested.concat());
    bytes.extend(number(deltas.len() as u64));
    bytes.extend(deltas.iter().map(|delta| *delta as u8));
    bytes.extend(number(anchors.len() as u64));
    for (pc, line) in anchors {
        bytes.extend(number(*pc));
        bytes.extend(number(*line));
    }
    bytes.extend([0x80, 0x80]);
    bytes
}

/// A chunk with this main function.
pub fn chunk(main: &[u8]) -> Vec<u8> {
    [header(), main.to_vec()].concat()
}
