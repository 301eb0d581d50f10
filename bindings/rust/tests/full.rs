//! The full copy: the archive copy, with each nested source that is not its parent's.
mod common;

use common::run::run_on;
use common::{bytes, header};
use lafzimdo::{Chunk, Limits, Refusal};

const BEFORE: u8 = 0xa5;

/// A function with this source, and these functions in it.
fn function(source: &str, nested: &[String]) -> String {
    format!("{source} 80 80 00 00 02 80 80 80 {:02x} {} 80 80 80 80", 128 + nested.len(), nested.concat())
}

fn leaf(source: &str) -> String {
    function(source, &[])
}

fn chunk(main: &str) -> Vec<u8> {
    [header(), bytes(&main.replace(' ', ""))].concat()
}

/// Chunks, their archive copies and their full copies, behind the first 32 bytes; all of crates/format/proofs/FullCases.antt but those of which more than the sources differs.
fn cases() -> Vec<[String; 3]> {
    let (missing, empty, a, b, ab) = ("80", "81", "8261", "8262", "836162");
    let one = |source: &str, nested: String| function(source, &[nested]);
    let two = |source: &str, first: String, second: String| function(source, &[first, second]);
    let long = format!("aa{}", "73".repeat(41));
    let long = long.as_str();
    let absent = |source| one(source, leaf(missing));
    vec![
        [one(a, leaf(a)), absent(a), absent(a)],
        [one(a, leaf(b)), absent(a), one(a, leaf(b))],
        [one(ab, leaf(a)), absent(ab), one(ab, leaf(a))],
        [one(a, leaf(ab)), absent(a), one(a, leaf(ab))],
        [one(a, absent(missing)), one(a, absent(missing)), one(a, absent(missing))],
        [one(a, one(missing, leaf(a))), one(a, absent(missing)), one(a, absent(missing))],
        [
            one(a, two(b, leaf(missing), leaf(a))),
            one(a, two(missing, leaf(missing), leaf(missing))),
            one(a, two(b, leaf(missing), leaf(a))),
        ],
        [one(empty, leaf(empty)), absent(empty), absent(empty)],
        [
            one(a, two(empty, leaf(empty), leaf(missing))),
            one(a, two(missing, leaf(missing), leaf(missing))),
            one(a, two(empty, leaf(missing), leaf(missing))),
        ],
        [one(missing, leaf(empty)), absent(missing), one(missing, leaf(empty))],
        [
            two(missing, leaf(missing), absent(b)),
            two(missing, leaf(missing), absent(missing)),
            two(missing, leaf(missing), absent(b)),
        ],
        [one(a, leaf("008262")), absent(a), one(a, leaf(b))],
        [one(a, leaf("008261")), absent(a), absent(a)],
        [one(long, leaf(long)), absent(long), absent(long)],
    ]
}

#[test]
fn sources_kept() {
    for case in cases() {
        let [read, archive, full] = case.map(|main| chunk(&main));
        let chunk = Chunk::read(&read, Limits::ceilings()).unwrap();
        assert_eq!(chunk.copy(), archive);
        assert_eq!(chunk.full_copy(), full);
        let run = |arguments: &[&str]| run_on(arguments, &read).stdout;
        assert_eq!(run(&["copy", "-", "-"]), archive);
        assert_eq!(run(&["copy", "--full", "-", "-"]), full);
    }
}

/// Lent memory: what is behind the copy stays, and all of it where it is too short; 26 is judged by the full copy's length.
#[test]
fn lent_memory() {
    for case in cases() {
        let [read, archive, full] = case.map(|main| chunk(&main));
        let chunk = Chunk::read(&read, Limits::ceilings()).unwrap();
        assert_eq!((chunk.copy_length(), chunk.full_copy_length()), (archive.len(), full.len()));
        for more in [0, 1, 100] {
            let mut lent = vec![BEFORE; full.len() + more];
            assert_eq!(chunk.full_copy_into(&mut lent), Ok(full.len()));
            assert_eq!(lent[..full.len()], full);
            assert!(lent[full.len()..].iter().all(|byte| *byte == BEFORE));
        }
        for less in [full.len() - 1, full.len() / 2, 0] {
            let mut lent = vec![BEFORE; less];
            assert_eq!(chunk.full_copy_into(&mut lent), Err(Refusal::LentSpace));
            assert!(lent.iter().all(|byte| *byte == BEFORE));
        }
    }
}

/// The source of each function, as read.
fn sources<'a>(chunk: &Chunk<'a>) -> Vec<Option<&'a [u8]>> {
    chunk.functions().map(|function| function.source()).collect()
}

/// Of every chunk that is kept: the full copy is read with the same sources, is its own full copy, and has the chunk's archive copy.
#[cfg(repository)]
#[test]
fn of_kept_chunks() {
    let (mut with, mut copies) = (0, 0);
    for (limits, bytes, _) in common::kept_chunks() {
        // A string limit of 0 refuses the name that an absent one is copied as.
        if limits != Limits::ceilings() {
            continue;
        }
        let Ok(chunk) = Chunk::read(&bytes, limits) else { continue };
        let full = chunk.full_copy();
        let again = Chunk::read(&full, limits).unwrap();
        assert_eq!(sources(&again), sources(&chunk));
        assert_eq!(again.full_copy(), full);
        assert_eq!(again.copy(), chunk.copy());
        assert_eq!(again.padded_numbers(), 0);
        with += usize::from(full != chunk.copy());
        copies += 1;
    }
    assert!(copies > 1_000, "only {copies} copies");
    assert!(with > 100, "only {with} keep a source");
}
