//! How many of a chunk's numbers are padded.
mod common;

use common::run::run_on;
use common::{bytes, chunk, function, header};
use lafzimdo::{Chunk, Limits};

/// The function of the smallest chunk, a dot before each of its eleven numbers.
const SMALLEST: &str = ".80 .80 .80 00 00 02 .80 .80 .80 .80 .80 .80 .80 .80";

/// Every kind of number, sizes of absent strings among them, 61 in all: main up to its nested functions, these, the rest of main, trailing bytes. Zeros wherever there is no number.
const EVERY_KIND: &str = "\
    .83 4061 .81 .02ac 000002 .82 00000000 00000080 .89 00 01 11 03 0000000000000000 13 0000000000000000 \
        04 .83 0078 14 .84 000000 04 .80 14 .81 .81 000000 .82 \
    .80 .82 .82 000002 .80 .80 .80 .81 \
    .83 4062 .80 .80 000002 .80 .80 .80 .80 .80 .80 .80 .80 \
    .80 .80 .80 .80 \
    .80 .80 .80 000002 .80 .80 .80 .80 .80 .80 .80 .80 \
    .83 000080 .82 .80 .85 .0180 .010080 .82 .83 0076 .80 .83 .80 .0180 .01c8 .83 .80 .81 .82 00 \
    00 80 00 00";

/// A chunk of these, with so many zero groups before each number that is chosen.
fn spelt(main: &str, zeros: usize, chosen: impl Fn(usize) -> bool) -> Vec<u8> {
    let mut chunk = header();
    for (number, digits) in main.replace(' ', "").split('.').skip(1).enumerate() {
        chunk.extend(vec![0; if chosen(number) { zeros } else { 0 }]);
        chunk.extend(bytes(digits));
    }
    chunk
}

fn padded(bytes: &[u8]) -> usize {
    Chunk::read(bytes, Limits::ceilings()).unwrap().padded_numbers()
}

#[test]
fn numbers_alone_none_and_all() {
    for (main, numbers) in [(SMALLEST, 11), (EVERY_KIND, 61)] {
        assert_eq!(padded(&spelt(main, 0, |_| true)), 0);
        assert_eq!(padded(&spelt(main, 1, |_| true)), numbers);
        for alone in 0..numbers {
            assert_eq!(padded(&spelt(main, 1, |number| number == alone)), 1, "number {alone}");
            // However many zero groups it has, a number counts once.
            assert_eq!(padded(&spelt(main, 9, |number| number == alone)), 1, "number {alone}");
        }
    }
}

/// The first line so spelt.
#[test]
fn numbers_of_one_byte_to_eleven() {
    for (shortest, others) in [
        ("80", vec!["0080", "000080"]),
        ("ff", vec!["00ff"]),
        ("0180", vec!["000180"]),
        ("7fff", vec!["007fff"]),
        ("010080", vec!["00010080"]),
        ("017f7f7f7f7f7f7f7eff", vec!["00017f7f7f7f7f7f7f7eff"]),
    ] {
        let first_line =
            |spelling: &str| spelt(&SMALLEST.replacen(".80 .80", &format!(".80 .{spelling}"), 1), 0, |_| true);
        assert_eq!(padded(&first_line(shortest)), 0, "{shortest}");
        for other in others {
            assert_eq!(padded(&first_line(other)), 1, "{other}");
        }
    }
}

/// Of every chunk that is kept and whose copy is read under its limits; all are but those that grow beyond a limit.
#[test]
#[cfg(repository)]
fn copies_have_none() {
    let (mut with, mut copies) = (0, 0);
    for (limits, bytes, _) in common::kept_chunks() {
        let Ok(chunk) = Chunk::read(&bytes, limits) else {
            continue;
        };
        with += usize::from(chunk.padded_numbers() > 0);
        if let Ok(copy) = Chunk::read(&chunk.copy(), limits) {
            assert_eq!(copy.padded_numbers(), 0);
            copies += 1;
        }
    }
    assert!(with >= 300 && copies >= 2_500, "{with} chunks have padded numbers, {copies} copies are read");
    let all = spelt(EVERY_KIND, 1, |_| true);
    let copy = Chunk::read(&all, Limits::ceilings()).unwrap().copy();
    assert_eq!((padded(&all), padded(&copy)), (61, 0));
}

#[test]
fn dumped_behind_the_functions() {
    for zeros in [0, 1] {
        let dump = run_on(&["dump", "--raw", "-"], &spelt(EVERY_KIND, zeros, |_| true));
        let expected = format!("\nfunctions 4\npadded numbers {}\n\nfunction 0 ", 61 * zeros);
        assert!(dump.text(0).contains(&expected), "{:.400}", dump.text(0));
    }
    assert_eq!(spelt(SMALLEST, 0, |_| true), chunk(&function(0, 0, &[], &[], &[])));
}
