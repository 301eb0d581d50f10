//! Where the instructions and the constants of a function begin, in its row of the index.
mod common;

use common::{bytes, header};
use lafzimdo::{Chunk, Constant, Function, Limits, Row};

/// Chunks behind their headers, and their rows.
const CASES: [(&str, &str, &[[u32; Row::COLUMNS]]); 7] = [
    ("01's 46 bytes", "808080 000002 80 80 80 80 80 80 80 80", &[[32, 46, 0, 0, 0, 0, 0, 0, 0, 0, 0, 0, 39, 40]]),
    (
        "every kind of entry",
        "834061 81 02ac 000002 82 00000000 00000080 89 00 01 11 03 0000000000000000 13 0000000000000000 04 830078 \
         14 84000000 04 80 14 81 81 000000 82 \
         80 82 82 000002 80 80 80 81 834062 80 80 000002 80 80 80 80 80 80 80 80 80 80 80 80 \
         80 80 80 000002 80 80 80 80 80 80 80 80 \
         83 000080 82 80 85 0180 010080 82 830076 80 83 80 0180 01c8 83 80 81 8200 00800000",
        &[
            [32, 162, 0, 0, 2, 9, 1, 2, 3, 2, 2, 3, 42, 51],
            [90, 120, 1, 0, 0, 0, 0, 1, 0, 0, 0, 0, 97, 98],
            [100, 116, 2, 1, 0, 0, 0, 0, 0, 0, 0, 0, 109, 110],
            [120, 134, 1, 0, 0, 0, 0, 0, 0, 0, 0, 0, 127, 128],
        ],
    ),
    (
        "padded counts: the places are behind them",
        "808080 000002 000080 0080 80 80 80 80 80 80",
        &[[32, 49, 0, 0, 0, 0, 0, 0, 0, 0, 0, 0, 41, 43]],
    ),
    (
        "padded counts of lists that have entries",
        "808080 000002 0082 01000000 02000000 000081 00 80 80 80 80 80 80",
        &[[32, 58, 0, 0, 2, 1, 0, 0, 0, 0, 0, 0, 40, 51]],
    ),
    (
        "three words, no constant",
        "808080 000002 83 01000000 02000000 03000000 80 80 80 80 80 80 80",
        &[[32, 58, 0, 0, 3, 0, 0, 0, 0, 0, 0, 0, 39, 52]],
    ),
    (
        "no word, one constant",
        "808080 000002 80 81 04 84616263 80 80 80 80 80 80",
        &[[32, 51, 0, 0, 0, 1, 0, 0, 0, 0, 0, 0, 39, 40]],
    ),
    (
        "nested",
        "808080 000002 80 80 80 82 \
         808080 000002 81 07000000 80 80 81 808080 000002 80 80 80 80 80 80 80 80 80 80 80 80 \
         808080 000002 80 81 00 80 80 80 80 80 80 80 80 80 80",
        &[
            [32, 93, 0, 0, 0, 0, 0, 2, 0, 0, 0, 0, 39, 40],
            [42, 74, 1, 0, 1, 0, 0, 1, 0, 0, 0, 0, 49, 54],
            [56, 70, 2, 1, 0, 0, 0, 0, 0, 0, 0, 0, 63, 64],
            [74, 89, 1, 0, 0, 1, 0, 0, 0, 0, 0, 0, 81, 82],
        ],
    ),
];

#[test]
fn rows() {
    for (name, behind, rows) in CASES {
        let chunk = [header(), bytes(&behind.replace(' ', ""))].concat();
        let chunk = Chunk::read(&chunk, Limits::ceilings()).unwrap();
        assert_eq!(chunk.index().iter().map(Row::numbers).collect::<Vec<_>>(), rows, "{name}");
        let places: Vec<_> = chunk.index().iter().map(|row| [row.instructions_at(), row.constants_at()]).collect();
        assert_eq!(places, rows.iter().map(|row| [row[12], row[13]].map(|at| at as usize)).collect::<Vec<_>>());
    }
}

/// The tag of a constant.
fn tag(constant: &Constant<'_>) -> u8 {
    match constant {
        Constant::Nil => 0,
        Constant::Boolean(false) => 1,
        Constant::Boolean(true) => 17,
        Constant::Integer(_) => 3,
        Constant::Float(_) => 19,
        Constant::ShortString(_) => 4,
        Constant::LongString(_) => 20,
    }
}

/// The words as they lie in the file from the place on, one after the other; the tag of the first constant; before each place the last byte of a number.
fn in_the_file(bytes: &[u8], function: &Function<'_>, row: Row) {
    let words = bytes[row.instructions_at()..].chunks_exact(4);
    let words = words.map(|word| u32::from_le_bytes(word.try_into().unwrap()));
    assert!(function.instructions().eq(words.take(row.counts().instructions)));
    if let Some(constant) = function.constants().next() {
        assert_eq!(bytes[row.constants_at()], tag(&constant));
    }
    assert!(bytes[row.instructions_at() - 1] >= 128 && bytes[row.constants_at() - 1] >= 128);
    assert!(row.instructions_at() + 4 * row.counts().instructions < row.constants_at());
}

#[cfg(repository)]
#[test]
fn of_every_kept_chunk() {
    let mut empty = [0; 2];
    for (limits, bytes, _) in common::kept_chunks() {
        let Ok(chunk) = Chunk::read(&bytes, limits) else { continue };
        for (function, row) in chunk.functions().zip(chunk.index()) {
            in_the_file(&bytes, &function, *row);
            empty[0] += usize::from(row.counts().instructions == 0);
            empty[1] += usize::from(row.counts().constants == 0);
        }
    }
    assert!(empty.iter().all(|count| *count > 1_000), "lists without an entry: {empty:?}");
}
