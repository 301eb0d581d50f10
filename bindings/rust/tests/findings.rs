//! Findings: the longest list that there can be. The findings of the kept chunks: tests/kept.rs.
mod common;

use common::{chunk, function};
use lafzimdo::{Chunk, Finding, Limits, Rule, Verdict};

/// MOVE with A 2, which a stack of 2 does not have: one warning.
const REGISTER: u32 = 2 << 7;
/// LOADK with A 2 and Bx 1, without constants: a warning and an error.
const CONSTANT: u32 = 3 | 2 << 7 | 1 << 15;

/// A chunk of these words.
fn of_words(words: &[u32]) -> Vec<u8> {
    let mut bytes = chunk(&function(0, words.len(), &[], &[], &[]));
    let first = 38 + common::number(words.len() as u64).len();
    for (at, word) in words.iter().enumerate() {
        bytes[first + 4 * at..][..4].copy_from_slice(&word.to_le_bytes());
    }
    bytes
}

#[test]
fn two_on_one_instruction() {
    let bytes = of_words(&[CONSTANT]);
    let (verdict, findings) = Chunk::read(&bytes, Limits::ceilings()).unwrap().validate();
    let rules = [Rule::Register(2), Rule::Constant(1)];
    assert_eq!(
        (verdict, findings),
        (Verdict::Invalid, rules.map(|rule| Finding { function: 0, pc: 0, rule }).to_vec())
    );
}

#[test]
fn the_longest_list() {
    let mut words = vec![REGISTER; 9_999];
    words.extend([CONSTANT, CONSTANT]);
    let bytes = of_words(&words);
    let chunk = Chunk::read(&bytes, Limits::ceilings()).unwrap();
    let (verdict, findings) = chunk.validate();
    assert_eq!((verdict, findings.len(), chunk.finding_count()), (Verdict::Invalid, 10_001, 10_001));
    assert_eq!(chunk.verdict(), Verdict::Invalid);
    assert!(findings[..10_000]
        .iter()
        .enumerate()
        .all(|(pc, finding)| *finding == Finding { function: 0, pc, rule: Rule::Register(2) }));
    assert_eq!(findings[10_000], Finding { function: 0, pc: 9_999, rule: Rule::Constant(1) });
}
