//! Refusals that the caller causes, their order, and limits. That every refusal of a file is reached: tests/kept.rs.
mod common;

use common::{chunk, function, header};
use lafzimdo::{encode, Chunk, Instruction, Limits, Refusal};

fn refusal(bytes: &[u8], limits: Limits) -> Refusal {
    Chunk::read(bytes, limits).unwrap_err()
}

#[test]
fn of_files() {
    let small = chunk(&function(0, 0, &[], &[], &[]));
    assert_eq!(small.len(), 46);
    assert!(Chunk::read(&small, Limits::ceilings()).is_ok());
    assert_eq!(refusal(&[], Limits::ceilings()), Refusal::Truncated(0));
    assert_eq!(refusal(&small[..45], Limits::ceilings()), Refusal::Truncated(45));
    assert_eq!(refusal(b"#!/usr/bin/lua", Limits::ceilings()), Refusal::Signature(0));
}

#[test]
fn each_limit_above_its_ceiling() {
    for at in 0..9 {
        let mut numbers = Limits::ceilings().numbers();
        assert_eq!(refusal(&[], Limits::of_numbers(numbers)), Refusal::Truncated(0));
        numbers[at] += 1;
        assert_eq!(refusal(&[], Limits::of_numbers(numbers)), Refusal::LimitAboveCeiling);
        numbers[at] = u64::MAX;
        assert_eq!(refusal(&[], Limits::of_numbers(numbers)), Refusal::LimitAboveCeiling);
    }
}

#[test]
fn long_files() {
    let mut bytes = chunk(&function(0, 0, &[], &[], &[]));
    bytes.resize(16_777_216, 7);
    assert_eq!(Chunk::read(&bytes, Limits::ceilings()).unwrap().trailing_bytes().len(), 16_777_170);
    bytes.push(7);
    assert_eq!(refusal(&bytes, Limits::ceilings()), Refusal::InputBytes);
    let limits = Limits { max_input_bytes: 45, ..Limits::ceilings() };
    assert_eq!(refusal(&bytes[..46], limits), Refusal::InputBytes);
    assert_eq!(refusal(&bytes[..45], limits), Refusal::Truncated(45));
    // 21 comes before 22, and 22 before all that the bytes are refused for.
    assert_eq!(refusal(&bytes, Limits { max_nesting_depth: 15, ..Limits::ceilings() }), Refusal::LimitAboveCeiling);
    bytes[0] = 0;
    assert_eq!(refusal(&bytes, Limits::ceilings()), Refusal::InputBytes);
}

/// A chain of functions, each nested in the one before.
fn chain(depth: usize) -> Vec<u8> {
    let mut inner = function(0, 0, &[], &[], &[]);
    for _ in 0..depth {
        inner = function(0, 0, &[inner], &[], &[]);
    }
    chunk(&inner)
}

#[test]
fn nesting() {
    let bytes = chain(14);
    let read = Chunk::read(&bytes, Limits::ceilings()).unwrap();
    assert_eq!(read.function_count(), 15);
    assert_eq!(read.index().iter().map(|row| row.depth()).collect::<Vec<_>>(), (0..15).collect::<Vec<_>>());
    assert_eq!(read.copy(), bytes);
    let under = |depth| Limits { max_nesting_depth: depth, ..Limits::ceilings() };
    // A function of depth d begins at 32 + 10 d.
    assert_eq!(refusal(&bytes, under(13)), Refusal::NestingDepth(172));
    for deeper in [15, 16, 200] {
        assert_eq!(refusal(&chain(deeper), Limits::ceilings()), Refusal::NestingDepth(182));
    }
    assert_eq!(refusal(&chain(1), under(0)), Refusal::NestingDepth(42));
    for above in [15, 16, 200, 201, u64::MAX] {
        assert_eq!(refusal(&bytes, under(above)), Refusal::LimitAboveCeiling);
    }
}

#[test]
fn of_lines() {
    let bytes = chunk(&function(1 << 62, 1, &[], &[1], &[]));
    let read = Chunk::read(&bytes, Limits::ceilings()).unwrap();
    assert_eq!(read.line(0, 0), Err(Refusal::LineTooLarge));
    assert_eq!(read.line(1, 0), Err(Refusal::NoFunction));
    assert_eq!(read.function(0).unwrap().lines(), Err(Refusal::LineTooLarge));
    assert_eq!(read.function(0).unwrap().computed_lines(), Err(Refusal::LineTooLarge));
}

#[test]
fn of_words() {
    assert_eq!(encode(&Instruction { opcode: 83, k: 2, ..Instruction::default() }), Err(Refusal::NoOpcode));
    assert_eq!(encode(&Instruction { k: 2, ..Instruction::default() }), Err(Refusal::FieldRange));
}

#[test]
fn as_errors() {
    let error: Box<dyn std::error::Error> = refusal(&header()[..30], Limits::ceilings()).into();
    assert!(error.to_string().starts_with("refused 1 at "), "{error}");
}
