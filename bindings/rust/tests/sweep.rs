//! The lines of a list of pcs: worked cases, memory that is lent, refusals and their order; by chance against the call for one pc and a set of deltas made here.
mod common;

use common::chance::Chance;
use common::{chunk, function};
use lafzimdo::{Chunk, Limits, Lines, Refusal};
use std::collections::BTreeSet;

const BEFORE: u64 = 0xa5a5;

/// A function: first line, instructions, deltas, anchors.
type Made<'a> = (u64, usize, &'a [i8], &'a [(u64, u64)]);

/// What is answered, and that lent memory holds the lines, and behind them or on a refusal what it held.
fn swept(made: Made<'_>, pcs: &[u64], room: usize) -> Result<(Vec<u64>, usize), Refusal> {
    let (line, instructions, deltas, anchors) = made;
    let bytes = chunk(&function(line, instructions, &[], deltas, anchors));
    let read = Chunk::read(&bytes, Limits::ceilings()).unwrap();
    let mut lent = vec![BEFORE; room];
    let answer = read.lines_into(0, pcs, &mut lent);
    let written = if answer.is_ok() { pcs.len() } else { 0 };
    assert!(lent[written..].iter().all(|number| *number == BEFORE));
    match answer {
        Ok(deltas_read) => {
            let lines = lent[..written].to_vec();
            assert_eq!(read.lines(0, pcs), Ok(Lines { lines: lines.clone(), deltas_read }));
            Ok((lines, deltas_read))
        }
        Err(refusal) => {
            if refusal != Refusal::LentSpace {
                assert_eq!(read.lines(0, pcs), Err(refusal));
            }
            Err(refusal)
        }
    }
}

const FIVE: Made<'static> = (10, 5, &[1, 0, 2, -128, 1], &[(3, 200)]);
const TWO_BASES: Made<'static> = (7, 6, &[1, 1, 1, 1, 1, 1], &[(2, 50), (4, 80)]);

#[test]
fn worked_cases() {
    for (made, pcs, room, lines, deltas) in [
        (FIVE, &[][..], 0, &[][..], 0),
        (FIVE, &[2], 1, &[13], 3),
        (FIVE, &[0, 0, 2, 3, 9], 5, &[11, 11, 13, 200, 201], 5),
        (FIVE, &[2, 9], 2, &[13, 201], 5),
        (FIVE, &[4], 3, &[201], 2),
        (FIVE, &[0, 9], 2, &[11, 201], 3),
        (TWO_BASES, &[0, 4, 5], 3, &[8, 81, 82], 3),
        (TWO_BASES, &[1, 3, 3, 5, 1 << 40], 5, &[9, 52, 52, 82, 82], 6),
        ((7, 2, &[1, 1, 1, 1], &[(1, 50), (3, 80)]), &[0, 1, 2, 3], 4, &[50, 80, 52, 81], 3),
        ((7, 9, &[1, 1], &[(5, 50)]), &[0, 5, 9], 3, &[8, 50, 50], 1),
        ((7, 9, &[], &[(5, 50)]), &[0, 5], 2, &[0, 0], 0),
        ((7, 0, &[], &[]), &[0, 3], 2, &[0, 0], 0),
        ((0, 3, &[-1, 2, -1], &[]), &[0, 1, 2], 3, &[0, 1, 0], 3),
        (FIVE, &[u64::MAX, u64::MAX], 9, &[201, 201], 2),
    ] {
        assert_eq!(swept(made, pcs, room), Ok((lines.to_vec(), deltas)), "{made:?} {pcs:?}");
    }
}

#[test]
fn refusals_in_their_order() {
    let twice: Made<'_> = (7, 9, &[1, 1], &[(1, 5), (1, 6)]);
    let falling: Made<'_> = (7, 9, &[1, 1], &[(2, 5), (1, 6)]);
    for (made, pcs, room, refusal) in [
        (FIVE, &[2, 1][..], 2, Refusal::PcOrder),
        (FIVE, &[2, 1], 0, Refusal::PcOrder),
        (FIVE, &[1, 2], 1, Refusal::LentSpace),
        (twice, &[0], 1, Refusal::AnchorOrder),
        (twice, &[], 0, Refusal::AnchorOrder),
        (falling, &[1, 0], 0, Refusal::AnchorOrder),
        ((1 << 62, 9, &[1, 1], &[]), &[], 0, Refusal::LineTooLarge),
        ((1 << 62, 9, &[1, 1], &[(2, 5), (1, 6)]), &[1, 0], 0, Refusal::LineTooLarge),
    ] {
        assert_eq!(swept(made, pcs, room), Err(refusal), "{made:?} {pcs:?}");
    }
    let bytes = chunk(&function(1 << 62, 1, &[], &[1], &[]));
    let read = Chunk::read(&bytes, Limits::ceilings()).unwrap();
    assert_eq!(read.lines(1, &[1, 0]), Err(Refusal::NoFunction));
}

/// The deltas that the lookup at a pc walks over: none by rule 2, else from the base on.
fn walked(made: Made<'_>, pc: u64) -> std::ops::Range<usize> {
    let (_, instructions, deltas, anchors) = made;
    if anchors.len() == instructions && pc < instructions as u64 {
        return 0..0;
    }
    let base = anchors.iter().take_while(|anchor| anchor.0 <= pc).last().map_or(0, |anchor| anchor.0);
    let end = (pc.saturating_add(1)).min(deltas.len() as u64);
    base.min(end) as usize..end as usize
}

#[test]
fn by_chance() {
    let mut chance = Chance::new();
    let mut answered = 0;
    for _ in 0..20_000 {
        let instructions = chance.below(8) as usize;
        let deltas: Vec<i8> =
            (0..chance.below(14)).map(|_| [-128, -2, -1, 0, 1, 3, 127][chance.below(7) as usize]).collect();
        let mut anchors: Vec<(u64, u64)> =
            (0..chance.below(6)).map(|_| (chance.below(14), chance.below(1000))).collect();
        anchors.sort();
        if chance.below(4) != 0 {
            anchors.dedup_by_key(|anchor| anchor.0);
        }
        let mut pcs: Vec<u64> =
            (0..chance.below(9)).map(|_| if chance.below(20) == 0 { u64::MAX } else { chance.below(16) }).collect();
        if chance.below(4) != 0 {
            pcs.sort();
        }
        let made: Made<'_> = (chance.below(8), instructions, &deltas, &anchors);
        let bytes = chunk(&function(made.0, instructions, &[], &deltas, &anchors));
        let read = Chunk::read(&bytes, Limits::ceilings()).unwrap();
        let expected = if anchors.windows(2).any(|pair| pair[0].0 >= pair[1].0) {
            Err(Refusal::AnchorOrder)
        } else if pcs.windows(2).any(|pair| pair[0] > pair[1]) {
            Err(Refusal::PcOrder)
        } else {
            answered += 1;
            let lines = pcs.iter().map(|pc| read.line(0, *pc as usize).unwrap()).collect();
            let set: BTreeSet<usize> = pcs.iter().flat_map(|pc| walked(made, *pc)).collect();
            Ok((lines, set.len()))
        };
        assert_eq!(swept(made, &pcs, pcs.len() + chance.below(2) as usize), expected, "{made:?} {pcs:?}");
    }
    assert!(answered > 8_000, "only {answered}");
}
