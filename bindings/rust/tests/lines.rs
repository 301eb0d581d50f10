//! The lines of all instructions, by the proved call and as this crate computes them, are those of the call for one, which is proved.
mod common;

use common::chance::Chance;
use common::{chunk, function};
use lafzimdo::{Chunk, Limits};

fn compared(bytes: &[u8], limits: Limits) -> usize {
    let Ok(chunk) = Chunk::read(bytes, limits) else { return 0 };
    let mut lines = 0;
    for function in chunk.functions() {
        let count = function.fields().counts.instructions;
        assert_eq!(function.lines(), function.computed_lines());
        match function.lines() {
            Ok(all) => {
                assert_eq!(all.len(), count);
                lines += count;
                for (pc, line) in all.into_iter().enumerate() {
                    assert_eq!(
                        chunk.line(function.number(), pc),
                        Ok(line),
                        "pc {pc} of function {}",
                        function.number()
                    );
                }
            }
            Err(refusal) => assert_eq!(chunk.line(function.number(), 0), Err(refusal)),
        }
    }
    lines
}

#[test]
#[cfg(repository)]
fn of_every_kept_chunk() {
    let lines: usize = common::kept_chunks().iter().map(|(limits, bytes, _)| compared(bytes, *limits)).sum();
    assert!(lines > 10_000, "only {lines} lines");
}

/// Functions of up to 12 instructions with deltas, many of them -128, and anchors in any order, also behind the last instruction, twice at one pc, as many as instructions.
#[test]
fn by_chance() {
    let mut chance = Chance::new();
    for _ in 0..20_000 {
        let instructions = chance.below(12) as usize;
        let deltas: Vec<i8> =
            (0..chance.below(14)).map(|_| [-128, -2, -1, 0, 1, 3, 127][chance.below(7) as usize]).collect();
        let lines = [0, 1, 5, 1000, (1 << 62) - 1, 1 << 62];
        let mut anchors: Vec<(u64, u64)> = (0..chance.below(6))
            .map(|_| {
                (
                    if chance.below(20) == 0 { u64::MAX - 200 } else { chance.below(14) },
                    lines[chance.below(20).min(4) as usize],
                )
            })
            .collect();
        if chance.below(2) == 0 {
            anchors.sort();
        }
        if chance.below(50) == 0 {
            anchors.push((0, lines[5]));
        }
        let bytes = chunk(&function(chance.below(8), instructions, &[], &deltas, &anchors));
        compared(&bytes, Limits::ceilings());
    }
}
