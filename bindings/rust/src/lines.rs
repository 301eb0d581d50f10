//! The lines of a list of pcs; and the line of every instruction of a function, computed without a pass over the chunk, by the rules of the proved calls, `lafzimdo_line` and `lafzimdo_lines`.
use crate::entry::Anchor;
use crate::function::Function;
use crate::refusal::Refusal;

/// The lines of a list of pcs.
#[derive(Debug, Clone, PartialEq, Eq, Hash)]
pub struct Lines {
    /// The line of each pc, in the order of the list.
    pub lines: Vec<u64>,
    /// How many of the function's deltas were read: as many as the lookups of these pcs walk over, each counted once.
    pub deltas_read: usize,
}

/// From here on a line is refused.
const TOO_LARGE: u64 = 1 << 62;

pub(crate) fn computed(function: &Function<'_>) -> Result<Vec<u64>, Refusal> {
    let fields = function.fields();
    let anchors: Vec<Anchor> = function.anchors().collect();
    if fields.line_defined >= TOO_LARGE || anchors.iter().any(|anchor| anchor.line >= TOO_LARGE) {
        return Err(Refusal::LineTooLarge);
    }
    let instructions = fields.counts.instructions;
    if anchors.len() == instructions {
        // One anchor for each instruction.
        return Ok(anchors.iter().map(|anchor| anchor.line).collect());
    }
    if fields.counts.line_info == 0 {
        return Ok(vec![0; instructions]);
    }
    // A delta behind the last instruction moves no line.
    let deltas: Vec<i8> = function.deltas().take(instructions).collect();
    Ok(by_deltas(fields.line_defined, &deltas, &anchors, instructions))
}

/// The line behind a delta of -128: that of the first anchor at its pc.
#[derive(Clone, Copy)]
struct Jump {
    pc: usize,
    line: i64,
    sum: i64,
}

/// The lines by deltas, of which there is at least one, or no instruction. `line_defined` and the anchors' lines are below 2^62.
///
/// The base of an instruction is the last of those anchors, taken from the front, whose pc is not above its own; without one it is pc 0 and `line_defined`. To the base's line the deltas
/// are added from the base's pc itself up to the instruction's. A delta of -128 adds nothing; where there is an anchor at its pc, it takes that anchor's line. So a line is
/// that of the base, or of the last such delta behind it, and a difference of two sums.
fn by_deltas(line_defined: u64, deltas: &[i8], anchors: &[Anchor], instructions: usize) -> Vec<u64> {
    let at = first_at(anchors, deltas.len());
    let mut lines = Vec::with_capacity(instructions);
    let mut base = Anchor { pc: 0, line: line_defined };
    let mut left = anchors;
    let mut sums = Vec::with_capacity(deltas.len());
    let mut sum = 0;
    let mut jump: Option<Jump> = None;
    for pc in 0..instructions {
        while let [anchor, behind @ ..] = left {
            if anchor.pc > pc as u64 {
                break;
            }
            (base, left) = (*anchor, behind);
        }
        if let Some(&delta) = deltas.get(pc) {
            sums.push(sum);
            match (delta, at.get(pc).copied().flatten()) {
                (i8::MIN, Some(line)) => jump = Some(Jump { pc, line, sum }),
                (i8::MIN, None) => {}
                _ => sum += i64::from(delta),
            }
        }
        // The base is at or before this instruction, so that its sum is there if it has a delta.
        let base_pc = base.pc as usize;
        let line = match (jump, sums.get(base_pc)) {
            (_, None) => base.line as i64,
            (Some(jump), Some(_)) if jump.pc >= base_pc => jump.line + (sum - jump.sum),
            (_, Some(before)) => base.line as i64 + (sum - before),
        };
        lines.push(line.max(0) as u64);
    }
    lines
}

/// The line of the first anchor at each pc below `len`, if any.
fn first_at(anchors: &[Anchor], len: usize) -> Vec<Option<i64>> {
    let mut lines = vec![None; len];
    for anchor in anchors {
        if let Some(slot) = usize::try_from(anchor.pc).ok().and_then(|pc| lines.get_mut(pc)) {
            slot.get_or_insert(anchor.line as i64);
        }
    }
    lines
}

#[cfg(test)]
mod tests {
    use super::*;

    #[test]
    fn an_anchor_that_a_delta_takes() {
        let anchors = [Anchor { pc: 3, line: 200 }];
        let lines = by_deltas(10, &[1, 0, 2, -128, 1], &anchors, 5);
        assert_eq!(lines, [11, 11, 13, 200, 201]);
    }

    #[test]
    fn below_zero_on_the_way() {
        assert_eq!(by_deltas(1, &[-5], &[], 1), [0]);
        assert_eq!(by_deltas(0, &[-1, 2], &[], 2), [0, 1]);
    }

    #[test]
    fn behind_the_last_delta() {
        let anchors = [Anchor { pc: 2, line: 50 }];
        assert_eq!(by_deltas(1, &[1, 1], &anchors, 4), [2, 3, 50, 50]);
    }
}
