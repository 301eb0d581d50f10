// The lines of lists of pcs, a call that the Rust has not: each line is the Rust's own for its pc, and the count is the size of a set of the deltas that its loop goes over, made here
// over its decoded function. 25, 29, 30 and 26 are judged here, in this order.
use crate::check::{judge, Asked};
use crate::difference::Difference;
use crate::judged::Judged;
use crate::lines::{is_refused, pcs};
use luad_core::model::Prototype;
use std::collections::BTreeSet;
use std::ops::Range;

/// What the self-test expects in place of what is right. Each must be found.
pub const WRONG: [&str; 9] = [
    "each delta of each lookup is counted",
    "deltas before the base are counted",
    "deltas between two bases are counted",
    "a delta of -128 is not counted",
    "the base's own delta is not counted",
    "of anchors, equal pcs pass",
    "29 is not for an empty list",
    "of the list, equal pcs are refused",
    "26 comes before 30",
];

/// An empty list; pcs in order, with some left out and some doubled; the same with two of them exchanged, or all drawn by chance.
pub fn lists(asked: &mut Asked, judged: &Judged, function: usize) -> Result<(), Difference> {
    let proto = judged.functions[function].proto;
    let mut list = Vec::new();
    let keep = asked.chance.of(&[1, 1, 2, 3, 8]);
    for pc in pcs(proto) {
        if asked.chance.one_in(keep) {
            let times = asked.chance.of(&[1, 1, 1, 2, 3]);
            list.extend(std::iter::repeat_n(pc, times));
        }
    }
    let mut moved = list.clone();
    if moved.len() > 1 && asked.chance.one_in(2) {
        let at = asked.chance.below(moved.len() - 1);
        moved.swap(at, at + 1);
    } else {
        moved.iter_mut().for_each(|pc| *pc = asked.chance.of(&list));
    }
    for list in [&[][..], &list, &moved] {
        one(asked, proto, function, list)?;
    }
    Ok(())
}

/// A list, with exactly enough lent for its lines, with more, and with too little.
fn one(asked: &mut Asked, proto: &Prototype, function: usize, list: &[usize]) -> Result<(), Difference> {
    let given: Vec<u64> = list.iter().map(|pc| *pc as u64).collect();
    let wrong = asked.lender.wrong_list();
    let more = list.len() + asked.chance.of(&[0, 0, 1, 5]);
    if let Some(refusal) = refusal(proto, list, wrong) {
        asked.tally.refused(refusal);
        let short = asked.chance.below(list.len() + 1);
        asked.lines(function, &given, more, Err(refusal.into()))?;
        let swapped = wrong == Some(8) && refusal == 30 && short < list.len();
        return asked.lines(function, &given, short, Err(if swapped { 26 } else { refusal.into() }));
    }
    let mut lines = Vec::with_capacity(list.len());
    for pc in list {
        lines.push(judge("the Rust's line", || proto.get_line_for_pc(*pc))? as u64);
    }
    let read = read(proto, list, wrong);
    asked.tally.lists += 1;
    asked.tally.listed += list.len() as u64;
    asked.tally.deltas_read += read;
    asked.lines(function, &given, more, Ok(([read], &lines)))?;
    if list.is_empty() {
        return Ok(());
    }
    let short = asked.chance.below(list.len());
    asked.tally.refused(26);
    asked.lines(function, &given, short, Err(26))
}

/// 25, 29 or 30.
fn refusal(proto: &Prototype, list: &[usize], wrong: Option<usize>) -> Option<u8> {
    let anchors = proto.abs_line_info.windows(2).map(|pair| (pair[0].pc, pair[1].pc));
    let rises = |(before, pc)| if wrong == Some(5) { before <= pc } else { before < pc };
    let pairs = list.windows(2).map(|pair| (pair[0], pair[1]));
    let stays = |(before, pc)| if wrong == Some(7) { before < pc } else { before <= pc };
    if is_refused(proto) {
        return Some(25);
    }
    if !anchors.clone().all(rises) && !(wrong == Some(6) && list.is_empty()) {
        return Some(29);
    }
    (!pairs.clone().all(stays)).then_some(30)
}

/// The numbers of the deltas that the Rust's loop goes over for a pc.
fn walked(proto: &Prototype, pc: usize) -> Range<usize> {
    let deltas = proto.line_info.len();
    let by_number = proto.abs_line_info.len() == proto.instructions.len() && pc < proto.abs_line_info.len();
    if by_number || deltas == 0 {
        return 0..0;
    }
    let mut base = 0;
    for anchor in &proto.abs_line_info {
        if anchor.pc > pc {
            break;
        }
        base = anchor.pc;
    }
    base..pc.min(deltas - 1) + 1
}

/// How many deltas the lookups go over, each counted once.
fn read(proto: &Prototype, list: &[usize], wrong: Option<usize>) -> u64 {
    let walks = || list.iter().map(|pc| walked(proto, *pc));
    let set: BTreeSet<usize> = match wrong {
        Some(0) => return walks().map(|walk| walk.len() as u64).sum(),
        Some(1) => walks().flat_map(|walk| if walk.is_empty() { 0..0 } else { 0..walk.end }).collect(),
        Some(2) => {
            let all = walks().filter(|walk| !walk.is_empty());
            let (from, to) = all.fold((usize::MAX, 0), |(from, to), walk| (from.min(walk.start), to.max(walk.end)));
            (from..to).collect()
        }
        Some(3) => walks().flatten().filter(|i| proto.line_info[*i] != 0x80).collect(),
        Some(4) => walks().flat_map(|walk| walk.start.saturating_add(1)..walk.end).collect(),
        _ => walks().flatten().collect(),
    };
    set.len() as u64
}
