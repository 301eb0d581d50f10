// The calls that take a place: over all parts of a chunk that was read, in their order, and at places by chance, where the bytes spell whatever they spell.
use crate::calls::*;
use crate::check::{judge, Asked};
use crate::difference::Difference;
use crate::judged::{constant, Judged};
use crate::lender::{coded, Answer};
use crate::parts::{Head, Parts, Tail};
use crate::refusals::Refusal;
use luad_core::limits::ResourceLimits;

pub fn head_numbers(head: &Head) -> [u64; 16] {
    let mut numbers = [0; 16];
    numbers[..3].copy_from_slice(&head.source);
    numbers[3..5].copy_from_slice(&head.lines);
    numbers[5..8].copy_from_slice(&head.bytes);
    numbers[8..].copy_from_slice(head.lists.as_flattened());
    numbers
}

pub fn tail_numbers(tail: &Tail) -> [u64; 9] {
    let mut numbers = [tail.end; 9];
    numbers[..8].copy_from_slice(tail.lists.as_flattened());
    numbers
}

/// From the index on: each function's head and tail, and every entry, by the place that the part before it gave.
pub fn parts_in_order(asked: &mut Asked, judged: &Judged) -> Result<(), Difference> {
    for (i, function) in judged.functions.iter().enumerate() {
        let (head, tail) = (&judged.heads[i], &judged.tails[i]);
        asked.numbered(&HEAD_AT, function.start, Ok(head_numbers(head)))?;
        asked.numbered(&TAIL_AT, judged.behind[i], Ok(tail_numbers(tail)))?;
        entries_at(asked, judged, i)?;
    }
    Ok(())
}

fn entries_at(asked: &mut Asked, judged: &Judged, function: usize) -> Result<(), Difference> {
    let proto = judged.functions[function].proto;
    let (head, tail) = (&judged.heads[function], &judged.tails[function]);
    for word in &proto.instructions {
        let place = word.source.byte_offset;
        asked.numbered(&WORD_AT, place, Ok([u64::from(word.raw_word), place as u64 + 4]))?;
    }
    for (entry, source) in proto.constants.iter().map(|constant| &constant.source).enumerate() {
        let [tag, value, length] = constant(proto, entry);
        asked.numbered(
            &CONSTANT_AT,
            source.byte_offset,
            Ok([tag, value, length, (source.byte_offset + source.byte_length) as u64]),
        )?;
    }
    for upvalue in &proto.upvalues {
        let place = upvalue.source.byte_offset;
        let [instack, idx, kind] = [upvalue.instack, upvalue.idx, upvalue.kind].map(u64::from);
        asked.numbered(&UPVALUE_AT, place, Ok([instack, idx, kind, place as u64 + 3]))?;
    }
    for (entry, delta) in proto.line_info.iter().enumerate() {
        let place = tail.lists[0][1] + entry as u64;
        asked.numbered(&DELTA_AT, place as usize, Ok([i64::from(*delta as i8) as u64, place + 1]))?;
    }
    for anchor in &proto.abs_line_info {
        let place = anchor.source.byte_offset;
        let behind = (place + anchor.source.byte_length) as u64;
        asked.numbered(&ANCHOR_AT, place, Ok([anchor.pc as u64, anchor.line as u64, behind]))?;
    }
    for (local, named) in proto.loc_vars.iter().zip(&tail.locals) {
        let [there, at, length] = named.text;
        let place = local.source.byte_offset;
        asked.numbered(
            &LOCAL_AT,
            place,
            Ok([there, at, length, local.startpc as u64, local.endpc as u64, named.end]),
        )?;
    }
    let mut place = tail.lists[3][1];
    for name in &tail.names {
        let [there, at, length] = name.text;
        asked.numbered(&STRING_AT, place as usize, Ok([there, at, length, name.end]))?;
        place = name.end;
    }
    let entries = head.lists.iter().chain(&tail.lists).map(|list| list[0]).sum::<u64>() - head.lists[3][0];
    asked.tally.parts += 2 + entries;
    Ok(())
}

/// Every such call at a place by chance, now and then at the end or behind it.
pub fn places(asked: &mut Asked, limits: &ResourceLimits) -> Result<(), Difference> {
    let length = asked.case.chunk.len();
    let place = match asked.chance.below(16) {
        0 => length,
        1 => length + 1 + asked.chance.below(3),
        2 => asked.chance.number() as usize,
        3 => asked.chance.below(length + 1),
        _ => 31.min(length) + asked.chance.below(length.saturating_sub(31) + 1),
    };
    at(asked, limits, &HEAD_AT, place, |parts| parts.head().map(|head| head_numbers(&head)))?;
    at(asked, limits, &TAIL_AT, place, |parts| parts.tail().map(|tail| tail_numbers(&tail)))?;
    at(asked, limits, &WORD_AT, place, |parts| Ok([parts.word()?, parts.place()]))?;
    at(asked, limits, &CONSTANT_AT, place, |parts| {
        parts.constant().map(|[tag, value, length]| [tag, value, length, parts.place()])
    })?;
    at(asked, limits, &UPVALUE_AT, place, |parts| {
        parts.upvalue().map(|[instack, idx, kind]| [instack, idx, kind, parts.place()])
    })?;
    at(asked, limits, &DELTA_AT, place, |parts| Ok([parts.delta()?, parts.place()]))?;
    at(asked, limits, &ANCHOR_AT, place, |parts| parts.anchor().map(|[pc, line]| [pc, line, parts.place()]))?;
    at(asked, limits, &LOCAL_AT, place, |parts| {
        parts.local().map(|([there, at, length], [start, end])| [there, at, length, start, end, parts.place()])
    })?;
    at(asked, limits, &STRING_AT, place, |parts| {
        parts.text().map(|[there, at, length]| [there, at, length, parts.place()])
    })
}

fn at<'a, const N: usize>(
    asked: &mut Asked<'a>,
    limits: &ResourceLimits,
    call: &Call<Numbered, N>,
    place: usize,
    read: impl FnOnce(&mut Parts) -> Result<[u64; N], Refusal>,
) -> Result<(), Difference> {
    let chunk = &asked.case.chunk;
    let expected: Answer<N> = judge("the Rust's reader at a place", || {
        Parts::at(chunk, limits, place).and_then(|mut parts| read(&mut parts))
    })?
    .map_err(coded);
    asked.tally.parts += 1;
    asked.numbered(call, place, expected)
}
