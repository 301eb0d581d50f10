// A chunk that is read: the summary, the index, the copies and their summaries, verdict and findings, and by number each function's fields, entries and lines, one by one and in lists.
use crate::calls::*;
use crate::case::Case;
use crate::chance::Chance;
use crate::check::{judge, Asked};
use crate::check_lines::lists;
use crate::difference::Difference;
use crate::judged::{constant, summary, Judged};
use crate::lender::{coded, Filled};
use crate::limits::read;
use crate::lines::{is_refused, pcs};
use crate::padded::Padded;

/// Each call by number passes over the chunk. Where all of them together would pass over more bytes than this, some functions and entries are drawn.
const BYTES_PASSED: usize = 150_000;
const FUNCTIONS_DRAWN: usize = 6;
/// In one of so many cases the copy is read too.
const COPIES: usize = 4;

pub fn read_chunk(asked: &mut Asked, judged: &Judged) -> Result<(), Difference> {
    let functions = judged.functions.len();
    asked.whole(&SUMMARY, Ok(judged.summary))?;
    asked.whole(&COPY_LENGTH, Ok([judged.copy.len() as u64]))?;
    asked.whole(&FULL_COPY_LENGTH, Ok([judged.full.len() as u64]))?;
    asked.whole(&VERDICT, Ok([judged.verdict]))?;
    asked.whole(&FINDING_COUNT, Ok([judged.finding_count()]))?;
    lent(asked, &INDEX, [functions as u64], &judged.rows)?;
    lent(asked, &COPY, [judged.copy.len() as u64], &judged.copy)?;
    lent(asked, &FULL_COPY, [judged.full.len() as u64], &judged.full)?;
    lent(asked, &FINDINGS, [judged.verdict, judged.finding_count()], &judged.findings)?;

    let calls: usize = judged
        .functions
        .iter()
        .map(|function| 6 + function.counts().iter().sum::<usize>() + pcs(function.proto).count())
        .sum();
    let all = calls * asked.case.chunk.len() <= BYTES_PASSED;
    for function in drawn(asked, functions, all, FUNCTIONS_DRAWN) {
        asked.numbered(&FUNCTION, function, Ok(judged.fields(function)))?;
        entries(asked, judged, function, all)?;
        lines(asked, judged, function, all)?;
        lists(asked, judged, function)?;
    }
    no_function(asked, functions)?;
    if asked.chance.one_in(COPIES) {
        copied(asked, &judged.copy)?;
        if judged.full != judged.copy {
            copied(asked, &judged.full)?;
        }
    }
    Ok(())
}

/// A copy under the same limits: its summary, which shows no padded number, or its refusal.
fn copied(asked: &mut Asked, copy: &[u8]) -> Result<(), Difference> {
    let case = Case { chunk: copy.to_vec(), ..*asked.case };
    let expected = judge("the Rust's reading of its copy", || {
        let copy = read(&case.resource_limits(), &case.chunk).map_err(coded)?;
        let padded = Padded::of(&case.chunk, &copy.main_proto);
        assert_eq!(padded.sum(), 0, "padded numbers of a copy");
        Ok(summary(&copy, &case.chunk, &padded))
    })?;
    asked.tally.copies += u64::from(expected.is_ok());
    let (lender, tally) = (&mut *asked.lender, &mut *asked.tally);
    Asked { case: &case, lender, tally, chance: Chance::new(case.ask) }.whole(&SUMMARY, expected)
}

/// Lends exactly enough, more, and too little.
fn lent<T: Filled, const N: usize>(
    asked: &mut Asked,
    call: &Call<Lending<T>, N>,
    numbers: [u64; N],
    items: &[T],
) -> Result<(), Difference> {
    asked.lending(call, items.len(), Ok((numbers, items)))?;
    let more = 1 + asked.chance.below(9);
    asked.lending(call, items.len() + more, Ok((numbers, items)))?;
    if items.is_empty() {
        return Ok(());
    }
    let less = if asked.chance.one_in(8) { asked.chance.below(items.len()) } else { items.len() - 1 };
    asked.tally.refused(26);
    asked.lending(call, less, Err(26))
}

/// All numbers below the count, or the first, the last and a few.
fn drawn(asked: &mut Asked, count: usize, all: bool, few: usize) -> Vec<usize> {
    if all || count <= few {
        return (0..count).collect();
    }
    let mut drawn: Vec<usize> = (2..few).map(|_| asked.chance.below(count)).collect();
    drawn.extend([0, count - 1]);
    drawn
}

fn entries(asked: &mut Asked, judged: &Judged, function: usize, all: bool) -> Result<(), Difference> {
    let proto = judged.functions[function].proto;
    let tail = &judged.tails[function];
    list(asked, &INSTRUCTION, function, proto.instructions.len(), all, |entry| {
        [u64::from(proto.instructions[entry].raw_word)]
    })?;
    list(asked, &CONSTANT, function, proto.constants.len(), all, |entry| constant(proto, entry))?;
    list(asked, &UPVALUE, function, proto.upvalues.len(), all, |entry| {
        let upvalue = &proto.upvalues[entry];
        [upvalue.instack, upvalue.idx, upvalue.kind].map(u64::from)
    })?;
    list(
        asked,
        &DELTA,
        function,
        proto.line_info.len(),
        all,
        |entry| [i64::from(proto.line_info[entry] as i8) as u64],
    )?;
    list(asked, &ANCHOR, function, proto.abs_line_info.len(), all, |entry| {
        let anchor = &proto.abs_line_info[entry];
        [anchor.pc as u64, anchor.line as u64]
    })?;
    list(asked, &UPVALUE_NAME, function, proto.upvalue_names.len(), all, |entry| tail.names[entry].text)?;
    locals(asked, judged, function, all)
}

/// The entries of a list, and now and then one that is not there.
fn list<const N: usize>(
    asked: &mut Asked,
    call: &Call<Entry, N>,
    function: usize,
    count: usize,
    all: bool,
    expected: impl Fn(usize) -> [u64; N],
) -> Result<(), Difference> {
    for entry in drawn(asked, count, all, 4) {
        asked.tally.entries += 1;
        asked.entry(call, function, entry, Ok(expected(entry)))?;
    }
    if asked.chance.one_in(3) {
        let entry = asked.beyond(count);
        asked.tally.refused(24);
        asked.entry(call, function, entry, Err(24))?;
    }
    Ok(())
}

/// Each local with exactly enough lent for its name, or more, or too little.
fn locals(asked: &mut Asked, judged: &Judged, function: usize, all: bool) -> Result<(), Difference> {
    let locals = &judged.functions[function].proto.loc_vars;
    for entry in drawn(asked, locals.len(), all, 4) {
        let local = &locals[entry];
        let name = local.name.raw_bytes.as_slice();
        let numbers = [name.len() as u64, local.startpc as u64, local.endpc as u64];
        let more = asked.chance.of(&[0, 0, 1, 5]);
        asked.tally.entries += 1;
        asked.local(function, entry, name.len() + more, Ok((numbers, name)))?;
        if !name.is_empty() {
            asked.tally.refused(26);
            asked.local(function, entry, name.len() - 1, Err(26))?;
        }
    }
    if asked.chance.one_in(3) {
        let entry = asked.beyond(locals.len());
        let lent = asked.chance.below(3);
        asked.tally.refused(24);
        asked.local(function, entry, lent, Err(24))?;
    }
    Ok(())
}

/// The lines at the pcs of docs/PROTOCOL.md, and at two by chance.
fn lines(asked: &mut Asked, judged: &Judged, function: usize, all: bool) -> Result<(), Difference> {
    let proto = judged.functions[function].proto;
    let mut sought: Vec<usize> = pcs(proto).collect();
    if !all {
        sought = (0..6).map(|_| asked.chance.of(&sought)).collect();
    }
    let near =
        proto.abs_line_info.get(asked.chance.below(proto.abs_line_info.len().max(1))).map_or(64, |anchor| anchor.pc);
    sought.push(near.wrapping_add(asked.chance.below(3)).wrapping_sub(1));
    sought.push(asked.chance.number() as usize >> asked.chance.below(64));
    for pc in sought {
        asked.tally.lines += 1;
        let line = judge("the Rust's line", || proto.get_line_for_pc(pc));
        let expected = if is_refused(proto) {
            // docs/DIFFERENCES.md: here the Rust may overflow, and nothing of its answer is asked.
            asked.tally.refused(25);
            asked.tally.stopped_lines += u64::from(line.is_err());
            Err(25)
        } else {
            Ok([line? as u64])
        };
        asked.entry(&LINE, function, pc, expected)?;
    }
    Ok(())
}

/// A function that is not there, whatever the entry.
fn no_function(asked: &mut Asked, functions: usize) -> Result<(), Difference> {
    let function = asked.beyond(functions);
    let entry = asked.chance.of(&[0, 0, 1, 5, usize::MAX]);
    asked.tally.refused(23);
    match asked.chance.below(10) {
        0 => asked.entry(&LINE, function, entry, Err(23)),
        1 => asked.entry(&INSTRUCTION, function, entry, Err(23)),
        2 => asked.entry(&CONSTANT, function, entry, Err(23)),
        3 => asked.entry(&UPVALUE, function, entry, Err(23)),
        4 => asked.entry(&DELTA, function, entry, Err(23)),
        5 => asked.entry(&ANCHOR, function, entry, Err(23)),
        6 => asked.local(function, entry, 1, Err(23)),
        7 => asked.entry(&UPVALUE_NAME, function, entry, Err(23)),
        8 => asked.lines(function, &[entry as u64, 1], 1, Err(23)),
        _ => asked.numbered(&FUNCTION, function, Err(23)),
    }
}
