// A chunk that is refused: every call refuses it so, whatever else it is asked, and leaves what it was lent.
use crate::calls::*;
use crate::check::Asked;
use crate::difference::Difference;
use crate::lender::coded;
use crate::refusals::Refusal;

/// Numbers of a function or an entry, and lengths of lent space: nothing of them matters.
const NUMBERS: [usize; 6] = [0, 0, 1, 2, 1000, usize::MAX];
const LENT: [usize; 5] = [0, 1, 7, 48, 200];

pub fn refused_chunk(asked: &mut Asked, refusal: Refusal) -> Result<(), Difference> {
    let code = coded(refusal);
    for call in [&COPY_LENGTH, &FULL_COPY_LENGTH, &VERDICT, &FINDING_COUNT] {
        asked.whole(call, Err(code))?;
    }
    asked.whole(&SUMMARY, Err(code))?;
    let function = asked.chance.of(&NUMBERS);
    let entry = asked.chance.of(&NUMBERS);
    let lent = asked.chance.of(&LENT);
    asked.numbered(&FUNCTION, function, Err(code))?;
    for call in [&LINE, &INSTRUCTION, &DELTA] {
        asked.entry(call, function, entry, Err(code))?;
    }
    for call in [&CONSTANT, &UPVALUE, &UPVALUE_NAME] {
        asked.entry(call, function, entry, Err(code))?;
    }
    asked.entry(&ANCHOR, function, entry, Err(code))?;
    asked.local(function, entry, lent, Err(code))?;
    asked.lines(function, &[entry as u64, 1][..lent.min(2)], lent, Err(code))?;
    asked.lending(&INDEX, lent, Err(code))?;
    asked.lending(&COPY, lent, Err(code))?;
    asked.lending(&FULL_COPY, lent, Err(code))?;
    asked.lending(&FINDINGS, lent, Err(code))
}
