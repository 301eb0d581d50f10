// That each comparison can fail: every number of every call's answer, its refusal and place, and the memory lent to it are changed in turn before they are
// compared, and a run of cases must find each change; in the index each number of a row. So it must where padded numbers of one kind are not counted, and where the sources of the full copy or the stricter reading go by a wrong rule, or a list of pcs is judged in a wrong way.
use crate::calls::CHUNK_CALLS;
use crate::cases::Cases;
use crate::check::{check, judge, CHUNK};
use crate::check_lines::WRONG as WRONG_LISTS;
use crate::full::{AS_LONG, WRONG};
use crate::judged::COLUMNS;
use crate::lender::{Alteration, Lender, Way};
use crate::padded::KINDS;
use crate::strict::WRONG as WRONG_STRICT;
use crate::tally::Tally;

/// So many cases at most until a change is found.
const CASES: u64 = 20_000;

/// Calls that are lent space besides the array, and those without a chunk or a refusal with a place.
const LENDING: [&str; 6] =
    ["lafzimdo_local", "lafzimdo_lines", "lafzimdo_index", "lafzimdo_copy", "lafzimdo_full_copy", "lafzimdo_findings"];
const OTHERS: [(&str, usize); 5] =
    [(CHUNK, 0), ("lafzimdo_local", 3), ("lafzimdo_lines", 1), ("lafzimdo_decode", 12), ("lafzimdo_encode", 1)];

fn ways(call: &str, numbers: usize) -> Vec<Way> {
    if call == CHUNK {
        return vec![Way::Behind];
    }
    let mut ways: Vec<Way> = (0..numbers).map(Way::Number).collect();
    ways.push(Way::Behind);
    if call != "lafzimdo_decode" {
        ways.extend([Way::Refusal, Way::OnRefusal]);
    }
    if call != "lafzimdo_decode" && call != "lafzimdo_encode" {
        ways.push(Way::Place);
    }
    if call == "lafzimdo_summary" {
        ways.extend((0..KINDS.len()).map(Way::Kind));
    }
    if call == "lafzimdo_strict_summary" {
        ways.extend((0..WRONG_STRICT.len()).map(Way::Strict));
    }
    if call == "lafzimdo_index" {
        ways.extend((0..COLUMNS).map(Way::Column));
    }
    // The length is asked first.
    match call {
        "lafzimdo_full_copy_length" => ways.extend((0..WRONG.len()).filter(|rule| *rule != AS_LONG).map(Way::Sources)),
        "lafzimdo_full_copy" => ways.push(Way::Sources(AS_LONG)),
        _ => {}
    }
    if call == "lafzimdo_lines" {
        ways.extend((0..WRONG_LISTS.len()).map(Way::List));
    }
    if LENDING.contains(&call) {
        ways.extend([Way::FirstItem, Way::LastItem, Way::BehindItems, Way::ItemsOnRefusal]);
    }
    ways
}

/// How many changes were tried, and those that were not found.
pub fn self_test(cases: &Cases) -> (usize, Vec<Alteration>) {
    assert!(judge("a stop", || panic!("as the Rust may")).is_err(), "where the Rust stops, that is told");
    let mut tried = 0;
    let mut missed = Vec::new();
    for (call, numbers) in CHUNK_CALLS.iter().chain(&OTHERS) {
        for way in ways(call, *numbers) {
            let alteration = Alteration { call, way };
            let mut lender = Lender { alteration: Some(alteration), ..Lender::default() };
            let mut tally = Tally::default();
            tried += 1;
            let found = (0..CASES).find_map(|index| check(&cases.case(index), &mut lender, &mut tally).err());
            if found.is_none_or(|difference| difference.call != *call) {
                missed.push(alteration);
            }
        }
    }
    (tried, missed)
}
