// Limits: the ceilings, and limits at what a chunk needs and one beside it.
use crate::case::{Case, Limits};
use crate::chance::Chance;
use crate::functions::functions;
use crate::limits::{read, CEILING, DIAGNOSTICS_CEILING, NESTING_CEILING};
use luad_core::model::Prototype;

pub const CEILINGS: Limits = {
    let (most, nesting, diagnostics) = (CEILING as u64, NESTING_CEILING as u64, DIAGNOSTICS_CEILING as u64);
    [most, nesting, most, most, most, most, most, most, diagnostics]
};

/// The limits that a chunk just needs, or the ceilings where it is not read under these.
fn needs(chunk: &[u8]) -> Limits {
    let case = Case { chunk: Vec::new(), limits: CEILINGS, ask: 0 };
    let Ok(read) = read(&case.resource_limits(), chunk) else {
        return CEILINGS;
    };
    let functions = functions(&read.main_proto);
    let most = |count: &dyn Fn(&Prototype) -> usize| {
        functions.iter().map(|function| count(function.proto)).max().unwrap_or(0) as u64
    };
    [
        chunk.len() as u64,
        functions.iter().map(|function| function.depth).max().unwrap_or(0) as u64,
        functions.len() as u64 - 1,
        most(&|proto| proto.instructions.len()),
        functions.iter().map(|function| function.proto.instructions.len()).sum::<usize>() as u64,
        most(&|proto| proto.constants.len()),
        most(&|proto| proto.upvalues.len()),
        most(&|proto| longest_string(proto)),
        read.diagnostics.len() as u64,
    ]
}

fn longest_string(proto: &Prototype) -> usize {
    use luad_core::model::ConstantValue::{LongString, ShortString};
    let constants = proto.constants.iter().filter_map(|constant| match &constant.value {
        ShortString(string) | LongString(string) => Some(string),
        _ => None,
    });
    let names = proto.loc_vars.iter().map(|local| &local.name).chain(proto.upvalue_names.iter().flatten());
    constants.chain(names).chain(&proto.source_name).map(|string| string.raw_bytes.len()).max().unwrap_or(0)
}

/// A single limit, near what is needed or near its ceiling.
fn limit(chance: &mut Chance, need: u64, ceiling: u64) -> u64 {
    match chance.below(24) {
        0 => 0,
        1 => ceiling,
        2 => ceiling + 1,
        3 => ceiling - 1,
        4 => chance.of(&[u64::MAX, 1 << 32, 1 << 63, ceiling + 2]),
        5..=8 => chance.below(6) as u64,
        9..=14 => need.saturating_sub(1),
        15 => need + 1,
        _ => need,
    }
}

/// Mostly the ceilings; else some near what the chunk needs; now and then all exactly so.
pub fn limits(chance: &mut Chance, chunk: &[u8]) -> Limits {
    let mut limits = CEILINGS;
    match chance.below(12) {
        0..=7 => {}
        8 => limits = needs(chunk),
        9 => {
            limits = needs(chunk);
            let which = chance.below(9);
            limits[which] = limit(chance, limits[which], CEILINGS[which]);
        }
        _ => {
            let needs = needs(chunk);
            for _ in 0..1 + chance.below(2) {
                let which = chance.below(9);
                limits[which] = limit(chance, needs[which], CEILINGS[which]);
            }
        }
    }
    limits
}
