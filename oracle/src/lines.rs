// Line lookups. The harness adds refusals 23 and 25; each line is what the Rust's `get_line_for_pc` gives.
use crate::functions::functions;
use crate::limits::read;
use crate::refusals::Refusal;
use crate::text::put;
use luad_core::limits::ResourceLimits;
use luad_core::model::Prototype;

/// The first line that lookup refuses, whether or not it would be used. Sums from below it cannot overflow.
const FIRST_REFUSED_LINE: usize = 1 << 62;

/// At most so many pcs from 0 on are looked up for a function of a chunk.
const MOST_PCS: usize = 64;

/// Pcs far behind every function, looked up for each.
const FAR_PCS: [usize; 3] = [1 << 32, 1 << 63, usize::MAX];

/// The answer to `lines`.
pub fn put_lookups(out: &mut String, limits: &ResourceLimits, bytes: &[u8], number: u64, pcs: &[usize]) {
    let refusal = match read(limits, bytes) {
        Err(refusal) => refusal,
        Ok(chunk) => {
            let functions = functions(&chunk.main_proto);
            let found = usize::try_from(number).ok().and_then(|number| functions.get(number));
            match found {
                None => Refusal::without_place(23),
                Some(function) if is_refused(function.proto) => Refusal::without_place(25),
                Some(function) => {
                    put!(out, "line {number}");
                    return put_pcs(out, function.proto, pcs.iter().copied());
                }
            }
        }
    };
    refusal.put(out);
    out.push('\n');
}

/// The `line` line of a function in the answer to a chunk.
pub fn put_line(out: &mut String, number: usize, proto: &Prototype) {
    if is_refused(proto) {
        put!(out, "line {number} refused 25\n");
        return;
    }
    put!(out, "line {number}");
    put_pcs(out, proto, pcs(proto));
}

/// The pcs that are looked up for a function of a chunk.
pub fn pcs(proto: &Prototype) -> impl Iterator<Item = usize> {
    let longest = proto.instructions.len().max(proto.line_info.len()).max(proto.abs_line_info.len());
    (0..MOST_PCS.min(longest + 2)).chain(FAR_PCS)
}

pub fn is_refused(proto: &Prototype) -> bool {
    proto.line_defined >= FIRST_REFUSED_LINE
        || proto.abs_line_info.iter().any(|anchor| anchor.line >= FIRST_REFUSED_LINE)
}

fn put_pcs(out: &mut String, proto: &Prototype, pcs: impl Iterator<Item = usize>) {
    for pc in pcs {
        put!(out, " {pc}:{}", proto.get_line_for_pc(pc));
    }
    out.push('\n');
}
