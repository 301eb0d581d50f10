// Reading a chunk under limits. The Rust knows no ceilings, and does not test the length of its input: 21 and 22 are added here.
use crate::refusals::Refusal;
use luad_core::limits::{ParseMode, ResourceLimits};
use luad_core::model::Chunk;
use luad_core::reader::SafeReader;
use luad_dialect_lua54::chunk::decode_chunk_lua54;

pub const NESTING_CEILING: usize = 14;
pub const DIAGNOSTICS_CEILING: usize = 10_000;
pub const CEILING: usize = 16_777_216;

/// What every call on a chunk tests first: 21, then 22.
pub fn admitted(limits: &ResourceLimits, bytes: &[u8]) -> Result<(), Refusal> {
    if !within_ceilings(limits) {
        return Err(Refusal::without_place(21));
    }
    if bytes.len() > limits.max_input_bytes {
        return Err(Refusal::without_place(22));
    }
    Ok(())
}

/// The chunk that these bytes spell, or the first refusal of 21, 22 and 1 to 20.
pub fn read(limits: &ResourceLimits, bytes: &[u8]) -> Result<Chunk, Refusal> {
    admitted(limits, bytes)?;
    let mut reader = SafeReader::with_options(bytes, 0, limits.clone(), ParseMode::Strict);
    decode_chunk_lua54(&mut reader).map_err(|diagnostic| Refusal::of(&diagnostic))
}

fn within_ceilings(limits: &ResourceLimits) -> bool {
    limits.max_input_bytes <= CEILING
        && limits.max_nesting_depth <= NESTING_CEILING
        && limits.max_total_prototypes <= CEILING
        && limits.max_instructions_per_proto <= CEILING
        && limits.max_total_instructions <= CEILING
        && limits.max_constants_per_proto <= CEILING
        && limits.max_upvalues_per_proto <= CEILING
        && limits.max_string_bytes <= CEILING
        && limits.max_diagnostics <= DIAGNOSTICS_CEILING
}
