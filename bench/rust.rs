// The unchanged Rust behind C, for calls.c to time. What is decoded is never freed: the process that asks ends.
use luad_core::limits::{ParseMode, ResourceLimits};
use luad_core::model::{Chunk, Prototype};
use luad_core::reader::SafeReader;
use luad_dialect_lua54::chunk::{decode_chunk_lua54, encode_chunk_lua54};
use luad_dialect_lua54::validator::validate_chunk_lua54;

/// The chunk, or null where the Rust refuses it.
///
/// # Safety
/// `bytes` has `len` bytes, `limits` nine numbers.
#[no_mangle]
pub unsafe extern "C" fn luad_decode(bytes: *const u8, len: usize, limits: *const u64) -> *const Chunk {
    let bytes = std::slice::from_raw_parts(bytes, len);
    let l: Vec<usize> = std::slice::from_raw_parts(limits, 9).iter().map(|&n| n as usize).collect();
    let limits = ResourceLimits {
        max_input_bytes: l[0],
        max_nesting_depth: l[1],
        max_total_prototypes: l[2],
        max_instructions_per_proto: l[3],
        max_total_instructions: l[4],
        max_constants_per_proto: l[5],
        max_upvalues_per_proto: l[6],
        max_string_bytes: l[7],
        max_diagnostics: l[8],
    };
    let mut reader = SafeReader::with_options(bytes, 0, limits, ParseMode::Strict);
    match decode_chunk_lua54(&mut reader) {
        Ok(chunk) => Box::leak(Box::new(chunk)),
        Err(_) => std::ptr::null(),
    }
}

/// The length of the copy.
#[no_mangle]
pub extern "C" fn luad_encode(chunk: &Chunk) -> usize {
    let copy = encode_chunk_lua54(chunk);
    let len = copy.len();
    std::mem::forget(copy);
    len
}

/// How many diagnostics validation gives.
#[no_mangle]
pub extern "C" fn luad_validate(chunk: &Chunk) -> usize {
    let (_, list) = validate_chunk_lua54(chunk);
    let count = list.len();
    std::mem::forget(list);
    count
}

/// The line of an instruction of the function of this number.
#[no_mangle]
pub extern "C" fn luad_line(chunk: &Chunk, function: usize, pc: usize) -> usize {
    let mut number = function;
    nth(&chunk.main_proto, &mut number).map_or(0, |proto| proto.get_line_for_pc(pc))
}

fn nth<'a>(proto: &'a Prototype, left: &mut usize) -> Option<&'a Prototype> {
    if *left == 0 {
        return Some(proto);
    }
    *left -= 1;
    proto.protos.iter().find_map(|inner| nth(inner, left))
}
