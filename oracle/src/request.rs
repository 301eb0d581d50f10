// Requests: what a line asks for. A line that is not spelt as docs/PROTOCOL.md says is no request.
use luad_core::limits::ResourceLimits;
use luad_dialect_lua54::opcodes::{Opcode54, RawInstruction54};
use std::slice::Split;

pub enum Request {
    Chunk { limits: ResourceLimits, chunk: Vec<u8> },
    Verdict { limits: ResourceLimits, chunk: Vec<u8> },
    Lines { limits: ResourceLimits, chunk: Vec<u8>, function: u64, pcs: Vec<usize> },
    Word(u32),
    Encode(RawInstruction54),
}

type Words<'a> = Split<'a, u8, fn(&u8) -> bool>;

pub fn parse(line: &[u8]) -> Option<Request> {
    let mut words: Words = line.split(|byte| *byte == b' ');
    let mut ahead = words.clone();
    let request = match ahead.next()? {
        b"lines" => {
            words = ahead;
            let (limits, chunk) = limits_and_chunk(&mut words)?;
            let function = decimal(words.next()?)?;
            let pcs = words.by_ref().map(number).collect::<Option<_>>()?;
            Request::Lines { limits, chunk, function, pcs }
        }
        b"verdict" => {
            words = ahead;
            let (limits, chunk) = limits_and_chunk(&mut words)?;
            Request::Verdict { limits, chunk }
        }
        b"word" => {
            words = ahead;
            Request::Word(word(words.next()?)?)
        }
        b"enc" => {
            words = ahead;
            Request::Encode(fields(&mut words)?)
        }
        _ => {
            let (limits, chunk) = limits_and_chunk(&mut words)?;
            Request::Chunk { limits, chunk }
        }
    };
    words.next().is_none().then_some(request)
}

/// The nine limits in the order of `ResourceLimits`, and the chunk.
fn limits_and_chunk(words: &mut Words) -> Option<(ResourceLimits, Vec<u8>)> {
    let mut next = || number(words.next()?);
    let limits = ResourceLimits {
        max_input_bytes: next()?,
        max_nesting_depth: next()?,
        max_total_prototypes: next()?,
        max_instructions_per_proto: next()?,
        max_total_instructions: next()?,
        max_constants_per_proto: next()?,
        max_upvalues_per_proto: next()?,
        max_string_bytes: next()?,
        max_diagnostics: next()?,
    };
    Some((limits, bytes(words.next()?)?))
}

/// The fields of `enc`, each within its type. sB and sC follow from B and C; no encoding reads them.
fn fields(words: &mut Words) -> Option<RawInstruction54> {
    let mut next = || words.next();
    let opcode_num = u8::try_from(decimal(next()?)?).ok()?;
    let a = u8::try_from(decimal(next()?)?).ok()?;
    let k = u8::try_from(decimal(next()?)?).ok()?;
    let b = u8::try_from(decimal(next()?)?).ok()?;
    let c = u8::try_from(decimal(next()?)?).ok()?;
    let bx = u32::try_from(decimal(next()?)?).ok()?;
    let sbx = signed(next()?)?;
    let ax = u32::try_from(decimal(next()?)?).ok()?;
    let sj = signed(next()?)?;
    let sb = i32::from(b) - RawInstruction54::OFFSET_SB;
    let sc = i32::from(c) - RawInstruction54::OFFSET_SC;
    let opcode = Opcode54::from_u8(opcode_num);
    Some(RawInstruction54 { opcode_num, opcode, a, k, b, sb, c, sc, bx, sbx, ax, sj })
}

fn decimal(word: &[u8]) -> Option<u64> {
    if !word.iter().all(u8::is_ascii_digit) {
        return None;
    }
    std::str::from_utf8(word).ok()?.parse().ok()
}

fn number(word: &[u8]) -> Option<usize> {
    usize::try_from(decimal(word)?).ok()
}

fn signed(word: &[u8]) -> Option<i32> {
    let magnitude = i64::try_from(decimal(word.strip_prefix(b"-").unwrap_or(word))?).ok()?;
    i32::try_from(if word.starts_with(b"-") { -magnitude } else { magnitude }).ok()
}

/// HEX: lower-case digits, or `-` for no bytes.
fn bytes(word: &[u8]) -> Option<Vec<u8>> {
    if word == b"-" {
        return Some(Vec::new());
    }
    if word.is_empty() || word.iter().any(u8::is_ascii_uppercase) {
        return None;
    }
    hex::decode(word).ok()
}

/// HEX8: a word as the number it is, its most significant digit first.
fn word(word: &[u8]) -> Option<u32> {
    Some(u32::from_be_bytes(bytes(word)?.try_into().ok()?))
}
