// What the Rust answers to a chunk that is read, in the numbers of include/lafzimdo.h.
use crate::findings::{findings, judged};
use crate::full::full_copy;
use crate::functions::{functions, Function};
use crate::padded::Padded;
use crate::parts::{Head, Parts, Tail, Text};
use luad_core::diagnostic::{Severity, Verdict};
use luad_core::limits::ResourceLimits;
use luad_core::model::{Chunk, ConstantValue, Prototype};
use luad_dialect_lua54::chunk::encode_chunk_lua54;

pub const RULES: [&str; 7] = ["OPCODE-001", "REG-001", "CONST-001", "UPVAL-001", "UPVAL-002", "PROTO-001", "JUMP-001"];
pub const VERDICTS: [&str; 3] = ["valid-for-analysis", "invalid", "incomplete"];
/// How many numbers the index has of each function.
pub const COLUMNS: usize = 14;

pub struct Judged<'a> {
    pub summary: [u64; 15],
    pub padded: Padded,
    pub functions: Vec<Function<'a>>,
    pub heads: Vec<Head>,
    pub tails: Vec<Tail>,
    /// Where each function's tail begins.
    pub behind: Vec<usize>,
    /// Each function's source, its own or that of one around it.
    pub sources: Vec<Text>,
    pub rows: Vec<u32>,
    pub copy: Vec<u8>,
    pub full: Vec<u8>,
    pub verdict: u64,
    /// Function, pc, rule and number of each.
    pub findings: Vec<u64>,
}

impl<'a> Judged<'a> {
    pub fn of(chunk: &'a Chunk, bytes: &[u8], limits: &ResourceLimits) -> Judged<'a> {
        let functions = functions(&chunk.main_proto);
        let (heads, tails, behind) = heads_and_tails(bytes, limits, &functions);
        let sources = sources(bytes, &functions, &heads);
        let (verdict, list) = judged(chunk);
        let padded = Padded::of(bytes, &chunk.main_proto);
        let code = heads.iter().map(|head| [head.lists[0][1] as usize, head.lists[1][1] as usize]);
        assert!(code.eq(padded.code.iter().copied()), "where words and constants begin");
        let rows = functions.iter().zip(&heads).flat_map(|(function, head)| row(function, head)).collect();
        let copy = encode_chunk_lua54(chunk);
        let full = full_copy(&functions, &heads, &copy, None);
        Judged {
            summary: summary(chunk, bytes, &padded),
            padded,
            heads,
            tails,
            behind,
            sources,
            rows,
            copy,
            full,
            verdict: verdict_number(verdict),
            findings: findings(&list, &functions)
                .flat_map(|finding| {
                    let rule = RULES.iter().position(|rule| *rule == finding.rule).expect("one of the seven rules");
                    // The library shows no severity: it follows from the rule.
                    let severity = if finding.rule == "REG-001" { Severity::Warning } else { Severity::Error };
                    assert_eq!(severity, finding.severity);
                    [finding.function as u64, finding.pc as u64, rule as u64 + 1, finding.number as u64]
                })
                .collect(),
            functions,
        }
    }

    pub fn finding_count(&self) -> u64 {
        self.findings.len() as u64 / 4
    }

    /// The numbers of `lafzimdo_function`.
    pub fn fields(&self, number: usize) -> [u64; 18] {
        let function = &self.functions[number];
        let proto = function.proto;
        let mut fields = [0; 18];
        fields[0] = function.depth as u64;
        fields[1] = function.parent as u64;
        fields[2..5].copy_from_slice(&self.sources[number]);
        fields[5] = proto.line_defined as u64;
        fields[6] = proto.last_line_defined as u64;
        fields[7..10].copy_from_slice(&[proto.numparams, proto.is_vararg, proto.maxstacksize].map(u64::from));
        fields[10..].copy_from_slice(&function.counts().map(|count| count as u64));
        fields
    }
}

/// The numbers of `lafzimdo_constant`.
pub fn constant(proto: &Prototype, entry: usize) -> [u64; 3] {
    let constant = &proto.constants[entry];
    let end = constant.source.byte_offset + constant.source.byte_length;
    let string = |tag, length: usize| [tag, (end - length) as u64, length as u64];
    match &constant.value {
        ConstantValue::Nil => [0; 3],
        ConstantValue::Boolean(value) => [if *value { 17 } else { 1 }, 0, 0],
        ConstantValue::Integer { val, .. } => [3, *val as u64, 0],
        ConstantValue::Float { val, .. } => [19, val.to_bits(), 0],
        ConstantValue::ShortString(string_) => string(4, string_.raw_bytes.len()),
        ConstantValue::LongString(string_) => string(20, string_.raw_bytes.len()),
    }
}

pub fn verdict_number(verdict: Verdict) -> u64 {
    match verdict {
        Verdict::ValidForAnalysis => 0,
        Verdict::Invalid => 1,
        Verdict::Incomplete => 2,
        _ => panic!("the validator has no verdict {verdict:?}"),
    }
}

/// The numbers of `lafzimdo_summary`.
pub fn summary(chunk: &Chunk, bytes: &[u8], padded: &Padded) -> [u64; 15] {
    let header = &chunk.header;
    let functions = functions(&chunk.main_proto);
    let trailing = hex::decode(chunk.trailing_bytes.as_deref().unwrap_or("")).expect("hex");
    let place = functions[0].end;
    assert_eq!(trailing, bytes[place..], "the trailing bytes are those behind main");
    assert_eq!(header.luac_int, 0x5678);
    let mut summary = [0; 15];
    let fields = [
        header.version,
        header.format,
        header.instruction_size,
        header.lua_integer_size,
        header.sizeof_sizet,
        header.lua_number_size,
    ];
    summary[..6].copy_from_slice(&fields.map(u64::from));
    summary[6] = header.luac_num.to_bits();
    summary[7] = functions.len() as u64;
    summary[8] = place as u64;
    summary[9] = trailing.len() as u64;
    for (i, warning) in chunk.diagnostics.iter().enumerate() {
        summary[10 + 2 * i] = match warning.code.as_str() {
            "L54-HEADER-003" => 1,
            "L54-CHUNK-001" => 2,
            code => panic!("reading warns of {code}"),
        };
        summary[11 + 2 * i] = warning.source.as_ref().expect("each warning has a place").byte_offset as u64;
    }
    summary[14] = padded.sum();
    summary
}

/// A row of the index. Words and constants begin where the Rust's reader stands behind their counts.
fn row(function: &Function, head: &Head) -> [u32; COLUMNS] {
    let counts = function.counts();
    let [[_, words], [_, constants], ..] = head.lists;
    let number = |value: usize| u32::try_from(value).expect("a file of at most 16 MB");
    std::array::from_fn(|i| match i {
        0 => number(function.start),
        1 => number(function.end),
        2 => number(function.depth),
        3 => number(function.parent),
        12 => number(words as usize),
        13 => number(constants as usize),
        _ => number(counts[i - 4]),
    })
}

/// Both parts of every function. A tail begins where the last nested function ends.
fn heads_and_tails(
    bytes: &[u8],
    limits: &ResourceLimits,
    functions: &[Function],
) -> (Vec<Head>, Vec<Tail>, Vec<usize>) {
    let read = "a part of a chunk that was read";
    let at = |place: usize| Parts::at(bytes, limits, place).unwrap_or_else(|_| panic!("{read}"));
    let heads: Vec<Head> =
        functions.iter().map(|function| at(function.start).head().unwrap_or_else(|_| panic!("{read}"))).collect();
    let mut behind: Vec<usize> = heads.iter().map(|head| head.lists[3][1] as usize).collect();
    for function in &functions[1..] {
        behind[function.parent] = function.end;
    }
    let tails: Vec<Tail> = behind.iter().map(|place| at(*place).tail().unwrap_or_else(|_| panic!("{read}"))).collect();
    for ((function, head), tail) in functions.iter().zip(&heads).zip(&tails) {
        assert_same_places(function, head, tail);
    }
    (heads, tails, behind)
}

/// The places of the Rust's chunk, where it has them, are those that its reader was at.
fn assert_same_places(function: &Function, head: &Head, tail: &Tail) {
    let proto = function.proto;
    let counts: Vec<u64> = head.lists.iter().chain(&tail.lists).map(|list| list[0]).collect();
    assert_eq!(counts, function.counts().map(|count| count as u64));
    assert_eq!(tail.end, function.end as u64);
    let place = |list: &[u64; 2], first: Option<usize>| assert!(first.is_none_or(|first| list[1] == first as u64));
    place(&head.lists[0], proto.instructions.first().map(|entry| entry.source.byte_offset));
    place(&head.lists[1], proto.constants.first().map(|entry| entry.source.byte_offset));
    place(&head.lists[2], proto.upvalues.first().map(|entry| entry.source.byte_offset));
    place(&head.lists[3], proto.protos.first().map(|entry| entry.source.byte_offset));
    place(&tail.lists[1], proto.abs_line_info.first().map(|entry| entry.source.byte_offset));
    place(&tail.lists[2], proto.loc_vars.first().map(|entry| entry.source.byte_offset));
}

/// The bytes at a source's place are the source that the Rust gives the function.
fn sources(bytes: &[u8], functions: &[Function], heads: &[Head]) -> Vec<Text> {
    let mut sources: Vec<Text> = Vec::with_capacity(heads.len());
    for (i, (function, head)) in functions.iter().zip(heads).enumerate() {
        let source = if head.source[0] == 1 || i == 0 { head.source } else { sources[function.parent] };
        let name = function.proto.source_name.as_ref().map(|name| name.raw_bytes.as_slice());
        assert_eq!(name, spelt(bytes, source), "a source lies at its place");
        sources.push(source);
    }
    sources
}

/// The bytes of a string.
pub fn spelt(bytes: &[u8], [there, place, length]: Text) -> Option<&[u8]> {
    (there == 1).then(|| &bytes[place as usize..(place + length) as usize])
}
