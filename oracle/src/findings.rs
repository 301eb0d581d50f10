// The verdict of the unchanged validator, and the findings of the copy that does not shorten its list.
use crate::functions::Function;
use crate::text::put;
use luad_core::diagnostic::{Diagnostic, Severity, Verdict};
use luad_core::id::StableId;
use luad_core::model::Chunk;
use luad_dialect_lua54::{validator, validator_untruncated};

/// A finding as it is shown; the number is a jump's target, an opcode, a register or an index.
pub struct Finding<'a> {
    pub function: usize,
    pub pc: usize,
    pub rule: &'a str,
    pub number: i64,
    pub severity: Severity,
}

pub fn put_findings(out: &mut String, chunk: &Chunk, functions: &[Function]) {
    let (verdict, list) = judged(chunk);
    put_counted(out, verdict, &list);
    for finding in findings(&list, functions) {
        let Finding { function, pc, rule, number, severity } = finding;
        put!(out, "finding {function} {pc} {rule} {number} {}\n", severity_name(severity));
    }
}

/// The verdict and the number of findings.
pub fn put_verdict(out: &mut String, chunk: &Chunk) {
    let (verdict, list) = judged(chunk);
    put_counted(out, verdict, &list);
}

fn put_counted(out: &mut String, verdict: Verdict, list: &[Diagnostic]) {
    put!(out, "verdict {}\nfindings {}\n", name(verdict), list.len());
}

/// The verdict and the diagnostics that are findings.
pub fn judged(chunk: &Chunk) -> (Verdict, Vec<Diagnostic>) {
    let (verdict, _) = validator::validate_chunk_lua54(chunk);
    let (verdict_of_copy, mut list) = validator_untruncated::validate_chunk_lua54(chunk);
    assert_eq!(verdict, verdict_of_copy, "the two validators disagree");

    // The list begins with the warnings of reading, and may end with the note that it was stopped: neither is a finding.
    list.drain(..chunk.diagnostics.len());
    if list.last().is_some_and(|last| last.code == "CORE-LIMIT-003") {
        list.pop();
    }
    (verdict, list)
}

fn name(verdict: Verdict) -> &'static str {
    match verdict {
        Verdict::ValidForAnalysis => "valid-for-analysis",
        Verdict::Invalid => "invalid",
        Verdict::Incomplete => "incomplete",
        _ => panic!("the validator has no verdict {verdict:?}"),
    }
}

fn severity_name(severity: Severity) -> &'static str {
    match severity {
        Severity::Error => "error",
        Severity::Warning => "warning",
        Severity::Info => panic!("a finding is a mere note"),
    }
}

/// The findings of a list. Functions are gone through in their order, so the search goes on from the last finding's function.
pub fn findings<'a>(list: &'a [Diagnostic], functions: &'a [Function]) -> impl Iterator<Item = Finding<'a>> {
    let mut function = 0;
    list.iter().map(move |finding| {
        let StableId::Instruction { proto, pc } = &finding.target else {
            panic!("{} is at no instruction", finding.code);
        };
        while functions[function].proto.path != *proto {
            function += 1;
        }
        let rule = finding.code.strip_prefix("L54-VAL-").expect("a rule of the validator");
        Finding { function, pc: *pc, rule, number: offending_number(&finding.message), severity: finding.severity }
    })
}

/// In each of the seven messages the offending number is the first number.
fn offending_number(message: &str) -> i64 {
    let part_of_number = |c: char| c == '-' || c.is_ascii_digit();
    let from = message.find(part_of_number).expect("a message with a number");
    let rest = &message[from..];
    let to = rest.find(|c| !part_of_number(c)).unwrap_or(rest.len());
    rest[..to].parse().expect("a number")
}
