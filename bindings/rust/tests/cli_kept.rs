//! What the program prints of kept chunks, held against the answers of the Rust: every 16th, and all that luac made of the samples.
#![cfg(repository)]
mod common;

use common::run::{options, run_on, run_under};
use common::undump::undumped;
use common::{bytes, hex, kept_chunks, text};
use lafzimdo::Limits;

type Kept = (Limits, Vec<u8>, Vec<String>);

fn some() -> Vec<Kept> {
    let samples = text("oracle/samples/compiled.txt");
    let samples: Vec<Vec<u8>> = samples
        .lines()
        .filter(|line| !line.starts_with('#'))
        .map(|line| bytes(line.split(' ').nth(2).unwrap()))
        .collect();
    assert!(samples.len() >= 100, "only {} samples", samples.len());
    let kept = kept_chunks().into_iter().enumerate();
    let some: Vec<Kept> =
        kept.filter(|(at, (_, bytes, _))| at % 16 == 0 || samples.contains(bytes)).map(|(_, kept)| kept).collect();
    assert!(some.len() >= 400, "only {} chunks", some.len());
    some
}

/// The words behind the first of the lines that begin so.
fn of<'a>(answer: &'a [String], word: &str) -> Vec<&'a str> {
    let line = answer.iter().find(|line| line.split(' ').next() == Some(word)).unwrap();
    line.split(' ').skip(1).collect()
}

/// The refusal of an answer as the program says it.
fn refused(answer: &[String]) -> Option<String> {
    let words: Vec<&str> = answer[0].split(' ').collect();
    match words[..] {
        ["refused", number, "-"] => Some(format!("standard input: refused {number}: ")),
        ["refused", number, place] => Some(format!("standard input: refused {number} at {place}: ")),
        _ => None,
    }
}

/// What `list` prints, from an answer.
fn listed(bytes: &[u8], answer: &[String]) -> String {
    let trailing = common::bytes(of(answer, "trailing")[1]).len();
    let (functions, verdict) = (of(answer, "functions")[0], of(answer, "verdict")[0]);
    let mut shown = format!("chunk {} functions {functions} trailing {trailing} verdict {verdict}\n", bytes.len());
    for at in (0..answer.len()).filter(|at| answer[*at].starts_with("function ")) {
        let function = &answer[at..at + 5];
        let words = of(function, "function");
        let counts = of(function, "counts")[..3].join(" ");
        shown += &format!(
            "{} {} {} {} {counts}\n",
            words[0],
            words[2],
            of(function, "lines").join(" "),
            of(function, "bytes").join(" ")
        );
    }
    shown
}

/// What `check` prints, from an answer, without the words for each warning and finding, and without source, line and instruction.
fn checked(answer: &[String]) -> String {
    let (verdict, findings, warnings) =
        (of(answer, "verdict")[0], of(answer, "findings")[0], of(answer, "warnings")[0]);
    let mut shown = format!("verdict {verdict}\nfindings {findings}\nwarnings {warnings}\n");
    for warning in answer.iter().filter(|line| line.starts_with("warning ")) {
        let words: Vec<&str> = warning.split(' ').collect();
        shown += &format!("warning at {} (L54-{})\n", words[2], words[1]);
    }
    for finding in answer.iter().filter(|line| line.starts_with("finding ")) {
        let words: Vec<&str> = finding.split(' ').collect();
        shown += &format!("{} in function {} at pc {} {} ({})\n", words[5], words[1], words[2], words[4], words[3]);
    }
    shown
}

/// The same of what was printed: of `.. at pc N (SOURCE:LINE, INSTRUCTION): why NUMBER (RULE)` the places, the number and the rule; of a warning place and code.
fn without_words(printed: &str) -> String {
    let mut shown = String::new();
    for line in printed.lines() {
        let words: Vec<&str> = line.split(' ').collect();
        let last = words[words.len() - 1];
        match words[..] {
            ["warning", "at", place, ..] => shown += &format!("warning at {} {last}\n", place.trim_end_matches(':')),
            ["error" | "warning", "in", ..] => {
                shown += &format!("{} {} {last}\n", words[..7].join(" "), words[words.len() - 2])
            }
            _ => shown += &format!("{line}\n"),
        }
    }
    shown
}

#[test]
fn lists_checks_and_copies() {
    for (limits, bytes, answer) in some() {
        if let Some(refusal) = refused(&answer) {
            for command in ["list", "check", "dump"] {
                run_under(command, &limits, &bytes).says(1, &refusal);
            }
            continue;
        }
        assert_eq!(run_under("list", &limits, &bytes).text(0), listed(&bytes, &answer));
        let status = match of(&answer, "verdict")[0] {
            "valid-for-analysis" => 0,
            "invalid" => 4,
            _ => 5,
        };
        assert_eq!(without_words(run_under("check", &limits, &bytes).text(status)), checked(&answer));
        let limits = options(&limits);
        let mut arguments = vec!["copy", "-", "-"];
        arguments.extend(limits.iter().map(String::as_str));
        assert_eq!(hex(&run_on(&arguments, &bytes).stdout), of(&answer, "copy")[0]);
    }
}

#[test]
fn dumps_hold_all_that_is_read() {
    let mut dumped = 0;
    for (limits, bytes, answer) in some() {
        if refused(&answer).is_some() {
            continue;
        }
        let dump = run_under("dump --raw", &limits, &bytes);
        let expected: Vec<&String> = answer.iter().take_while(|line| !line.starts_with("row ")).collect();
        let ours = undumped(dump.text(0));
        for (ours, expected) in ours.iter().zip(&expected) {
            assert_eq!(ours, *expected);
        }
        assert_eq!(ours.len(), expected.len());
        dumped += 1;
    }
    assert!(dumped >= 100, "only {dumped} dumps");
}
