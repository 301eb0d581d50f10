//! The stricter reading, as Lua's own loader reads: worked cases, that it agrees with the ordinary reading on every kept chunk, and `--strict` of the program. Against Lua's loader itself: oracle/run_strict.py of the repository.
mod common;

use common::run::{fresh, run, run_on};
use common::{bytes, header};
use lafzimdo::{Chunk, Limits, OwnedChunk, Refusal};
use std::fs;

const CASES: &str = include_str!("data/strict.txt");
const RECENTRE: &[u8] = include_bytes!("data/recentre.luac");

/// An answer as the table has it.
fn shown(answer: Result<Chunk<'_>, Refusal>) -> String {
    match answer {
        Err(refusal) => refusal.to_string().split(':').next().unwrap().into(),
        Ok(chunk) => {
            let mut text = format!("read {} {}", chunk.function_count(), chunk.trailing_bytes().len());
            for warning in chunk.warnings() {
                text += &format!(" {} at {}", warning.code(), warning.place());
            }
            text
        }
    }
}

/// The ceilings, but for the limit of this name.
fn limits(other: Option<&str>) -> Limits {
    let mut limits = Limits::ceilings();
    match other.map(|other| other.split_once(' ').unwrap()) {
        None => {}
        Some(("max_input_bytes", limit)) => limits.max_input_bytes = limit.parse().unwrap(),
        Some(("max_nesting_depth", limit)) => limits.max_nesting_depth = limit.parse().unwrap(),
        Some(("max_string_bytes", limit)) => limits.max_string_bytes = limit.parse().unwrap(),
        Some((name, _)) => panic!("{name}"),
    }
    limits
}

#[test]
fn worked_cases() {
    let mut seen = 0;
    for line in CASES.lines().filter(|line| !line.starts_with('#')) {
        let columns: Vec<&str> = line.split(" | ").collect();
        let (name, spelt, limits) = (columns[0], bytes(columns[1]), limits(columns.get(4).copied()));
        let chunk = if spelt.starts_with(b"\x1bL") { spelt } else { [&header()[..31], &spelt].concat() };
        assert_eq!(shown(Chunk::read(&chunk, limits)), columns[2], "{name}");
        assert_eq!(shown(Chunk::read_strict(&chunk, limits)), columns[3], "{name}");
        let owned = OwnedChunk::read_strict(chunk.clone(), limits);
        assert_eq!(shown(owned.as_ref().map(OwnedChunk::chunk).map_err(|refusal| *refusal)), columns[3], "{name}");
        seen += 1;
    }
    assert_eq!(seen, 46);
}

/// What is read is what the ordinary reading gives. A refusal that both readings have is the same, since neither meets anything before.
#[test]
#[cfg(repository)]
fn beside_the_ordinary_reading() {
    let (mut read, mut same, mut strict) = (0, 0, [0; 3]);
    for (limits, bytes, _) in common::kept_chunks() {
        match (Chunk::read_strict(&bytes, limits), Chunk::read(&bytes, limits)) {
            (Ok(one), Ok(other)) => {
                assert_eq!(format!("{one:?}"), format!("{other:?}"));
                assert_eq!(one.index(), other.index());
                read += 1;
            }
            (Err(refusal), _) if refusal.number() > 30 => strict[usize::from(refusal.number()) - 31] += 1,
            (Err(refusal), Err(other)) => {
                assert_eq!(refusal, other);
                same += 1;
            }
            (one, other) => panic!("{one:?}, not {other:?}"),
        }
    }
    assert!(read > 1_000 && same > 1_000 && strict.iter().all(|count| *count > 20), "{read} {same} {strict:?}");
}

/// A script whose format byte is 1.
fn odd() -> Vec<u8> {
    let mut bytes = RECENTRE.to_vec();
    bytes[5] = 1;
    bytes
}

const COMMANDS: [&[&str]; 7] = [
    &["list", "-"],
    &["dump", "-"],
    &["dump", "--raw", "-"],
    &["copy", "-", "-"],
    &["check", "-"],
    &["lines", "-", "0", "1"],
    &["sweep", "-", "0", "/dev/null"],
];

#[test]
fn every_command_has_the_option() {
    for command in COMMANDS {
        let strict = [command, &["--strict"]].concat();
        assert_eq!(run_on(&strict, RECENTRE).stdout, run_on(command, RECENTRE).stdout, "{command:?}");
        assert_eq!((run_on(&strict, RECENTRE).status, run_on(command, &odd()).status), (0, 0), "{command:?}");
        let why = "standard input: refused 31 at 5: the format byte is not 0 (Lua's loader: format mismatch)\n";
        run_on(&strict, &odd()).says(1, why);
        run_on(&[command[0], "--strict=1"], b"").says(2, "--strict takes no value");
        assert!(run(&[command[0], "--help"]).text(0).contains("\n  --strict      read as Lua's own loader reads; "));
    }
    assert!(run(&["--help"]).text(0).contains("\n  --strict      read as Lua's own loader reads; "));
}

#[test]
fn among_many_files() {
    let (good, bad) = (fresh("strict_good.luac"), fresh("strict_bad.luac"));
    fs::write(&good, RECENTRE).unwrap();
    fs::write(&bad, odd()).unwrap();
    let (good, bad) = (good.to_str().unwrap(), bad.to_str().unwrap());
    let ran = run(&["check", "--strict", bad, good]);
    let expected = format!(
        "{bad}: refused 31 at 5: the format byte is not 0 (Lua's loader: format mismatch)\n\
        {good}: verdict valid-for-analysis findings 0 warnings 0\n"
    );
    assert_eq!(ran.text(1), expected);
    assert_eq!(run(&["check", bad, good]).text(0).lines().count(), 2);
    let ran = run(&["list", "--json", "--strict", bad]);
    assert!(
        ran.text(1).contains("\"refused\":{\"number\":31,\"place\":5,\"why\":\"the format byte is not 0"),
        "{}",
        ran.text(1)
    );
}
