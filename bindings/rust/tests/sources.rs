//! Which function spells the source of a function, and that the program prints each source once, where it is spelt.
mod common;

use common::run::run_on;
use common::{header, number};
use lafzimdo::{Chunk, Limits};

/// MOVE to register 2 of 2: a finding.
const BEYOND: u32 = 2 << 7;

/// A function with this source, these words, and these functions in it.
fn function(source: Option<&str>, words: &[u32], nested: &[Vec<u8>]) -> Vec<u8> {
    let mut bytes = source.map_or(number(0), |text| [&number(text.len() as u64 + 1), text.as_bytes()].concat());
    bytes.extend([0x80, 0x80, 0, 0, 2]);
    bytes.extend(number(words.len() as u64));
    bytes.extend(words.iter().flat_map(|word| word.to_le_bytes()));
    bytes.extend([0x80, 0x80]);
    bytes.extend(number(nested.len() as u64));
    bytes.extend(nested.concat());
    bytes.extend([0x80; 4]);
    bytes
}

fn chunk(main: Vec<u8>) -> Vec<u8> {
    [header(), main].concat()
}

/// Main, and in it: 1 with 2 in it; 3, which has its own, with 4 in it, which has none, and 5, which has an empty one;
/// 6. All but main have a finding.
fn family(main: Option<&str>, third: &str) -> Vec<u8> {
    let leaf = |source| function(source, &[BEYOND], &[]);
    let first = function(None, &[BEYOND], &[leaf(None)]);
    let third = function(Some(third), &[BEYOND], &[leaf(None), leaf(Some(""))]);
    chunk(function(main, &[], &[first, third, leaf(None)]))
}

/// By `source_function`, asked of all in turn and of one by itself.
fn spelt_in(bytes: &[u8]) -> Vec<Option<usize>> {
    let chunk = Chunk::read(bytes, Limits::ceilings()).unwrap();
    let all: Vec<_> = chunk.functions().map(|function| function.source_function()).collect();
    for (number, expected) in all.iter().enumerate() {
        let chunk = Chunk::read(bytes, Limits::ceilings()).unwrap();
        assert_eq!(chunk.function(number).unwrap().source_function(), *expected);
    }
    all
}

#[test]
fn who_spells_it() {
    let third = [Some(3), Some(3), Some(5)];
    let with = |main: Option<usize>| [&[main; 3][..], &third, &[main]].concat();
    assert_eq!(spelt_in(&family(Some("@main.lua"), "@lib.lua")), with(Some(0)));
    assert_eq!(spelt_in(&family(None, "@lib.lua")), with(None));
    // A source that is spelt twice is each function's own.
    assert_eq!(spelt_in(&family(Some("@a"), "@a")), with(Some(0)));
}

/// The function whose bytes the source is among: of those that begin before it the last, since a source is the first
/// thing of a function.
#[cfg(repository)]
fn by_place(bytes: &[u8], chunk: &Chunk<'_>, source: &[u8]) -> usize {
    let place = source.as_ptr() as usize - bytes.as_ptr() as usize;
    chunk.index().partition_point(|row| row.start() < place) - 1
}

#[cfg(repository)]
#[test]
fn of_every_kept_chunk() {
    let mut seen = [0; 3];
    for (limits, bytes, _) in common::kept_chunks() {
        let Ok(chunk) = Chunk::read(&bytes, limits) else { continue };
        for function in chunk.functions() {
            let expected = function.source().map(|source| by_place(&bytes, &chunk, source));
            assert_eq!(function.source_function(), expected);
            seen[expected.map_or(0, |number| 1 + usize::from(number == function.number()))] += 1;
        }
    }
    assert!(seen.iter().all(|count| *count > 500), "of none, of another, its own: {seen:?}");
}

fn printed(command: &str, bytes: &[u8]) -> String {
    let arguments: Vec<&str> = command.split(' ').chain(["-"]).collect();
    run_on(&arguments, bytes).text(0).to_string()
}

/// The lines that begin so, without what they begin with.
fn lines<'a>(text: &'a str, begins: &str) -> Vec<&'a str> {
    text.lines().filter_map(|line| line.strip_prefix(begins)).collect()
}

#[test]
fn raw() {
    let main = r#""@main.lua""#;
    let (same, lib) = ("of function 0", r#""@lib.lua""#);
    let dump = printed("dump --raw", &family(Some("@main.lua"), "@lib.lua"));
    assert_eq!(lines(&dump, "  source "), [main, same, same, lib, "of function 3", r#""""#, same]);
    let dump = printed("dump --raw", &family(None, "@lib.lua"));
    assert_eq!(lines(&dump, "  source "), ["-", "-", "-", lib, "of function 3", r#""""#, "-"]);
    let dump = printed("dump --raw --function 4", &family(None, "@lib.lua"));
    assert_eq!(lines(&dump, "  source "), ["of function 3"]);
}

/// The members of JSON objects that tell of sources, in order.
fn members(text: &str) -> Vec<String> {
    let parts = text.split("\"source").skip(1);
    let member = |part: &str| format!("source{}", part.split_once([',', '}']).unwrap().0.replace('"', ""));
    parts.map(member).collect()
}

const WHOLE: [&str; 7] =
    ["source:@main.lua", "source_of:0", "source_of:0", "source:@lib.lua", "source_of:3", "source:", "source_of:0"];

#[test]
fn json_of_all_functions() {
    let bytes = family(Some("@main.lua"), "@lib.lua");
    assert_eq!(members(&printed("list --json", &bytes)), WHOLE);
    assert_eq!(members(&printed("dump --json", &bytes)), WHOLE);
    // Where main has none, its source is null, and so are those that come from it.
    let none = WHOLE.map(|member| member.replace("@main.lua", "null"));
    assert_eq!(members(&printed("list --json", &family(None, "@lib.lua"))), none);
    assert_eq!(members(&printed("dump --json", &family(None, "@lib.lua"))), none);
}

#[test]
fn json_of_one_function() {
    let bytes = family(Some("@main.lua"), "@lib.lua");
    for (function, expected) in [
        (0, &["source:@main.lua"][..]),
        (2, &["source_of:0", "source:@main.lua"]),
        (3, &["source:@lib.lua"]),
        (4, &["source_of:3", "source:@lib.lua"]),
    ] {
        assert_eq!(members(&printed(&format!("dump --json --function {function}"), &bytes)), expected);
    }
    let none = printed("dump --json --function 6", &family(None, "@lib.lua"));
    assert_eq!(members(&none), ["source_of:0", "source:null"]);
}

/// Findings name the function; each source of theirs stands once before them.
#[test]
fn json_of_findings() {
    let found = printed("check --json", &family(Some("@main.lua"), "@lib.lua"));
    let first = r#""sources":[{"function":0,"source":"@main.lua"},{"function":3,"source":"@lib.lua"},"#;
    assert!(found.contains(&format!(r#"{first}{{"function":5,"source":""}}],"findings":["#)), "{found}");
    let (_, findings) = found.split_once("\"findings\":").unwrap();
    let of = ["source_of:0", "source_of:0", "source_of:3", "source_of:3", "source_of:5", "source_of:0"];
    assert_eq!(members(findings), of);
    let found = printed("check --json", &family(None, "@lib.lua"));
    assert!(found.contains(r#""sources":[{"function":0,"source":null},{"function":3,"#), "{found}");
    let found = printed("check --json", &chunk(function(Some("@main.lua"), &[], &[])));
    assert!(found.contains(r#""sources":[],"findings":[]"#), "{found}");
}

/// luac prints a source in every function's heading: here a long one is whole where it is spelt.
#[test]
fn headings_as_luac_prints_them() {
    let long = "s".repeat(201);
    let short = &long[1..];
    for (source, of_others) in [(short, short.to_string()), (&long, format!("{short}.. (201 bytes)"))] {
        let bytes = family(Some(&format!("@{source}")), "=lib");
        let heading = |source: &str| format!("<{source}:0,0> ");
        let expected = [source, &of_others, &of_others, "lib", "lib", "(string)", &of_others].map(heading);
        let listing = printed("dump --luac", &bytes);
        let headings = lines(&listing, "main ");
        assert_eq!(headings.len(), expected.len());
        for (heading, expected) in headings.iter().zip(&expected) {
            assert!(heading.starts_with(expected), "{heading}");
        }
    }
}
