//! src/ffi.rs declares the calls as include/lafzimdo.h does: the same calls, with the same types and lengths of arrays, in the same order.
#![cfg(repository)]
mod common;

use lafzimdo::{Limits, Row};
use std::collections::BTreeMap;

type Calls = BTreeMap<String, Vec<String>>;

/// The call that begins with this text behind its name, and the parameters between its brackets.
fn call(name: &str, parameters: &str) -> (String, Vec<String>) {
    let parameters = parameters.split(',').map(str::trim).filter(|parameter| !matches!(*parameter, "" | "void"));
    (format!("lafzimdo_{name}"), parameters.map(String::from).collect())
}

/// A parameter of C as the type that Rust has for it.
fn rust_type(c: &str) -> String {
    let (kind, name) = c.rsplit_once(' ').unwrap();
    let number = |kind: &str| match kind {
        "size_t" => "usize",
        "uint8_t" => "u8",
        "uint32_t" => "u32",
        "uint64_t" => "u64",
        "int32_t" => "i32",
        _ => panic!("{c}"),
    };
    match (kind.strip_prefix("const "), name.strip_prefix('*'), name.split_once('[')) {
        (None, None, None) => number(kind).into(),
        (Some(kind), Some(_), None) => format!("*const {}", number(kind)),
        (None, Some(_), None) => format!("*mut {}", number(kind)),
        (Some(kind), None, Some((_, len))) => format!("&[{}; {}", number(kind), len),
        (None, None, Some((_, len))) => format!("&mut [{}; {}", number(kind), len),
        _ => panic!("{c}"),
    }
}

/// The header, with numbers in place of the names that it gives to lengths of arrays.
fn header() -> String {
    let header = common::text("include/lafzimdo.h");
    let names = header.lines().filter_map(|line| line.strip_prefix("#define LAFZIMDO_")?.split_once("_NUMBERS "));
    names.fold(header.clone(), |text, (name, len)| {
        text.replace(&format!("[LAFZIMDO_{name}_NUMBERS]"), &format!("[{len}]"))
    })
}

fn of_header() -> Calls {
    let header = header();
    let declarations = header.split("uint64_t lafzimdo_").skip(1);
    let calls = declarations.map(|text| {
        let (name, rest) = text.split_once('(').unwrap();
        let (name, parameters) = call(name, rest.split_once(')').unwrap().0);
        (name, parameters.iter().map(|parameter| rust_type(parameter)).collect())
    });
    calls.collect()
}

/// The calls of the table, `summary lafzimdo_summary() 15;`, and those that are declared in full.
fn of_ours() -> Calls {
    let source = include_str!("../src/ffi.rs");
    let (_, table) = source.split_once("\ncalls! {").unwrap();
    let (table, rest) = table.split_once("\n}").unwrap();
    let in_table = table.split(" lafzimdo_").skip(1).map(|text| {
        let (name, rest) = text.split_once('(').unwrap();
        let (numbers, len) = rest.split_once(')').unwrap();
        let (name, numbers) = call(name, numbers);
        let mut types: Vec<String> = ["*const u8", "usize", "&[u64; 9]"].map(String::from).to_vec();
        types.extend(numbers.iter().map(|_| "usize".to_string()));
        types.push(format!("&mut [u64; {}]", len.split_once(';').unwrap().0.trim()));
        (name, types)
    });
    let in_full = rest.split("    fn lafzimdo_").skip(1).map(|text| {
        let (name, rest) = text.split_once('(').unwrap();
        let (name, parameters) = call(name, rest.split_once(')').unwrap().0);
        (name, parameters.iter().map(|parameter| parameter.split_once(": ").unwrap().1.to_string()).collect())
    });
    in_table.chain(in_full).collect()
}

#[test]
fn as_in_the_header() {
    let (header, ours) = (of_header(), of_ours());
    assert_eq!(ours.len(), 32);
    for (name, types) in &ours {
        assert_eq!(header.get(name), Some(types), "{name}");
    }
    assert_eq!(header.keys().collect::<Vec<_>>(), ours.keys().collect::<Vec<_>>());
}

#[test]
fn row_as_in_the_header() {
    let header = common::text("include/lafzimdo.h");
    assert!(header.contains(&format!("\n#define LAFZIMDO_ROW_NUMBERS {}\n", Row::COLUMNS)));
}

#[test]
fn ceilings_as_in_the_header() {
    let header = common::text("include/lafzimdo.h");
    let (_, ceilings) = header.split_once("#define LAFZIMDO_CEILINGS {").unwrap();
    let numbers: Vec<&str> = ceilings.split_once('}').unwrap().0.split(", ").collect();
    assert_eq!(common::limits(&numbers), Limits::ceilings());
}
