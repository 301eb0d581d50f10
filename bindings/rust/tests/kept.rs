//! Every kept request, answered through the crate and compared with the answer of the Rust, line by line.
#![cfg(repository)]
mod common;

use common::{bytes, hex, kept, limits, string};
use lafzimdo::{decode, encode, Chunk, Constant, Function, Instruction, Mode, Refusal};
use std::collections::BTreeSet;

fn refused(refusal: Refusal) -> String {
    let place = refusal.place().map_or("-".into(), |place| place.to_string());
    format!("refused {} {place}", refusal.number())
}

fn answer(request: &str) -> Vec<String> {
    let words: Vec<&str> = request.split(' ').collect();
    let answer = match words[0] {
        "word" => Ok(vec![word(u32::from_str_radix(words[1], 16).unwrap())]),
        "enc" => Ok(vec![enc(&words[1..])]),
        "lines" => lines(&words[1..]),
        "verdict" => verdict(&words[1..]),
        _ => whole(&words),
    };
    answer.unwrap_or_else(|refusal| vec![refused(refusal)])
}

fn encoded(fields: &Instruction) -> String {
    encode(fields).map_or_else(refused, |word| format!("{word:08x}"))
}

fn word(word: u32) -> String {
    let i = decode(word);
    let mode = match i.mode {
        Some(Mode::IABC) => "iABC",
        Some(Mode::IABx) => "iABx",
        Some(Mode::IAsBx) => "iAsBx",
        Some(Mode::IAx) => "iAx",
        Some(Mode::IsJ) => "isJ",
        None => "-",
    };
    assert_eq!(i.name().is_some(), i.mode.is_some());
    let Instruction { opcode, a, k, b, sb, c, sc, bx, sbx, ax, sj, .. } = i;
    let fields = format!("a {a} k {k} b {b} sb {sb} c {c} sc {sc} bx {bx} sbx {sbx} ax {ax} sj {sj}");
    format!("word {word:08x} op {opcode} mode {mode} {fields} encode {}", encoded(&i))
}

fn enc(words: &[&str]) -> String {
    let byte = |at: usize| words[at].parse::<u8>().unwrap();
    let (unsigned, signed) =
        (|at: usize| words[at].parse::<u32>().unwrap(), |at: usize| words[at].parse::<i32>().unwrap());
    let fields = Instruction {
        opcode: byte(0),
        a: byte(1),
        k: byte(2),
        b: byte(3),
        c: byte(4),
        bx: unsigned(5),
        sbx: signed(6),
        ax: unsigned(7),
        sj: signed(8),
        ..Instruction::default()
    };
    format!("enc {}", encoded(&fields))
}

fn lines(words: &[&str]) -> Result<Vec<String>, Refusal> {
    let bytes = bytes(words[9]);
    let chunk = Chunk::read(&bytes, limits(&words[..9]))?;
    let function: usize = words[10].parse().unwrap();
    chunk.fields(function)?;
    let mut shown = format!("line {function}");
    for pc in &words[11..] {
        shown += &format!(" {pc}:{}", chunk.line(function, pc.parse().unwrap())?);
    }
    Ok(vec![shown])
}

fn verdict(words: &[&str]) -> Result<Vec<String>, Refusal> {
    let bytes = bytes(words[9]);
    let chunk = Chunk::read(&bytes, limits(&words[..9]))?;
    let (verdict, findings) = chunk.validate();
    assert_eq!((chunk.verdict(), chunk.finding_count()), (verdict, findings.len()));
    Ok(vec![format!("verdict {verdict}"), format!("findings {}", findings.len())])
}

fn whole(words: &[&str]) -> Result<Vec<String>, Refusal> {
    let bytes = bytes(words[9]);
    let chunk = Chunk::read(&bytes, limits(&words[..9]))?;
    let mut shown = summary(&chunk);
    for (number, function) in chunk.functions().enumerate() {
        assert_eq!(function.number(), number);
        shown.extend(one_function(&function));
    }
    for row in chunk.index() {
        shown.push(format!("row {}", row.numbers().map(|number| number.to_string()).join(" ")));
    }
    shown.push(format!("copy {}", hex(&chunk.copy())));
    shown.extend(verdict(words)?);
    for finding in chunk.findings() {
        let rule = finding.rule;
        let (name, number, severity) = (rule.name(), rule.number(), rule.severity());
        shown.push(format!("finding {} {} {name} {number} {severity}", finding.function, finding.pc));
    }
    for function in chunk.functions() {
        shown.push(some_lines(&chunk, &function));
    }
    Ok(shown)
}

fn summary(chunk: &Chunk<'_>) -> Vec<String> {
    let h = chunk.header();
    let sizes = format!("{} {} {} {}", h.instruction_size, h.lua_integer_size, h.sizeof_sizet, h.lua_number_size);
    let mut shown = vec![
        format!("header {:02x} {:02x} {sizes} 22136 {:016x}", h.version, h.format, h.luac_num.to_bits()),
        format!("warnings {}", chunk.warnings().count()),
    ];
    shown.extend(chunk.warnings().map(|warning| format!("warning {} {}", &warning.code()[4..], warning.place())));
    shown.push(format!("functions {}", chunk.function_count()));
    shown.push(format!("padded {}", chunk.padded_numbers()));
    shown.push(format!("trailing {} {}", chunk.trailing_place(), hex(chunk.trailing_bytes())));
    shown
}

fn one_function(function: &Function<'_>) -> Vec<String> {
    let f = function.fields();
    let c = f.counts;
    let (code, debug) = (
        format!("{} {} {} {}", c.instructions, c.constants, c.upvalues, c.protos),
        format!("{} {} {} {}", c.line_info, c.abs_line_info, c.loc_vars, c.upvalue_names),
    );
    let (start, end) = (function.start(), function.end());
    let mut shown = vec![
        format!("function {} depth {} parent {} start {start} end {end}", function.number(), f.depth, f.parent),
        format!("source {}", string(f.source)),
        format!("lines {} {}", f.line_defined, f.last_line_defined),
        format!("bytes {} {} {}", f.numparams, f.is_vararg, f.maxstacksize),
        format!("counts {code} {debug}"),
    ];
    shown.extend(function.instructions().map(|word| format!("i {word:08x}")));
    shown.extend(function.constants().map(constant));
    shown.extend(function.upvalues().map(|upvalue| format!("u {} {} {}", upvalue.instack, upvalue.idx, upvalue.kind)));
    shown.extend(function.deltas().map(|delta| format!("d {delta}")));
    shown.extend(function.anchors().map(|anchor| format!("a {} {}", anchor.pc, anchor.line)));
    shown.extend(
        function.locals().map(|local| format!("l {} {} {}", string(Some(local.name)), local.startpc, local.endpc)),
    );
    shown.extend(function.upvalue_names().map(|name| format!("n {}", string(name))));
    shown
}

fn constant(constant: Constant<'_>) -> String {
    match constant {
        Constant::Nil => "k nil".into(),
        Constant::Boolean(value) => format!("k {value}"),
        Constant::Integer(value) => format!("k int {value}"),
        Constant::Float(value) => format!("k float {:016x}", value.to_bits()),
        Constant::ShortString(value) => format!("k short {}", string(Some(value))),
        Constant::LongString(value) => format!("k long {}", string(Some(value))),
    }
}

fn some_lines(chunk: &Chunk<'_>, function: &Function<'_>) -> String {
    let c = function.fields().counts;
    let most = c.instructions.max(c.line_info).max(c.abs_line_info);
    let pcs = (0..64.min(most + 2)).chain([1 << 32, 1 << 63, usize::MAX]);
    let mut shown = format!("line {}", function.number());
    for pc in pcs {
        match chunk.line(function.number(), pc) {
            Ok(line) => shown += &format!(" {pc}:{line}"),
            Err(refusal) => return format!("line {} refused {}", function.number(), refusal.number()),
        }
    }
    shown
}

#[test]
fn every_kept_answer() {
    let mut numbers = BTreeSet::new();
    for (request, expected) in kept() {
        let ours = answer(&request);
        assert!(
            ours == expected,
            "{request:.300}\n{:?}",
            ours.iter().zip(&expected).find(|(ours, expected)| ours != expected)
        );
        numbers
            .extend(ours.iter().filter_map(|line| Some(line.split_once("refused ")?.1.split(' ').next()?.to_string())));
    }
    // 24 and 26 are not in the protocol: tests/refusals.rs, tests/lent.rs. Nor are 29 and 30, which the Rust has not: tests/sweep.rs; nor 31 to 33: tests/strict.rs.
    let all = (1..=28).filter(|number| ![24, 26].contains(number)).map(|number: u8| number.to_string());
    assert_eq!(numbers, all.collect());
}
