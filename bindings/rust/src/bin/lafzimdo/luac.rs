//! luac's own form, as `luac5.4 -l -l` (Lua 5.4.4) prints it: pcs from 1. Where luac has a function's address in memory stands its place in the file.
use crate::code::{event, Code};
use crate::file::Out;
use crate::luac_text::{cut_constant, cut_name, Name, UpvalueName, Value};
use lafzimdo::{Chunk, Constant, Function, Instruction};
use std::io::{self, Write};

pub fn print_chunk(out: &mut Out, chunk: &Chunk<'_>) -> io::Result<()> {
    chunk.functions().try_for_each(|function| print_function(out, function))
}

pub fn print_function(out: &mut Out, function: Function<'_>) -> io::Result<()> {
    let f = *function.fields();
    let (start, counts) = (function.start(), f.counts);
    let kind = if f.line_defined == 0 { "main" } else { "function" };
    write!(out, "\n{kind} <{}:{},{}> ", source(&function), f.line_defined, f.last_line_defined)?;
    let code = Code::new(function);
    writeln!(out, "({} at {start:#x})", many(counts.instructions, "instruction"))?;
    let vararg = if f.is_vararg == 0 { "" } else { "+" };
    write!(out, "{}{vararg} param{}, ", f.numparams, plural(f.numparams.into()))?;
    write!(out, "{}, {}, ", many(f.maxstacksize.into(), "slot"), many(counts.upvalues, "upvalue"))?;
    write!(out, "{}, {}, ", many(counts.loc_vars, "local"), many(counts.constants, "constant"))?;
    writeln!(out, "{}", many(counts.protos, "function"))?;
    for pc in 0..code.words.len() {
        print_instruction(out, &code, pc)?;
    }
    print_lists(out, &code)
}

/// The source in a function's heading: a long one is whole only where it is spelt, so that it is printed once.
fn source(function: &Function<'_>) -> String {
    let own = function.source_function() == Some(function.number());
    match function.source() {
        None => "?".into(),
        Some([b'@' | b'=', name @ ..]) if own => Name(name).to_string(),
        Some([b'@' | b'=', name @ ..]) => cut_name(name),
        Some([0x1b, ..]) => "(bstring)".into(),
        Some(_) => "(string)".into(),
    }
}

fn plural(count: usize) -> &'static str {
    if count == 1 {
        ""
    } else {
        "s"
    }
}

fn many(count: usize, what: &str) -> String {
    format!("{count} {what}{}", plural(count))
}

fn print_instruction(out: &mut Out, code: &Code<'_>, pc: usize) -> io::Result<()> {
    let i = code.instruction(pc);
    match code.line(pc) {
        Some(line @ 1..) => write!(out, "\t{}\t[{line}]\t", pc + 1)?,
        _ => write!(out, "\t{}\t[-]\t", pc + 1)?,
    }
    let (operands, comment) = shown(code, pc, &i);
    write!(out, "{:<9}\t{operands}", i.name().unwrap_or("?"))?;
    match comment {
        Some(comment) => writeln!(out, "\t; {comment}"),
        None => writeln!(out),
    }
}

fn print_lists(out: &mut Out, code: &Code<'_>) -> io::Result<()> {
    let (start, counts) = (code.function.start(), code.function.fields().counts);
    writeln!(out, "constants ({}) for {start:#x}:", counts.constants)?;
    for (entry, constant) in code.constants.iter().enumerate() {
        let letter = match constant {
            Constant::Nil => 'N',
            Constant::Boolean(_) => 'B',
            Constant::Integer(_) => 'I',
            Constant::Float(_) => 'F',
            Constant::ShortString(_) | Constant::LongString(_) => 'S',
        };
        writeln!(out, "\t{entry}\t{letter}\t{}", Value(Some(constant)))?;
    }
    writeln!(out, "locals ({}) for {start:#x}:", counts.loc_vars)?;
    for (entry, local) in code.function.locals().enumerate() {
        let (from, to) = (u128::from(local.startpc) + 1, u128::from(local.endpc) + 1);
        writeln!(out, "\t{entry}\t{}\t{from}\t{to}", Name(local.name))?;
    }
    writeln!(out, "upvalues ({}) for {start:#x}:", counts.upvalues)?;
    let names = code.function.upvalue_names().map(Some).chain(std::iter::repeat(None));
    for ((entry, upvalue), name) in code.function.upvalues().enumerate().zip(names) {
        writeln!(out, "\t{entry}\t{}\t{}\t{}", UpvalueName(name.flatten()), upvalue.instack, upvalue.idx)?;
    }
    Ok(())
}

/// The operands of an instruction, and what stands behind `;`.
fn shown(code: &Code<'_>, pc: usize, i: &Instruction) -> (String, Option<String>) {
    let (a, b, c, bx, k) = (i.a, i.b, i.c, i.bx, i.k);
    let constant = |constant: u64| cut_constant(code.constant(constant));
    let upvalue = |upvalue: u8| code.upvalue_name(upvalue).map_or("-".into(), cut_name);
    let isk = if k == 1 { "k" } else { "" };
    let and_constant = |front: String| match k {
        1 if front.is_empty() => Some(constant(c.into())),
        1 => Some(format!("{front} {}", constant(c.into()))),
        _ => Some(front).filter(|front| !front.is_empty()),
    };
    let flip = if k == 1 { " flip" } else { "" };
    let to = || i.jump_target(pc).map_or(0, |target| target + 1);
    match i.name().unwrap_or_default() {
        "MOVE" | "UNM" | "BNOT" | "NOT" | "LEN" | "CONCAT" => (format!("{a} {b}"), None),
        "LOADI" | "LOADF" => (format!("{a} {}", i.sbx), None),
        "LOADK" => (format!("{a} {bx}"), Some(constant(bx.into()))),
        "LOADKX" => (format!("{a}"), Some(constant(code.extra(pc)))),
        "LOADFALSE" | "LFALSESKIP" | "LOADTRUE" | "CLOSE" | "TBC" | "VARARGPREP" | "RETURN1" => (format!("{a}"), None),
        "LOADNIL" => (format!("{a} {b}"), Some(format!("{} out", u16::from(b) + 1))),
        "GETUPVAL" | "SETUPVAL" => (format!("{a} {b}"), Some(upvalue(b))),
        "GETTABUP" => (format!("{a} {b} {c}"), Some(format!("{} {}", upvalue(b), constant(c.into())))),
        "GETFIELD" | "ADDK" | "SUBK" | "MULK" | "MODK" | "POWK" | "DIVK" | "IDIVK" | "BANDK" | "BORK" | "BXORK" => {
            (format!("{a} {b} {c}"), Some(constant(c.into())))
        }
        "SETTABUP" => (format!("{a} {b} {c}{isk}"), and_constant(format!("{} {}", upvalue(a), constant(b.into())))),
        "SETTABLE" | "SETI" | "SELF" => (format!("{a} {b} {c}{isk}"), and_constant(String::new())),
        "SETFIELD" => (format!("{a} {b} {c}{isk}"), and_constant(constant(b.into()))),
        "NEWTABLE" => (format!("{a} {b} {c}"), Some((u64::from(c) + code.extra(pc) * 256).to_string())),
        "ADDI" | "SHRI" | "SHLI" => (format!("{a} {b} {}", i.sc), None),
        "MMBIN" => (format!("{a} {b} {c}"), Some(event(c))),
        "MMBINI" => (format!("{a} {} {c} {k}", i.sb), Some(event(c) + flip)),
        "MMBINK" => (format!("{a} {b} {c} {k}"), Some(format!("{} {}{flip}", event(c), constant(b.into())))),
        "JMP" => (format!("{}", i.sj), Some(format!("to {}", to()))),
        "EQ" | "LT" | "LE" | "TESTSET" => (format!("{a} {b} {k}"), None),
        "TEST" => (format!("{a} {k}"), None),
        "EQK" => (format!("{a} {b} {k}"), Some(constant(b.into()))),
        "EQI" | "LTI" | "LEI" | "GTI" | "GEI" => (format!("{a} {} {k}", i.sb), None),
        "CALL" => (format!("{a} {b} {c}"), Some(format!("{} {}", counted(b, "in"), counted(c, "out")))),
        "TAILCALL" => (format!("{a} {b} {c}{isk}"), Some(format!("{} in", i16::from(b) - 1))),
        "RETURN" => (format!("{a} {b} {c}{isk}"), Some(counted(b, "out"))),
        "RETURN0" => (String::new(), None),
        "FORLOOP" | "TFORPREP" | "TFORLOOP" => (format!("{a} {bx}"), Some(format!("to {}", to()))),
        "FORPREP" => (format!("{a} {bx}"), Some(format!("exit to {}", to()))),
        "TFORCALL" => (format!("{a} {c}"), None),
        "SETLIST" => {
            let last = (k == 1).then(|| (u64::from(c) + code.extra(pc) * 256).to_string());
            (format!("{a} {b} {c}"), last)
        }
        "CLOSURE" => {
            let nested = code.nested.get(bx as usize).map_or("?".into(), |nested| format!("{:#x}", nested.start));
            (format!("{a} {bx}"), Some(nested))
        }
        "VARARG" => (format!("{a} {c}"), Some(counted(c, "out"))),
        "EXTRAARG" => (format!("{}", i.ax), None),
        _ => (format!("{a} {b} {c}"), None),
    }
}

/// A count that is one more than what it counts; 0 is all up to the top.
fn counted(count: u8, what: &str) -> String {
    match count.checked_sub(1) {
        None => format!("all {what}"),
        Some(count) => format!("{count} {what}"),
    }
}
