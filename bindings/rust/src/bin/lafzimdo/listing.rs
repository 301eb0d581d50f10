//! The listing that `dump` prints: each instruction with what its operands stand for.
use crate::code::{event, Code};
use crate::file::Out;
use crate::names::Names;
use crate::quoted::{Plain, Quoted, Short};
use lafzimdo::{Chunk, Constant, Function, Instruction, Operand, OperandKind};
use std::fmt;
use std::io::{self, Write};

/// The line that every listing has.
const HOW: &str =
    "pcs count from 0 (luac's from 1). R: register, K: constant, U: upvalue; =: its name or value at that pc";

pub fn print_chunk(out: &mut Out, chunk: &Chunk<'_>) -> io::Result<()> {
    let (bytes, functions, padded) = (chunk.bytes().len(), chunk.function_count(), chunk.padded_numbers());
    let trailing = chunk.trailing_bytes().len();
    writeln!(out, "chunk of {bytes} bytes, functions {functions}, padded numbers {padded}, trailing bytes {trailing}")?;
    for warning in chunk.warnings() {
        writeln!(out, "{warning}")?;
    }
    writeln!(out, "{HOW}")?;
    for function in chunk.functions() {
        writeln!(out)?;
        print_function(out, function)?;
    }
    Ok(())
}

/// One function alone.
pub fn print_alone(out: &mut Out, function: Function<'_>) -> io::Result<()> {
    writeln!(out, "{HOW}\n")?;
    print_function(out, function)
}

fn print_function(out: &mut Out, function: Function<'_>) -> io::Result<()> {
    let f = *function.fields();
    match function.number() {
        0 => write!(out, "function 0, main")?,
        number => write!(out, "function {number}, in function {}", f.parent)?,
    }
    write!(out, ": lines {} to {} of ", f.line_defined, f.last_line_defined)?;
    writeln!(out, "{}, bytes {} to {}", Source(f.source), function.start(), function.end())?;
    let vararg = if f.is_vararg == 0 { "" } else { ", vararg" };
    writeln!(out, "  parameters {}{vararg}, registers {}", f.numparams, f.maxstacksize)?;
    let code = Code::new(function);
    let names = print_code(out, &code)?;
    print_lists(out, &code, &names)
}

/// Prints the instructions, and gives what is known of the local variables behind them.
fn print_code<'a>(out: &mut Out, code: &Code<'a>) -> io::Result<Names<'a>> {
    let (mut before, mut behind) = (Names::new(code.function.locals()), Names::new(code.function.locals()));
    let (jumps, width) = (jumps(code), code.words.len().to_string().len());
    let mut jumps = jumps.into_iter().skip_while(|(target, _)| *target < 0).peekable();
    let lines = (0..code.words.len()).filter_map(|pc| code.line(pc)).max().map_or(1, |line| line.to_string().len());
    writeln!(out, "  instructions {}", code.words.len())?;
    for pc in 0..code.words.len() {
        before.go_on(pc as u64);
        behind.go_on(pc as u64 + 1);
        let here = |jump: &(i64, usize)| jump.0 == pc as i64;
        if let Some((_, from)) = jumps.next_if(here) {
            write!(out, "  L{pc}:{:w$}; from {from}", "", w = width + 1)?;
            while let Some((_, from)) = jumps.next_if(here) {
                write!(out, " {from}")?;
            }
            writeln!(out)?;
        }
        let line = code.line(pc).map_or("-".into(), |line| line.to_string());
        let instruction = code.instruction(pc);
        let (shown, comment) =
            (format!("{:#}", Shown(&instruction)), Comment { code, pc, before: &before, behind: &behind });
        let text = format!("    {pc:>width$} [{line:>lines$}] {shown:<25}{comment}");
        writeln!(out, "{}", text.trim_end())?;
    }
    Ok(before)
}

/// The jumps, each as target and pc, in the order of the targets.
fn jumps(code: &Code<'_>) -> Vec<(i64, usize)> {
    let target = |pc| code.instruction(pc).jump_target(pc).map(|target| (target, pc));
    let mut jumps: Vec<_> = (0..code.words.len()).filter_map(target).collect();
    jumps.sort_unstable();
    jumps
}

fn print_lists(out: &mut Out, code: &Code<'_>, names: &Names<'_>) -> io::Result<()> {
    writeln!(out, "  constants {}", code.constants.len())?;
    for (entry, constant) in code.constants.iter().enumerate() {
        writeln!(out, "    K{entry} {}", Value(constant))?;
    }
    print_upvalues(out, code)?;
    let counts = code.function.fields().counts;
    writeln!(out, "  locals {}", counts.loc_vars)?;
    for (register, local) in names.locals() {
        let register = register.map_or("-".into(), |register| format!("R{register}"));
        writeln!(out, "    {register} {}, pc {} up to {}", Plain(local.name), local.startpc, local.endpc)?;
    }
    writeln!(out, "  nested functions {}", counts.protos)?;
    for (entry, nested) in code.nested.iter().enumerate() {
        writeln!(out, "    {entry} is function {}, lines {} to {}", nested.number, nested.lines.0, nested.lines.1)?;
    }
    Ok(())
}

/// The upvalues, each with the register or upvalue of the function around that it is.
fn print_upvalues(out: &mut Out, code: &Code<'_>) -> io::Result<()> {
    let (number, parent) = (code.function.number(), code.function.fields().parent);
    writeln!(out, "  upvalues {}", code.function.fields().counts.upvalues)?;
    for (entry, upvalue) in code.function.upvalues().enumerate() {
        let name = u8::try_from(entry).ok().and_then(|entry| code.upvalue_name(entry));
        write!(out, "    U{entry} ")?;
        match name {
            Some(name) => write!(out, "{}", Plain(name))?,
            None => write!(out, "-")?,
        }
        let letter = if upvalue.instack == 0 { 'U' } else { 'R' };
        match number {
            0 => write!(out, ", set by who loads the chunk")?,
            _ => write!(out, ", {letter}{} of function {parent}", upvalue.idx)?,
        }
        match upvalue.kind {
            0 => writeln!(out)?,
            kind => writeln!(out, ", kind {kind}")?,
        }
    }
    Ok(())
}

/// A source as luac shows it: a file's name, a name given, or a text.
pub struct Source<'a>(pub Option<&'a [u8]>);

impl fmt::Display for Source<'_> {
    fn fmt(&self, f: &mut fmt::Formatter<'_>) -> fmt::Result {
        match self.0 {
            None => f.write_str("?"),
            Some([b'@' | b'=', name @ ..]) => Plain(name).fmt(f),
            Some([0x1b, ..]) => f.write_str("(bstring)"),
            Some(_) => f.write_str("(string)"),
        }
    }
}

/// A constant.
struct Value<'a>(&'a Constant<'a>);

impl fmt::Display for Value<'_> {
    fn fmt(&self, f: &mut fmt::Formatter<'_>) -> fmt::Result {
        match self.0 {
            Constant::Nil => f.write_str("nil"),
            Constant::Boolean(value) => write!(f, "{value}"),
            Constant::Integer(value) => write!(f, "{value}"),
            Constant::Float(value) => write!(f, "{value:?}"),
            Constant::ShortString(value) | Constant::LongString(value) => Quoted(value).fmt(f),
        }
    }
}

/// An instruction: its name and the operands that it has; `{:#}` sets the operands in columns.
pub struct Shown<'a>(pub &'a Instruction);

impl fmt::Display for Shown<'_> {
    fn fmt(&self, f: &mut fmt::Formatter<'_>) -> fmt::Result {
        let Some(name) = self.0.name() else {
            return write!(f, "no opcode {}", self.0.opcode);
        };
        let operands: Vec<String> = self.0.operands().map(operand).collect();
        match operands[..] {
            [] => f.write_str(name),
            _ if f.alternate() => write!(f, "{name:<10} {}", operands.join(" ")),
            _ => write!(f, "{name} {}", operands.join(" ")),
        }
    }
}

fn operand(operand: Operand) -> String {
    let letter = match operand.kind {
        OperandKind::Target | OperandKind::Register => "R",
        OperandKind::Constant => "K",
        OperandKind::Upvalue => "U",
        OperandKind::Flag => "k",
        _ => "",
    };
    format!("{letter}{}", operand.value)
}

/// What an instruction's operands stand for.
struct Comment<'c, 'a> {
    code: &'c Code<'a>,
    pc: usize,
    /// The names of registers when it begins, and when it is done.
    before: &'c Names<'a>,
    behind: &'c Names<'a>,
}

impl fmt::Display for Comment<'_, '_> {
    fn fmt(&self, f: &mut fmt::Formatter<'_>) -> fmt::Result {
        let instruction = self.code.instruction(self.pc);
        let mut parts: Vec<String> = Vec::new();
        for part in instruction.operands().filter_map(|operand| self.operand(operand)) {
            if !parts.contains(&part) {
                parts.push(part);
            }
        }
        parts.extend(self.own(&instruction));
        match parts[..] {
            [] => Ok(()),
            _ => write!(f, " ; {}", parts.join(", ")),
        }
    }
}

impl Comment<'_, '_> {
    /// What an operand stands for, where that is known.
    fn operand(&self, operand: Operand) -> Option<String> {
        let value = operand.value;
        match operand.kind {
            OperandKind::Target => {
                let name = self.before.of(value).or_else(|| self.behind.of(value))?;
                Some(format!("R{value}={}", Plain(name)))
            }
            OperandKind::Register => Some(format!("R{value}={}", Plain(self.before.of(value)?))),
            OperandKind::Constant => Some(self.constant(value as u64)),
            OperandKind::Upvalue => Some(format!("U{value}={}", Plain(self.code.upvalue_name(value as u8)?))),
            OperandKind::Event => Some(event(value as u8)),
            OperandKind::Function => Some(match self.code.nested.get(value as usize) {
                None => "no such function".into(),
                Some(nested) => format!("function {}, lines {} to {}", nested.number, nested.lines.0, nested.lines.1),
            }),
            OperandKind::Jump => {
                let instruction = self.code.instruction(self.pc);
                let exit = if instruction.name() == Some("FORPREP") { "exit " } else { "" };
                Some(format!("{exit}to {}", instruction.jump_target(self.pc)?))
            }
            _ => None,
        }
    }

    fn constant(&self, constant: u64) -> String {
        match self.code.constant(constant) {
            None => format!("no K{constant}"),
            Some(Constant::ShortString(text) | Constant::LongString(text)) => format!("K{constant}={}", Short(text)),
            Some(value) => format!("K{constant}={}", Value(value)),
        }
    }

    /// What the opcode itself has to say.
    fn own(&self, i: &Instruction) -> Vec<String> {
        let size = || u64::from(i.c) + if i.k == 1 { self.code.extra(self.pc) * 256 } else { 0 };
        let registers = |count: u16| match count {
            ..=1 => vec![],
            _ => vec![format!("R{} to R{}", i.a, u16::from(i.a) + count - 1)],
        };
        match i.name().unwrap_or_default() {
            "LOADKX" => vec![match self.code.next_is_extra(self.pc) {
                true => self.constant(self.code.extra(self.pc)),
                false => "no EXTRAARG behind it".into(),
            }],
            "LOADNIL" => registers(u16::from(i.b) + 1),
            "CONCAT" => registers(u16::from(i.b)),
            "NEWTABLE" => vec![format!("array {}, hash {}", size(), hash(i.b))],
            "CALL" => vec![counted(i.b, "in"), counted(i.c, "out")],
            "TAILCALL" => vec![counted(i.b, "in")],
            "RETURN" => vec![counted(i.b, "out")],
            "VARARG" => vec![counted(i.c, "out")],
            "TFORCALL" => vec![format!("{} out", i.c)],
            "SETLIST" => vec![
                if i.b == 0 { "all in".into() } else { format!("{} in", i.b) },
                format!("from [{}] on", size() + 1),
            ],
            "MMBINI" | "MMBINK" if i.k == 1 => vec!["operands exchanged".into()],
            "LFALSESKIP" => vec!["skips the next".into()],
            _ if i.skips() => vec![skip(i)],
            _ => vec![],
        }
    }
}

/// A count that is one more than what it counts; 0 is all up to the top.
fn counted(count: u8, what: &str) -> String {
    match count.checked_sub(1) {
        None => format!("all {what}"),
        Some(count) => format!("{count} {what}"),
    }
}

/// The size of a table's hash part: 0, or a power of 2.
fn hash(size: u8) -> String {
    match size.checked_sub(1) {
        None => "0".into(),
        Some(power @ ..=63) => (1u64 << power).to_string(),
        Some(power) => format!("2^{power}"),
    }
}

/// When a test skips the instruction behind it.
fn skip(i: &Instruction) -> String {
    let (a, b, sb) = (i.a, i.b, i.sb);
    let condition = match i.name().unwrap_or_default() {
        "EQ" => format!("R{a} == R{b}"),
        "LT" => format!("R{a} < R{b}"),
        "LE" => format!("R{a} <= R{b}"),
        "EQK" => format!("R{a} == K{b}"),
        "EQI" => format!("R{a} == {sb}"),
        "LTI" => format!("R{a} < {sb}"),
        "LEI" => format!("R{a} <= {sb}"),
        "GTI" => format!("R{a} > {sb}"),
        "GEI" => format!("R{a} >= {sb}"),
        "TESTSET" => format!("R{b}"),
        _ => format!("R{a}"),
    };
    format!("skips the next {} {condition}", if i.k == 1 { "unless" } else { "if" })
}
