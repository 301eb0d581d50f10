//! `dump --raw`: everything that a chunk holds, entry by entry.
use crate::file::Out;
use crate::quoted::{Quoted, QuotedIf};
use lafzimdo::{decode, Chunk, Constant, Function, Instruction, Mode};
use std::fmt;
use std::io::{self, Write};

/// How many deltas, and trailing bytes, stand in a line.
const IN_A_LINE: usize = 32;

pub fn print_chunk(out: &mut Out, chunk: &Chunk<'_>) -> io::Result<()> {
    let h = chunk.header();
    writeln!(out, "chunk of {} bytes", chunk.bytes().len())?;
    write!(out, "version {:02x} format {:02x} instruction size {}", h.version, h.format, h.instruction_size)?;
    write!(
        out,
        " integer size {} size_t size {} number size {}",
        h.lua_integer_size, h.sizeof_sizet, h.lua_number_size
    )?;
    writeln!(out, " test number {:?}", h.luac_num)?;
    for warning in chunk.warnings() {
        writeln!(out, "{warning}")?;
    }
    writeln!(out, "functions {}", chunk.function_count())?;
    writeln!(out, "padded numbers {}", chunk.padded_numbers())?;
    for function in chunk.functions() {
        print_function(out, &function)?;
    }
    let trailing = chunk.trailing_bytes();
    writeln!(out, "trailing bytes {} at {}", trailing.len(), chunk.trailing_place())?;
    for part in trailing.chunks(IN_A_LINE) {
        write!(out, "   ")?;
        for byte in part {
            write!(out, " {byte:02x}")?;
        }
        writeln!(out)?;
    }
    Ok(())
}

pub fn print_function(out: &mut Out, function: &Function<'_>) -> io::Result<()> {
    let f = function.fields();
    write!(out, "\nfunction {} depth {} parent {}", function.number(), f.depth, f.parent)?;
    writeln!(out, " bytes {} to {}", function.start(), function.end())?;
    // A source stands where it is spelt: however many functions share it, it is printed once.
    match function.source_function() {
        Some(other) if other != function.number() => writeln!(out, "  source of function {other}")?,
        _ => writeln!(out, "  source {}", QuotedIf(f.source))?,
    }
    writeln!(out, "  lines {} to {}", f.line_defined, f.last_line_defined)?;
    writeln!(out, "  parameters {} vararg {} stack {}", f.numparams, f.is_vararg, f.maxstacksize)?;
    print_code(out, function)?;
    print_data(out, function)?;
    print_debug(out, function)
}

fn print_code(out: &mut Out, function: &Function<'_>) -> io::Result<()> {
    writeln!(out, "  instructions {}", function.fields().counts.instructions)?;
    let lines = function.computed_lines().ok();
    for (pc, word) in function.instructions().enumerate() {
        match &lines {
            Some(lines) => write!(out, "    {pc} [{}]", lines[pc])?,
            None => write!(out, "    {pc} [-]")?,
        }
        writeln!(out, " {word:08x} {}", Shown(decode(word)))?;
    }
    Ok(())
}

fn print_data(out: &mut Out, function: &Function<'_>) -> io::Result<()> {
    writeln!(out, "  constants {}", function.fields().counts.constants)?;
    for (entry, constant) in function.constants().enumerate() {
        write!(out, "    {entry} ")?;
        match constant {
            Constant::Nil => writeln!(out, "nil")?,
            Constant::Boolean(value) => writeln!(out, "{value}")?,
            Constant::Integer(value) => writeln!(out, "integer {value}")?,
            Constant::Float(value) => writeln!(out, "float {value:?} {:016x}", value.to_bits())?,
            Constant::ShortString(value) => writeln!(out, "short string {}", Quoted(value))?,
            Constant::LongString(value) => writeln!(out, "long string {}", Quoted(value))?,
        }
    }
    writeln!(out, "  upvalues {}", function.fields().counts.upvalues)?;
    for (entry, upvalue) in function.upvalues().enumerate() {
        writeln!(out, "    {entry} instack {} idx {} kind {}", upvalue.instack, upvalue.idx, upvalue.kind)?;
    }
    writeln!(out, "  nested functions {}", function.fields().counts.protos)
}

fn print_debug(out: &mut Out, function: &Function<'_>) -> io::Result<()> {
    let counts = function.fields().counts;
    writeln!(out, "  deltas {}", counts.line_info)?;
    for (entry, delta) in function.deltas().enumerate() {
        match entry % IN_A_LINE {
            0 => write!(out, "    {delta}")?,
            _ => write!(out, " {delta}")?,
        }
        if entry % IN_A_LINE == IN_A_LINE - 1 || entry + 1 == counts.line_info {
            writeln!(out)?;
        }
    }
    writeln!(out, "  anchors {}", counts.abs_line_info)?;
    for (entry, anchor) in function.anchors().enumerate() {
        writeln!(out, "    {entry} pc {} line {}", anchor.pc, anchor.line)?;
    }
    writeln!(out, "  locals {}", counts.loc_vars)?;
    for (entry, local) in function.locals().enumerate() {
        writeln!(out, "    {entry} {} pc {} to {}", Quoted(local.name), local.startpc, local.endpc)?;
    }
    writeln!(out, "  upvalue names {}", counts.upvalue_names)?;
    for (entry, name) in function.upvalue_names().enumerate() {
        writeln!(out, "    {entry} {}", QuotedIf(name))?;
    }
    Ok(())
}

/// An instruction: its name, and the fields that its mode uses.
struct Shown(Instruction);

impl fmt::Display for Shown {
    fn fmt(&self, f: &mut fmt::Formatter<'_>) -> fmt::Result {
        let i = &self.0;
        let (Some(name), Some(mode)) = (i.name(), i.mode) else {
            return write!(f, "no opcode {}", i.opcode);
        };
        match mode {
            Mode::IABC => write!(f, "{name} A {} k {} B {} C {}", i.a, i.k, i.b, i.c),
            Mode::IABx => write!(f, "{name} A {} Bx {}", i.a, i.bx),
            Mode::IAsBx => write!(f, "{name} A {} sBx {}", i.a, i.sbx),
            Mode::IAx => write!(f, "{name} Ax {}", i.ax),
            Mode::IsJ => write!(f, "{name} sJ {}", i.sj),
        }
    }
}
