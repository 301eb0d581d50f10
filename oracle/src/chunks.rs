// The answer to a chunk: everything that reading shows, then the copy, the verdict, the findings and the lines.
use crate::findings::{put_findings, put_verdict};
use crate::functions::{functions, Function};
use crate::limits::read;
use crate::lines::put_line;
use crate::padded::Padded;
use crate::text::{put, put_str};
use luad_core::limits::ResourceLimits;
use luad_core::model::{Chunk, ConstantValue, LuaString, Prototype};
use luad_dialect_lua54::chunk::encode_chunk_lua54;

pub fn put_chunk(out: &mut String, limits: &ResourceLimits, bytes: &[u8]) {
    let Some(chunk) = read_or_refuse(out, limits, bytes) else {
        return;
    };
    let functions = functions(&chunk.main_proto);
    let padded = Padded::of(bytes, &chunk.main_proto);
    put_summary(out, &chunk, &functions, &padded);
    for (number, function) in functions.iter().enumerate() {
        put_function(out, number, function);
    }
    for (function, code) in functions.iter().zip(&padded.code) {
        put_row(out, function, code);
    }
    put!(out, "copy {}\n", hex::encode(encode_chunk_lua54(&chunk)));
    put_findings(out, &chunk, &functions);
    for (number, function) in functions.iter().enumerate() {
        put_line(out, number, function.proto);
    }
}

/// The answer to `verdict`: the verdict and the number of findings.
pub fn put_verdict_alone(out: &mut String, limits: &ResourceLimits, bytes: &[u8]) {
    if let Some(chunk) = read_or_refuse(out, limits, bytes) {
        put_verdict(out, &chunk);
    }
}

/// The chunk, or none where the refusal is the answer.
fn read_or_refuse(out: &mut String, limits: &ResourceLimits, bytes: &[u8]) -> Option<Chunk> {
    match read(limits, bytes) {
        Ok(chunk) => Some(chunk),
        Err(refusal) => {
            refusal.put(out);
            out.push('\n');
            None
        }
    }
}

/// Header, warnings, number of functions and of padded numbers, trailing bytes.
fn put_summary(out: &mut String, chunk: &Chunk, functions: &[Function], padded: &Padded) {
    let header = &chunk.header;
    put!(out, "header {:02x} {:02x}", header.version, header.format);
    put!(out, " {} {}", header.instruction_size, header.lua_integer_size);
    put!(out, " {} {}", header.sizeof_sizet, header.lua_number_size);
    put!(out, " {} {:016x}\n", header.luac_int, header.luac_num.to_bits());
    put!(out, "warnings {}\n", chunk.diagnostics.len());
    for warning in &chunk.diagnostics {
        let code = warning.code.strip_prefix("L54-").expect("a warning of Lua 5.4");
        let source = warning.source.as_ref().expect("each warning has a place");
        put!(out, "warning {code} {}\n", source.byte_offset);
    }
    put!(out, "functions {}\n", functions.len());
    put!(out, "padded {}\n", padded.sum());
    put!(out, "trailing {} {}\n", functions[0].end, chunk.trailing_bytes.as_deref().unwrap_or("-"));
}

fn put_function(out: &mut String, number: usize, function: &Function) {
    let Function { proto, depth, parent, start, end } = function;
    put!(out, "function {number} depth {depth} parent {parent} start {start} end {end}\nsource ");
    put_string(out, proto.source_name.as_ref());
    put!(out, "\nlines {} {}\n", proto.line_defined, proto.last_line_defined);
    put!(out, "bytes {} {} {}\n", proto.numparams, proto.is_vararg, proto.maxstacksize);
    out.push_str("counts");
    put_counts(out, function);
    out.push('\n');
    put_entries(out, proto);
}

/// The entries of a function's lists, in the grammar's order; nested functions have their own place.
fn put_entries(out: &mut String, proto: &Prototype) {
    for instruction in &proto.instructions {
        put!(out, "i {:08x}\n", instruction.raw_word);
    }
    for constant in &proto.constants {
        put_constant(out, &constant.value);
    }
    for upvalue in &proto.upvalues {
        put!(out, "u {} {} {}\n", upvalue.instack, upvalue.idx, upvalue.kind);
    }
    for delta in &proto.line_info {
        put!(out, "d {}\n", *delta as i8);
    }
    for anchor in &proto.abs_line_info {
        put!(out, "a {} {}\n", anchor.pc, anchor.line);
    }
    for local in &proto.loc_vars {
        out.push_str("l ");
        put_string(out, Some(&local.name));
        put!(out, " {} {}\n", local.startpc, local.endpc);
    }
    for name in &proto.upvalue_names {
        out.push_str("n ");
        put_string(out, name.as_ref());
        out.push('\n');
    }
}

fn put_constant(out: &mut String, value: &ConstantValue) {
    match value {
        ConstantValue::Nil => out.push_str("k nil"),
        ConstantValue::Boolean(value) => put!(out, "k {value}"),
        ConstantValue::Integer { val, .. } => put!(out, "k int {val}"),
        ConstantValue::Float { val, .. } => put!(out, "k float {:016x}", val.to_bits()),
        ConstantValue::ShortString(string) => {
            out.push_str("k short ");
            put_string(out, Some(string));
        }
        ConstantValue::LongString(string) => {
            out.push_str("k long ");
            put_string(out, Some(string));
        }
    }
    out.push('\n');
}

/// A row of the index, with the places where the function's words and its constants begin.
fn put_row(out: &mut String, function: &Function, [words, constants]: &[usize; 2]) {
    let Function { depth, parent, start, end, .. } = function;
    put!(out, "row {start} {end} {depth} {parent}");
    put_counts(out, function);
    put!(out, " {words} {constants}\n");
}

fn put_counts(out: &mut String, function: &Function) {
    for count in function.counts() {
        put!(out, " {count}");
    }
}

fn put_string(out: &mut String, string: Option<&LuaString>) {
    put_str(out, string.map(|string| string.raw_bytes.as_slice()));
}
