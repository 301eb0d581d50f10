//! Everything that a chunk holds, as JSON.
use crate::code::Code;
use crate::json::Object;
use lafzimdo::{decode, Chunk, Constant, Function, Warning};
use std::io;

/// The chunk, with all of its functions or one.
pub fn put(object: &mut Object<'_>, chunk: &Chunk<'_>, only: Option<&Function<'_>>) -> io::Result<()> {
    let header = *chunk.header();
    object.number("bytes", chunk.bytes().len())?;
    object.object("header", |object| {
        object.number("version", header.version)?;
        object.number("format", header.format)?;
        object.number("instruction_size", header.instruction_size)?;
        object.number("lua_integer_size", header.lua_integer_size)?;
        object.number("lua_number_size", header.lua_number_size)?;
        object.float("luac_num", header.luac_num)
    })?;
    put_warnings(object, chunk)?;
    object.number("padded_numbers", chunk.padded_numbers())?;
    object.number("trailing_place", chunk.trailing_place())?;
    object.bytes("trailing_bytes", Some(chunk.trailing_bytes()))?;
    object.number("function_count", chunk.function_count())?;
    match only {
        Some(function) => object.objects("functions", [function.clone()], put_alone),
        None => object.objects("functions", chunk.functions(), put_function),
    }
}

/// What was unusual in reading it.
pub fn put_warnings(object: &mut Object<'_>, chunk: &Chunk<'_>) -> io::Result<()> {
    object.objects("warnings", chunk.warnings(), |object, warning: Warning| {
        object.text("code", warning.code())?;
        object.number("place", warning.place())?;
        object.text("why", warning.why())
    })
}

/// The function whose object has the source of this one: that which spells it, or main, where none does.
pub fn source_of(function: &Function<'_>) -> usize {
    function.source_function().unwrap_or(0)
}

/// The fields that `list` shows too. A source stands only in the function that spells it: however many share it, it is
/// printed once.
pub fn put_fields(object: &mut Object<'_>, function: &Function<'_>) -> io::Result<()> {
    let f = function.fields();
    object.number("number", function.number())?;
    object.number("depth", f.depth)?;
    object.number("parent", f.parent)?;
    match source_of(function) {
        own if own == function.number() => object.bytes("source", f.source)?,
        other => object.number("source_of", other)?,
    }
    object.number("line_defined", f.line_defined)?;
    object.number("last_line_defined", f.last_line_defined)?;
    object.number("numparams", f.numparams)?;
    object.number("is_vararg", f.is_vararg)?;
    object.number("maxstacksize", f.maxstacksize)
}

/// A function by itself: the one that spells its source is not there, so that the source is.
fn put_alone(object: &mut Object<'_>, function: Function<'_>) -> io::Result<()> {
    let (source, shared) = (function.source(), source_of(&function) != function.number());
    put_function(object, function)?;
    match shared {
        true => object.bytes("source", source),
        false => Ok(()),
    }
}

fn put_function(object: &mut Object<'_>, function: Function<'_>) -> io::Result<()> {
    put_fields(object, &function)?;
    object.number("start", function.start())?;
    object.number("end", function.end())?;
    let code = Code::new(function);
    object.objects("instructions", 0..code.words.len(), |object, pc| put_instruction(object, &code, pc))?;
    object.objects("constants", &code.constants, put_constant)?;
    object.objects("upvalues", code.function.upvalues(), |object, upvalue| {
        object.number("instack", upvalue.instack)?;
        object.number("idx", upvalue.idx)?;
        object.number("kind", upvalue.kind)
    })?;
    object.numbers("nested", code.nested.iter().map(|nested| nested.number))?;
    object.numbers("deltas", code.function.deltas())?;
    object.objects("anchors", code.function.anchors(), |object, anchor| {
        object.number("pc", anchor.pc)?;
        object.number("line", anchor.line)
    })?;
    object.objects("locals", code.function.locals(), |object, local| {
        object.bytes("name", Some(local.name))?;
        object.number("startpc", local.startpc)?;
        object.number("endpc", local.endpc)
    })?;
    object.strings("upvalue_names", code.function.upvalue_names())
}

fn put_instruction(object: &mut Object<'_>, code: &Code<'_>, pc: usize) -> io::Result<()> {
    let word = code.words[pc];
    let instruction = decode(word);
    object.number("pc", pc)?;
    object.number_if("line", code.line(pc))?;
    object.number("word", word)?;
    object.number("opcode", instruction.opcode)?;
    match instruction.name() {
        Some(name) => object.text("name", name)?,
        None => object.null("name")?,
    }
    object.objects("operands", instruction.operands(), |object, operand| {
        object.text("field", operand.field.name())?;
        object.text("kind", operand.kind.name())?;
        object.number("value", operand.value)
    })?;
    match instruction.jump_target(pc) {
        Some(target) => object.number("to", target),
        None => Ok(()),
    }
}

fn put_constant(object: &mut Object<'_>, constant: &Constant<'_>) -> io::Result<()> {
    match constant {
        Constant::Nil => object.text("type", "nil"),
        Constant::Boolean(value) => {
            object.text("type", "boolean")?;
            object.truth("value", *value)
        }
        Constant::Integer(value) => {
            object.text("type", "integer")?;
            object.number("value", *value)
        }
        Constant::Float(value) => {
            object.text("type", "float")?;
            object.float("value", *value)?;
            object.text("bits", &format!("{:016x}", value.to_bits()))
        }
        Constant::ShortString(value) => {
            object.text("type", "short string")?;
            object.bytes("value", Some(value))
        }
        Constant::LongString(value) => {
            object.text("type", "long string")?;
            object.bytes("value", Some(value))
        }
    }
}
