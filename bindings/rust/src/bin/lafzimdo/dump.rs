//! `dump`: what a chunk holds, as a listing that can be read; or as luac lists it, or entry by entry, or as JSON.
use crate::command::{Asked, Choice, Command};
use crate::file::Out;
use crate::files::{self, Found};
use crate::json::Object;
use crate::trouble::{Name, Trouble};
use crate::{json_dump, listing, luac, raw};
use lafzimdo::{Chunk, Function};
use std::io::{self, Write};

pub const COMMAND: Command = Command {
    name: "dump",
    operands: "FILE...",
    short: "what the chunk holds, as a listing that can be read",
    long: "\
Of each function its code and its constants, upvalues, local variables and nested functions.
An instruction is shown with its number (pc, from 0), its line in brackets (- where there is none: a
stripped script, or lines too large to be told), its name, and those operands that its opcode has: R and
a number is a register, K a constant, U an upvalue, k the bit k; other numbers stand for themselves, with
their sign. Behind ; stands what they are at that pc: R7=is_peak is the local variable that lives there in
register 7 (of a register that is set also the one that lives from the next pc on), K17=\"recentre\" a
constant, U0=_ENV an upvalue's name; 'to 68' where it jumps to, '2 in, 1 out' what is called with how
many values. L68: stands before an instruction that others jump to.
Strings are quoted, with \\n, \\\" and the like, and \\xNN for all that is not printable ASCII; behind ; a long
one is cut, and its length told.
With --luac a string of more than 200 characters is cut behind ;, and so is the source in the heading of a
function that has it from the one around it: luac prints them whole each time.
With --raw a float is followed by its bits; a function that has its source from one around it tells which.
Of many files each has its name before it.
",
    options: &[FUNCTION, RAW, LUAC, files::JSON, files::FROM],
    run,
};

const FUNCTION: Choice =
    Choice { short: "", long: "--function", value: "N", text: "the function of that number alone; main is 0" };
const RAW: Choice = Choice {
    short: "",
    long: "--raw",
    value: "",
    text: "every entry of every list as it is stored, and trailing bytes",
};
const LUAC: Choice = Choice {
    short: "",
    long: "--luac",
    value: "",
    text: "as luac5.4 -l -l lists it: pcs from 1; for an address a place in the file",
};

/// In which form.
#[derive(Clone, Copy)]
enum Form {
    Listing,
    Raw,
    Luac,
}

fn run(asked: &Asked) -> Result<u8, Trouble> {
    let only: Option<usize> = asked.number(FUNCTION.long)?;
    let form = match (asked.has(RAW.long), asked.has(LUAC.long), asked.has(files::JSON.long)) {
        (false, false, _) => Form::Listing,
        (true, false, false) => Form::Raw,
        (false, true, false) => Form::Luac,
        _ => return Err(Trouble::Usage("of --raw, --luac and --json only one may be given".into())),
    };
    files::run(asked, &|chunk| {
        let only = only.map(|function| chunk.function(function)).transpose()?;
        Ok(Box::new(Dumped { chunk, only, form }))
    })
}

struct Dumped<'a> {
    chunk: Chunk<'a>,
    only: Option<Function<'a>>,
    form: Form,
}

impl Found for Dumped<'_> {
    fn alone(&self, out: &mut Out) -> io::Result<()> {
        match (self.form, &self.only) {
            (Form::Listing, None) => listing::print_chunk(out, &self.chunk),
            (Form::Listing, Some(function)) => listing::print_alone(out, function.clone()),
            (Form::Raw, None) => raw::print_chunk(out, &self.chunk),
            (Form::Raw, Some(function)) => raw::print_function(out, function),
            (Form::Luac, None) => luac::print_chunk(out, &self.chunk),
            (Form::Luac, Some(function)) => luac::print_function(out, function.clone()),
        }
    }

    fn among(&self, out: &mut Out, name: &Name<'_>) -> io::Result<()> {
        writeln!(out, "==> {name} <==")?;
        self.alone(out)?;
        writeln!(out)
    }

    fn json(&self, object: &mut Object<'_>) -> io::Result<()> {
        json_dump::put(object, &self.chunk, self.only.as_ref())
    }
}
