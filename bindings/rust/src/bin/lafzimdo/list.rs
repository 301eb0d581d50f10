//! `list`: what chunklist prints, of larger files; of many files a line each.
use crate::command::{Asked, Command};
use crate::file::Out;
use crate::files::{self, Found};
use crate::json::Object;
use crate::json_dump::put_fields;
use crate::trouble::{Name, Trouble};
use lafzimdo::{Chunk, Function, Verdict};
use std::io::{self, Write};

pub const COMMAND: Command = Command {
    name: "list",
    operands: "FILE...",
    short: "a line for the chunk and one for each of its functions; of many files a line each",
    long: "\
Line 1: bytes in the file, functions, trailing bytes, verdict (valid-for-analysis, invalid, incomplete).
Then a line for each function: number, depth, first line, last line, parameters, vararg, stack size,
instructions, constants, upvalues.
Of many files line 1 of each, behind its name.
",
    options: &[files::NAMES, files::FROM, files::JSON],
    run,
};

fn run(asked: &Asked) -> Result<u8, Trouble> {
    files::run(asked, &|chunk| Ok(Box::new(Listed { verdict: chunk.verdict(), chunk })))
}

struct Listed<'a> {
    chunk: Chunk<'a>,
    verdict: Verdict,
}

impl Listed<'_> {
    fn first_line(&self) -> String {
        let (bytes, functions) = (self.chunk.bytes().len(), self.chunk.function_count());
        let trailing = self.chunk.trailing_bytes().len();
        format!("chunk {bytes} functions {functions} trailing {trailing} verdict {}", self.verdict)
    }
}

impl Found for Listed<'_> {
    fn alone(&self, out: &mut Out) -> io::Result<()> {
        writeln!(out, "{}", self.first_line())?;
        for function in self.chunk.functions() {
            let f = function.fields();
            write!(out, "{} {} {} {}", function.number(), f.depth, f.line_defined, f.last_line_defined)?;
            write!(out, " {} {} {}", f.numparams, f.is_vararg, f.maxstacksize)?;
            writeln!(out, " {} {} {}", f.counts.instructions, f.counts.constants, f.counts.upvalues)?;
        }
        Ok(())
    }

    fn among(&self, out: &mut Out, name: &Name<'_>) -> io::Result<()> {
        writeln!(out, "{name}: {}", self.first_line())
    }

    fn json(&self, object: &mut Object<'_>) -> io::Result<()> {
        object.number("bytes", self.chunk.bytes().len())?;
        object.number("trailing", self.chunk.trailing_bytes().len())?;
        object.text("verdict", &self.verdict.to_string())?;
        object.objects("functions", self.chunk.functions(), |object, function: Function<'_>| {
            let counts = function.fields().counts;
            put_fields(object, &function)?;
            object.number("instructions", counts.instructions)?;
            object.number("constants", counts.constants)?;
            object.number("upvalues", counts.upvalues)?;
            object.number("nested", counts.protos)?;
            object.number("deltas", counts.line_info)?;
            object.number("anchors", counts.abs_line_info)?;
            object.number("locals", counts.loc_vars)?;
            object.number("upvalue_names", counts.upvalue_names)
        })
    }
}
