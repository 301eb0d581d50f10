//! `lines`: the lines of instructions.
use crate::command::{number, Asked, Command};
use crate::file::Out;
use crate::files::{self, Found};
use crate::json::Object;
use crate::trouble::{Name, Trouble};
use lafzimdo::{Chunk, Refusal};
use std::ffi::OsString;
use std::io::{self, Write};

pub const COMMAND: Command = Command {
    name: "lines",
    operands: "FILE FUNCTION [PC...]",
    short: "the lines of instructions",
    long: "\
A line for each PC: the PC and its line in the source. Any PC may be asked, also one without an instruction.
Each PC given is asked of the proved library and costs a pass over the file. Without a PC the lines of all
instructions of the function are printed, by one proved call; only where the pcs of the function's anchors
do not rise are they computed by this program, by the same rules, and tested against the library.
",
    options: &[files::JSON],
    run,
};

fn run(asked: &Asked) -> Result<u8, Trouble> {
    let [name, function, pcs @ ..] = &asked.operands[..] else {
        return Err(asked.wrong());
    };
    let function: usize = number(function, "FUNCTION")?;
    let pcs: Vec<usize> = pcs.iter().map(|pc: &OsString| number(pc, "PC")).collect::<Result<_, _>>()?;
    files::run_on(asked, std::slice::from_ref(name), &|chunk| {
        let lines = if pcs.is_empty() { of_all(&chunk, function) } else { of_each(&chunk, function, &pcs) };
        Ok(Box::new(Lines { function, lines: lines? }))
    })
}

fn of_all(chunk: &Chunk<'_>, function: usize) -> Result<Vec<(usize, u64)>, Refusal> {
    Ok(chunk.function(function)?.lines()?.into_iter().enumerate().collect())
}

fn of_each(chunk: &Chunk<'_>, function: usize, pcs: &[usize]) -> Result<Vec<(usize, u64)>, Refusal> {
    pcs.iter().map(|&pc| Ok((pc, chunk.line(function, pc)?))).collect()
}

/// The pcs of a function, each with its line.
pub struct Lines {
    function: usize,
    lines: Vec<(usize, u64)>,
}

impl Found for Lines {
    fn alone(&self, out: &mut Out) -> io::Result<()> {
        for (pc, line) in &self.lines {
            writeln!(out, "{pc} {line}")?;
        }
        Ok(())
    }

    fn among(&self, out: &mut Out, _: &Name<'_>) -> io::Result<()> {
        self.alone(out)
    }

    fn json(&self, object: &mut Object<'_>) -> io::Result<()> {
        object.number("function", self.function)?;
        object.objects("lines", &self.lines, |object, (pc, line)| {
            object.number("pc", *pc)?;
            object.number("line", *line)
        })
    }
}
