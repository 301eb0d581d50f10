//! `sweep`: the lines of a sweep log, a list of pcs.
use crate::command::{number, Asked, Command};
use crate::file::{out, Out};
use crate::open::open;
use crate::trouble::{printed, Trouble};
use lafzimdo::Lines;
use std::ffi::OsString;
use std::io::{self, Read, Write};

pub const COMMAND: Command = Command {
    name: "sweep",
    operands: "FILE FUNCTION LOG",
    short: "the lines of a sweep log, a list of pcs that never falls",
    long: "\
LOG holds a PC in each line, in decimal, none below the one before it; it is - for standard input, if FILE
is not. Prints each PC and its line in the source, in the order of LOG, and last `deltas N`: how many of
the function's line deltas were read for them, each once. One proved call, a pass over the file.
Refused with 29 where the pcs of the function's anchors do not rise strictly (`lines` answers there), with
30 where a PC is below the one before it. Blank lines of LOG are passed over.
",
    options: &[],
    run,
};

fn run(asked: &Asked) -> Result<u8, Trouble> {
    let [name, function, log] = &asked.operands[..] else {
        return Err(asked.wrong());
    };
    if name == "-" && log == "-" {
        return Err(Trouble::Usage("FILE and LOG cannot both be standard input".into()));
    }
    let function: usize = number(function, "FUNCTION")?;
    let (pcs, input) = (pcs(log)?, asked.input(name));
    let bytes = input.bytes()?;
    let chunk = input.chunk(&bytes)?;
    let lines = chunk.lines(function, &pcs).map_err(|refusal| input.refused(refusal))?;
    printed(print(&mut out(), &pcs, &lines))?;
    Ok(0)
}

/// The pcs of the log, one in each line.
fn pcs(log: &OsString) -> Result<Vec<u64>, Trouble> {
    let (name, text) = if log == "-" {
        let mut text = String::new();
        ("standard input".into(), io::stdin().lock().read_to_string(&mut text).map(|_| text))
    } else {
        (log.clone(), open(log).and_then(io::read_to_string))
    };
    text.and_then(|text| numbers(&text)).map_err(|error| Trouble::File(name, error))
}

/// A decimal number of 64 bits in each line that is not blank.
fn numbers(text: &str) -> io::Result<Vec<u64>> {
    let lines = text.lines().map(str::trim).enumerate().filter(|(_, line)| !line.is_empty());
    let number = |(at, line): (usize, &str)| {
        let digits = Some(line).filter(|line| line.bytes().all(|digit| digit.is_ascii_digit()));
        digits.and_then(|digits| digits.parse().ok()).ok_or_else(|| {
            let why = format!("line {} is no number from 0 to 18446744073709551615: {line:.40?}", at + 1);
            io::Error::new(io::ErrorKind::InvalidData, why)
        })
    };
    lines.map(number).collect()
}

fn print(out: &mut Out, pcs: &[u64], lines: &Lines) -> io::Result<()> {
    for (pc, line) in pcs.iter().zip(&lines.lines) {
        writeln!(out, "{pc} {line}")?;
    }
    writeln!(out, "deltas {}", lines.deltas_read)?;
    out.flush()
}

#[cfg(test)]
mod tests {
    use super::*;

    #[test]
    fn a_pc_in_each_line() {
        assert_eq!(numbers("0\n 7\r\n\n18446744073709551615").unwrap(), [0, 7, u64::MAX]);
        assert_eq!(numbers("").unwrap(), []);
        for wrong in ["1\n-1", "1\n+1", "1\n1 2", "1\n18446744073709551616", "1\nx"] {
            assert!(numbers(wrong).unwrap_err().to_string().starts_with("line 2 "), "{wrong:?}");
        }
    }
}
