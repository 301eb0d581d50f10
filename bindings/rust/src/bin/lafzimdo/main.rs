//! The command-line program: lists, dumps, copies and checks compiled Lua 5.4 scripts, and tells the lines of their instructions, of one or of a whole sweep log.
#![deny(unsafe_code)]
use args::Request;
use std::env;
use std::io::{self, Write};
use std::process::ExitCode;
use trouble::{printed, Trouble};

mod args;
mod beside;
mod check;
mod code;
mod command;
mod copy;
mod dump;
mod file;
mod files;
mod help;
mod json;
mod json_dump;
mod lines;
mod list;
mod listing;
mod luac;
mod luac_text;
mod names;
mod open;
mod progress;
mod quoted;
mod raw;
mod sweep;
mod trouble;
mod visible;
mod whole;

fn main() -> ExitCode {
    match run() {
        Ok(status) => ExitCode::from(status),
        Err(trouble) => {
            // Nothing is left to be done where standard error is closed too.
            let _ = writeln!(io::stderr(), "lafzimdo: {trouble}");
            ExitCode::from(trouble.status())
        }
    }
}

/// Does what is asked, and gives the exit status.
fn run() -> Result<u8, Trouble> {
    let arguments = env::args_os().skip(1).collect();
    match args::parsed(arguments)? {
        Request::Help(text) => printed(write!(io::stdout(), "{text}")).map(|()| 0),
        Request::Run(asked) => (asked.command.run)(&asked),
    }
}
