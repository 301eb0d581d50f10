//! What a command is, and what was asked of it. A new command is a module with a `COMMAND`, and a line in `ALL`.
use crate::file::Input;
use crate::trouble::Trouble;
use crate::{check, copy, dump, lines, list, sweep};
use lafzimdo::Limits;
use std::ffi::{OsStr, OsString};
use std::str::FromStr;

pub const ALL: [&Command; 6] =
    [&list::COMMAND, &dump::COMMAND, &copy::COMMAND, &check::COMMAND, &lines::COMMAND, &sweep::COMMAND];

pub struct Command {
    pub name: &'static str,
    /// What is typed behind the options.
    pub operands: &'static str,
    /// What it does, in a line.
    pub short: &'static str,
    pub long: &'static str,
    /// Its own options; `EVERY`, limits, `--help` and `--` are every command's.
    pub options: &'static [Choice],
    /// Does what is asked, and gives the exit status.
    pub run: fn(&Asked) -> Result<u8, Trouble>,
}

/// An option: its short name or nothing, its long one, what its value is or nothing, and what it does.
pub struct Choice {
    pub short: &'static str,
    pub long: &'static str,
    pub value: &'static str,
    pub text: &'static str,
}

/// The options of every command.
pub const EVERY: [Choice; 1] = [STRICT];

const STRICT: Choice = Choice {
    short: "",
    long: "--strict",
    value: "",
    text: "read as Lua's own loader reads; what it would object to is refused (31, 32, 33)",
};

/// What a command is asked: its options, the limits, and what is left.
pub struct Asked {
    pub command: &'static Command,
    pub limits: Limits,
    /// The options given, by their long names, with their values.
    pub given: Vec<(&'static str, OsString)>,
    pub operands: Vec<OsString>,
}

impl Asked {
    /// Whether an option, by its long name, was given.
    pub fn has(&self, option: &str) -> bool {
        self.value(option).is_some()
    }

    /// Its value: the last, where it was given more than once.
    pub fn value(&self, option: &str) -> Option<&OsStr> {
        self.given.iter().rev().find(|(name, _)| *name == option).map(|(_, value)| value.as_os_str())
    }

    /// Its value, a number.
    pub fn number<T: FromStr>(&self, option: &str) -> Result<Option<T>, Trouble> {
        self.value(option).map(|value| number(value, option)).transpose()
    }

    /// The file of a name, as it is to be read.
    pub fn input(&self, name: &OsStr) -> Input {
        Input { name: name.into(), limits: self.limits, strict: self.has(STRICT.long) }
    }

    /// That there are too few or too many operands.
    pub fn wrong(&self) -> Trouble {
        let Command { name, operands, .. } = self.command;
        Trouble::Usage(format!("{name} takes {operands}, and {} arguments were given", self.operands.len()))
    }
}

/// A decimal number of 64 bits.
pub fn number<T: FromStr>(text: &OsStr, what: &str) -> Result<T, Trouble> {
    let digits = text.to_str().filter(|digits| digits.bytes().all(|digit| digit.is_ascii_digit()));
    match digits.and_then(|digits| digits.parse().ok()) {
        Some(number) => Ok(number),
        None => {
            let what = format!("{what} is a number from 0 to 18446744073709551615, not {text:?}");
            Err(Trouble::Usage(what))
        }
    }
}
