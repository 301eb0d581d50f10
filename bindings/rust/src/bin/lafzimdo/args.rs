//! The arguments.
use crate::command::{number, Asked, Choice, Command, ALL, EVERY};
use crate::help;
use crate::trouble::Trouble;
use crate::visible::Visible;
use lafzimdo::Limits;
use std::ffi::{OsStr, OsString};

/// What is asked for.
pub enum Request {
    Help(String),
    Run(Asked),
}

/// The options of the limits, in the order of `Limits`.
const LIMITS: [&str; 9] = [
    "--max-input-bytes",
    "--max-nesting-depth",
    "--max-total-prototypes",
    "--max-instructions-per-proto",
    "--max-total-instructions",
    "--max-constants-per-proto",
    "--max-upvalues-per-proto",
    "--max-string-bytes",
    "--max-diagnostics",
];

fn usage<T>(what: String) -> Result<T, Trouble> {
    Err(Trouble::Usage(what))
}

pub fn parsed(arguments: Vec<OsString>) -> Result<Request, Trouble> {
    let mut arguments = arguments.into_iter();
    let Some(first) = arguments.next() else {
        return usage("a command is missing".into());
    };
    match first.to_str() {
        Some("-h" | "--help") => Ok(Request::Help(help::all())),
        Some("-V" | "--version") => Ok(Request::Help(help::VERSION.into())),
        Some("help") => match arguments.next() {
            None => Ok(Request::Help(help::all())),
            Some(name) if name == "-h" || name == "--help" => Ok(Request::Help(help::all())),
            Some(name) => help_on(&name),
        },
        _ => asked(command(&first)?, arguments),
    }
}

fn command(name: &OsStr) -> Result<&'static Command, Trouble> {
    match ALL.into_iter().find(|command| name == command.name) {
        Some(command) => Ok(command),
        None => usage(format!("there is no command {name:?}")),
    }
}

fn help_on(name: &OsStr) -> Result<Request, Trouble> {
    match name.to_str().and_then(help::topic) {
        Some(text) => Ok(Request::Help(text)),
        None => command(name).map(|command| Request::Help(help::of(command))),
    }
}

/// The options of a command, and what is left.
fn asked(command: &'static Command, mut arguments: impl Iterator<Item = OsString>) -> Result<Request, Trouble> {
    let mut limits = Limits::ceilings().numbers();
    let (mut given, mut operands, mut help) = (Vec::new(), Vec::new(), false);
    while let Some(argument) = arguments.next() {
        let text = argument.to_string_lossy();
        match text.as_ref() {
            "--" => operands.extend(arguments.by_ref()),
            "-h" | "--help" => help = true,
            option if option.len() > 1 && option.starts_with('-') => {
                let (name, mut value) = split(option, &argument);
                if let Some(at) = LIMITS.iter().position(|limit| *limit == name) {
                    limits[at] = number(&needed(name, "a number", value, &mut arguments)?, name)?;
                } else if let Some(choice) = choice(command, name) {
                    if !choice.value.is_empty() {
                        value = Some(needed(name, choice.value, value, &mut arguments)?);
                    } else if value.is_some() {
                        return usage(format!("{name} takes no value"));
                    }
                    given.push((choice.long, value.unwrap_or_default()));
                } else {
                    return usage(format!("there is no option {}", Visible(name)));
                }
            }
            _ => operands.push(argument),
        }
    }
    if help {
        return Ok(Request::Help(help::of(command)));
    }
    Ok(Request::Run(Asked { command, limits: Limits::of_numbers(limits), given, operands }))
}

/// The name of an option, and the value that stands behind its `=`.
fn split<'a>(option: &'a str, argument: &OsStr) -> (&'a str, Option<OsString>) {
    match option.split_once('=') {
        Some((name, value)) => (name, Some(bytes_behind(argument, name).unwrap_or_else(|| value.into()))),
        None => (option, None),
    }
}

/// The value as it was typed, also where it is no UTF-8: a name of a file may be such.
#[cfg(unix)]
fn bytes_behind(argument: &OsStr, name: &str) -> Option<OsString> {
    use std::os::unix::ffi::OsStrExt;
    argument.as_bytes().get(name.len() + 1..).map(|bytes| OsStr::from_bytes(bytes).into())
}

#[cfg(not(unix))]
fn bytes_behind(_: &OsStr, _: &str) -> Option<OsString> {
    None
}

/// The value behind `=`, or the next argument.
fn needed(
    name: &str,
    what: &str,
    value: Option<OsString>,
    arguments: &mut impl Iterator<Item = OsString>,
) -> Result<OsString, Trouble> {
    match value.or_else(|| arguments.next()) {
        Some(value) => Ok(value),
        None => usage(format!("{name} needs {what}")),
    }
}

fn choice(command: &Command, name: &str) -> Option<&'static Choice> {
    let mut choices = command.options.iter().chain(&EVERY);
    choices.find(|choice| name == choice.long || (!name.is_empty() && name == choice.short))
}
