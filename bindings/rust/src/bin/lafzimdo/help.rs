//! The help texts.
use crate::command::{Choice, Command, ALL, EVERY};

const HELP: &str = "\
Options of every command:
  -h, --help    this help
  --            what follows is no option
";

/// Not behind `\`, which would take the blanks away with the line's end.
const LIMITS: &str =
    "  --max-input-bytes N, --max-nesting-depth N, --max-total-prototypes N, --max-instructions-per-proto N,
  --max-total-instructions N, --max-constants-per-proto N, --max-upvalues-per-proto N, --max-string-bytes N,
  --max-diagnostics N
                the limits of reading, each at its ceiling where it is not given: nesting 14,
                diagnostics 10,000, all others 16,777,216. Above a ceiling is refusal 21.

FILE is - for standard input. A file of more than 16,777,216 bytes is refused (22). A pipe that nobody writes
to is waited for, and standard error tells so.
";

const STATUSES: &str = "\
Exit status:
  0  done; of check: valid for analysis
  1  the file, or what was asked of it, is refused; standard error has the number, the place and why
  2  the arguments are wrong
  3  a file cannot be read or written; of many files: not all were looked at, since nobody reads on (| head)
  4  check: invalid
  5  check: incomplete
Of many files each has its line on standard output, also one that is refused or cannot be read; a file does
not stop the others, and the exit status is the worst of theirs: 3, then 1, 4, 5, 0.
";

/// The version, in one line.
pub const VERSION: &str = concat!("lafzimdo ", env!("CARGO_PKG_VERSION"), "\n");

/// What `--json` prints, and its schema.
const JSON: &str = include_str!("json.txt");
const SCHEMA: &str = include_str!("schema.json");

/// The help on what is no command.
pub fn topic(name: &str) -> Option<String> {
    match name {
        "json" => Some(JSON.into()),
        "schema" => Some(SCHEMA.into()),
        _ => None,
    }
}

/// The help on all commands.
pub fn all() -> String {
    let mut text = "Reads compiled Lua 5.4 scripts (chunks).\n\nUsage: lafzimdo COMMAND [OPTION...] ...\n\nCommands:\n"
        .to_string();
    for command in ALL {
        let typed = format!("{} {}", command.name, command.operands);
        text += &format!("  {typed}\n      {}\n", command.short);
    }
    text += "  help [COMMAND]\n      this help, or that on one command\n";
    text += "  help json, help schema\n      what --json prints; its JSON Schema\n\n";
    text + &every() + "`lafzimdo --version` (-V) prints the version.\n\n" + STATUSES
}

/// The help on one command.
pub fn of(command: &Command) -> String {
    let Command { name, operands, short, long, options, .. } = command;
    let mut text = format!("Usage: lafzimdo {name} [OPTION...] {operands}\n\n{name}: {short}.\n\n{long}\n");
    for option in *options {
        text += &line(option);
    }
    format!("{text}\n{}\n{STATUSES}", every())
}

/// The options of every command.
fn every() -> String {
    let choices: String = EVERY.iter().map(|Choice { long, text, .. }| format!("  {long:<13} {text}\n")).collect();
    format!("{HELP}{choices}{LIMITS}")
}

/// `  -f, --force   what it does`.
fn line(option: &Choice) -> String {
    let Choice { short, long, value, text } = option;
    let short = if short.is_empty() { "   ".to_string() } else { format!("{short},") };
    let names = format!("{short} {long} {value}");
    format!("  {:<22} {text}\n", names.trim_end())
}
