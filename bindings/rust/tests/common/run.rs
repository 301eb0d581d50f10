//! Runs the program.
use lafzimdo::Limits;
use std::fs;
use std::io::Write;
use std::path::PathBuf;
use std::process::{Command, Stdio};

/// What came of a run.
pub struct Ran {
    pub status: i32,
    pub stdout: Vec<u8>,
    pub stderr: String,
}

impl Ran {
    /// Standard output as text, of a run with this status and nothing on standard error.
    #[track_caller]
    pub fn text(&self, status: i32) -> &str {
        assert_eq!((self.status, self.stderr.as_str()), (status, ""));
        std::str::from_utf8(&self.stdout).unwrap()
    }

    /// That it ended with this status, printed nothing, and said this on standard error.
    #[track_caller]
    pub fn says(&self, status: i32, part: &str) {
        assert_eq!((self.status, self.stdout.len()), (status, 0), "{}", self.stderr);
        assert!(self.stderr.starts_with("lafzimdo: ") && self.stderr.contains(part), "{}", self.stderr);
    }
}

pub fn program() -> Command {
    Command::new(env!("CARGO_BIN_EXE_lafzimdo"))
}

/// With these arguments and this standard input.
pub fn run_on(arguments: &[&str], input: &[u8]) -> Ran {
    let piped = program().args(arguments).stdin(Stdio::piped()).stdout(Stdio::piped()).stderr(Stdio::piped()).spawn();
    let mut child = piped.unwrap();
    let mut stdin = child.stdin.take().unwrap();
    let input = input.to_vec();
    // By a thread, so that neither waits for the other; the program need not read all of it.
    let writer = std::thread::spawn(move || drop(stdin.write_all(&input)));
    let output = child.wait_with_output().unwrap();
    writer.join().unwrap();
    let status = output.status.code().expect("not ended by a signal");
    Ran { status, stdout: output.stdout, stderr: String::from_utf8(output.stderr).unwrap() }
}

pub fn run(arguments: &[&str]) -> Ran {
    run_on(arguments, b"")
}

/// A standard output that nobody reads.
pub fn unread() -> Stdio {
    let mut reader = Command::new("true").stdin(Stdio::piped()).spawn().unwrap();
    let pipe = reader.stdin.take().unwrap();
    reader.wait().unwrap();
    pipe.into()
}

/// The options of limits.
pub fn options(limits: &Limits) -> Vec<String> {
    let names = [
        "input-bytes",
        "nesting-depth",
        "total-prototypes",
        "instructions-per-proto",
        "total-instructions",
        "constants-per-proto",
        "upvalues-per-proto",
        "string-bytes",
        "diagnostics",
    ];
    names.iter().zip(limits.numbers()).map(|(name, number)| format!("--max-{name}={number}")).collect()
}

/// A command, with its options, on a chunk under limits, from standard input.
pub fn run_under(command: &str, limits: &Limits, chunk: &[u8]) -> Ran {
    let options = options(limits);
    let mut arguments: Vec<&str> = command.split(' ').collect();
    arguments.push("-");
    arguments.extend(options.iter().map(String::as_str));
    run_on(&arguments, chunk)
}

/// A fresh name of a file for a test.
pub fn fresh(name: &str) -> PathBuf {
    let path = PathBuf::from(env!("CARGO_TARGET_TMPDIR")).join(name);
    let _ = fs::remove_file(&path);
    path
}
