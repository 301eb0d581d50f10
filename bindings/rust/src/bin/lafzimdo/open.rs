//! Opens the files that a user names. A pipe can be opened when somebody has its other end, which may be never: then it
//! is said what the run waits for.
use crate::trouble::Name;
use std::ffi::OsStr;
use std::fs::{File, OpenOptions};
use std::io::{self, Write};
use std::sync::mpsc::{self, RecvTimeoutError};
use std::thread;
use std::time::Duration;

/// Nothing is said before.
const LONG: Duration = Duration::from_secs(1);

pub fn open(name: &OsStr) -> io::Result<File> {
    waited_for(name, "writes to", || File::open(name))
}

/// A pipe or a device that is there, to write to it. None is made.
pub fn open_to_write(name: &OsStr) -> io::Result<File> {
    waited_for(name, "reads from", || OpenOptions::new().write(true).open(name))
}

/// Opens a file, and says after a while, of a pipe, what nobody does.
fn waited_for(name: &OsStr, what: &str, open: impl FnOnce() -> io::Result<File>) -> io::Result<File> {
    if !is_pipe(name) {
        return open();
    }
    let (opened, wait) = mpsc::channel::<()>();
    thread::scope(|scope| {
        // Where there is no thread to be had nothing is said.
        let _ = thread::Builder::new().spawn_scoped(scope, move || {
            if wait.recv_timeout(LONG) == Err(RecvTimeoutError::Timeout) {
                say_that_it_waits(name, what);
            }
        });
        let file = open();
        drop(opened);
        file
    })
}

fn say_that_it_waits(name: &OsStr, what: &str) {
    let _ = writeln!(io::stderr(), "lafzimdo: {}: a pipe that nobody {what} yet; waiting", Name(name));
}

/// One with a name: the pipes of a shell, also as /dev/stdin, are open already.
#[cfg(unix)]
fn is_pipe(name: &OsStr) -> bool {
    use std::os::unix::fs::FileTypeExt;
    std::fs::metadata(name).is_ok_and(|found| found.file_type().is_fifo())
}

#[cfg(not(unix))]
fn is_pipe(_: &OsStr) -> bool {
    false
}
