//! How far a long run has come, on standard error.
use std::io::{self, IsTerminal, Write};
use std::time::{Duration, Instant};

/// Nothing is told before, nor more often.
const FIRST: Duration = Duration::from_secs(1);
const AGAIN: Duration = Duration::from_millis(200);

/// Told where standard error is a terminal, and standard output is none: there the files' own lines show it.
pub struct Progress {
    files: usize,
    done: usize,
    next: Option<Instant>,
    told: bool,
}

impl Progress {
    pub fn new(files: usize) -> Progress {
        let seen = files > 1 && io::stderr().is_terminal() && !io::stdout().is_terminal();
        Progress { files, done: 0, next: seen.then(|| Instant::now() + FIRST), told: false }
    }

    pub fn one_more(&mut self) {
        self.done += 1;
        let now = Instant::now();
        if self.next.is_some_and(|next| now >= next) {
            self.next = Some(now + AGAIN);
            self.told = true;
            let _ = write!(io::stderr(), "\r{} of {} files", self.done, self.files);
        }
    }

    /// Takes the line away again.
    pub fn ended(&mut self) {
        if self.told {
            let _ = write!(io::stderr(), "\r\x1b[K");
        }
        self.next = None;
    }
}
