//! Work on files: one by itself, or many in a run. Of many each has its line, a file that is refused does not stop the
//! others, and the exit status is the worst.
use crate::command::{Asked, Choice};
use crate::file::{out, Input, Out};
use crate::json::Object;
use crate::open::open;
use crate::progress::Progress;
use crate::trouble::{printed, worse, Name, Trouble, FILE};
use lafzimdo::{Chunk, Refusal};
use std::ffi::{OsStr, OsString};
use std::io::{self, Read, Write};

pub const JSON: Choice =
    Choice { short: "", long: "--json", value: "", text: "one JSON object a file, in a line ('lafzimdo help json')" };
pub const NAMES: Choice =
    Choice { short: "-H", long: "--names", value: "", text: "the form of many files, also where there is one" };
pub const FROM: Choice = Choice {
    short: "",
    long: "--files-from",
    value: "LIST",
    text: "also the files that LIST names, a line or a NUL each; - is standard input",
};

/// What a command has found in a chunk. All that may be refused has been asked.
pub trait Found {
    /// Shows it, of a file by itself.
    fn alone(&self, out: &mut Out) -> io::Result<()>;

    /// Shows it among many files, with the file's name.
    fn among(&self, out: &mut Out, name: &Name<'_>) -> io::Result<()>;

    /// Puts it into the file's JSON object.
    fn json(&self, object: &mut Object<'_>) -> io::Result<()>;

    /// The exit status.
    fn status(&self) -> u8 {
        0
    }
}

/// Finds in a chunk what a command is to show.
pub type Find<'f> = &'f dyn for<'a> Fn(Chunk<'a>) -> Result<Box<dyn Found + 'a>, Refusal>;

/// Finds and shows, in each file that the operands name.
pub fn run(asked: &Asked, find: Find<'_>) -> Result<u8, Trouble> {
    run_on(asked, &names(asked)?, find)
}

/// The same, in these files.
pub fn run_on(asked: &Asked, names: &[OsString], find: Find<'_>) -> Result<u8, Trouble> {
    if asked.has(JSON.long) {
        return each(asked, names, Unread::Stop, |out, input| find_in(input, find, |found| as_json(out, input, found)));
    }
    if let ([name], false) = (names, asked.has(NAMES.long) || asked.has(FROM.long)) {
        return alone(&asked.input(name), find, asked.has("--quiet"));
    }
    let quiet = asked.has("--quiet");
    each(asked, names, Unread::Stop, |out, input| find_in(input, find, |found| as_line(out, input, found, quiet)))
}

fn alone(input: &Input, find: Find<'_>, quiet: bool) -> Result<u8, Trouble> {
    find_in(input, find, |found| {
        let found = found?;
        if !quiet {
            let mut out = out();
            printed(found.alone(&mut out).and_then(|()| out.flush()))?;
        }
        Ok(found.status())
    })
}

/// The exit status of a file, and whether its line could be written.
pub type Told = (u8, io::Result<()>);

fn as_line(out: &mut Out, input: &Input, found: Result<&dyn Found, Trouble>, quiet: bool) -> Told {
    match found {
        Ok(found) if quiet => (found.status(), Ok(())),
        Ok(found) => (found.status(), found.among(out, &Name(&input.shown()))),
        Err(trouble) => told(out, &trouble, quiet),
    }
}

/// The line of a file that came to nothing: it stands among those of the others. Where nothing is to be printed it goes
/// to standard error.
pub fn told(out: &mut Out, trouble: &Trouble, quiet: bool) -> Told {
    if quiet {
        let _ = writeln!(io::stderr(), "lafzimdo: {trouble}");
        return (trouble.status(), Ok(()));
    }
    (trouble.status(), writeln!(out, "{trouble}"))
}

fn as_json(out: &mut Out, input: &Input, found: Result<&dyn Found, Trouble>) -> Told {
    let status = match &found {
        Ok(found) => found.status(),
        Err(trouble) => trouble.status(),
    };
    let written = Object::line(out, |object| {
        object.bytes("file", Some(input.name.as_encoded_bytes()))?;
        object.number("status", status)?;
        match found {
            Ok(found) => found.json(object),
            Err(Trouble::Refused(_, refusal)) => object.object("refused", |object| {
                object.number("number", refusal.number())?;
                object.number_if("place", refusal.place())?;
                object.text("why", refusal.why())
            }),
            Err(Trouble::File(_, error)) => object.text("error", &error.to_string()),
            Err(other) => object.text("error", &other.to_string()),
        }
    });
    (status, written)
}

/// Reads a file, finds what is sought, and hands it on, or what went wrong.
fn find_in<T>(input: &Input, find: Find<'_>, then: impl FnOnce(Result<&dyn Found, Trouble>) -> T) -> T {
    let bytes = match input.bytes() {
        Ok(bytes) => bytes,
        Err(trouble) => return then(Err(trouble)),
    };
    let found = input.chunk(&bytes).and_then(|chunk| find(chunk).map_err(|refusal| input.refused(refusal)));
    match found {
        Ok(found) => then(Ok(found.as_ref())),
        Err(trouble) => then(Err(trouble)),
    }
}

/// What becomes of a run whose standard output cannot be written: one that only shows stops, one that copies goes on.
#[derive(Clone, Copy, PartialEq)]
pub enum Unread {
    Stop,
    GoOn,
}

/// Works on each file in turn, whatever came of the others, and gives the worst of their exit statuses, or that
/// standard output could not be written. A file that was not looked at, since nobody reads on, is as bad as one that
/// cannot be read.
pub fn each(
    asked: &Asked,
    names: &[OsString],
    unread: Unread,
    mut work: impl FnMut(&mut Out, &Input) -> Told,
) -> Result<u8, Trouble> {
    let (mut out, mut progress, mut worst, mut all_written) = (out(), Progress::new(names.len()), 0, Ok(()));
    for (at, name) in names.iter().enumerate() {
        let (status, written) = work(&mut out, &asked.input(name));
        worst = worse(worst, status);
        all_written = all_written.and(written.and_then(|()| out.flush()));
        if all_written.is_err() && unread == Unread::Stop {
            worst = if at + 1 < names.len() { FILE } else { worst };
            break;
        }
        progress.one_more();
    }
    progress.ended();
    printed(all_written).map(|()| worst)
}

/// The names of the files: the operands, then those of a list. At least one, but for an empty list.
pub fn names(asked: &Asked) -> Result<Vec<OsString>, Trouble> {
    let mut names = asked.operands.clone();
    match asked.value(FROM.long) {
        None if names.is_empty() => return Err(asked.wrong()),
        None => {}
        Some(list) => names.extend(listed(list).map_err(|error| Trouble::File(list.into(), error))?),
    }
    Ok(names)
}

fn listed(list: &OsStr) -> io::Result<Vec<OsString>> {
    let mut bytes = Vec::new();
    if list == OsStr::new("-") {
        io::stdin().lock().read_to_end(&mut bytes)?;
    } else {
        open(list)?.read_to_end(&mut bytes)?;
    }
    // No name has a NUL in it, so that one tells how the names are set apart.
    let end = if bytes.contains(&0) { 0 } else { b'\n' };
    bytes.split(|byte| *byte == end).filter(|name| !name.is_empty()).map(name_of).collect()
}

#[cfg(unix)]
fn name_of(bytes: &[u8]) -> io::Result<OsString> {
    use std::os::unix::ffi::OsStrExt;
    Ok(OsStr::from_bytes(bytes).into())
}

#[cfg(not(unix))]
fn name_of(bytes: &[u8]) -> io::Result<OsString> {
    String::from_utf8(bytes.to_vec()).map(OsString::from).map_err(io::Error::other)
}
