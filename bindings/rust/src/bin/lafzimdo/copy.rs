//! `copy`: the archive copy or the full copy, of one file or of many into a folder.
use crate::command::{Asked, Choice, Command};
use crate::file::Input;
use crate::files::{self, Unread};
use crate::trouble::{Name, Trouble};
use crate::whole::{same, Put, Whole};
use std::collections::BTreeMap;
use std::ffi::OsStr;
use std::fs;
use std::io::{self, Write};
use std::path::{Component, Path, PathBuf};

pub const COMMAND: Command = Command {
    name: "copy",
    operands: "FILE OUT, or with --into FILE...",
    short: "writes the archive copy of the chunk to OUT, or its full copy, or of many into a folder",
    long: "\
The archive copy spells what was read in one way: format 0, numbers in their shortest form, a source only
in the main function. Trailing bytes are kept. OUT is - for standard output.
The full copy is spelt so too, but keeps the source of every nested function that has another than the
function around it, as scripts joined from a library have: error messages go on to name it.
A copy is written beside OUT (.lafzimdo-*.part), flushed to the disk, and then given its name: a run that is
killed, a chunk that is refused, or a full disk, leaves no half, and what it left beside the next takes away.
A file that exists is kept unless --force is given, and then it is replaced as a whole. One that is this very
copy counts as done, so that a run that was stopped goes on if it is started again.
With --into each file's copy gets its name in the folder, which must be there; a line a file tells what came
of it: `copy of N bytes`, `copy of N bytes, there already`, or why there is none. Copying goes on where
nobody reads the lines. Of two files with one name the second is refused, unless its copy is the same; with
--parents the copy has the file's whole path in the folder, without a leading / (a path with .. is refused).
",
    options: &[FORCE, FULL, INTO, PARENTS, QUIET, files::FROM],
    run,
};

const FORCE: Choice = Choice { short: "-f", long: "--force", value: "", text: "overwrite what exists" };
const FULL: Choice = Choice { short: "", long: "--full", value: "", text: "write the full copy" };
const INTO: Choice = Choice { short: "", long: "--into", value: "DIR", text: "copy each FILE into this folder" };
const PARENTS: Choice = Choice {
    short: "",
    long: "--parents",
    value: "",
    text: "with --into: under FILE's whole path, whose folders are made",
};
const QUIET: Choice =
    Choice { short: "-q", long: "--quiet", value: "", text: "with --into: no line for a file that was copied" };

fn run(asked: &Asked) -> Result<u8, Trouble> {
    if let Some(folder) = asked.value(INTO.long) {
        return into(asked, Path::new(folder));
    }
    let [name, out] = &asked.operands[..] else {
        return Err(asked.wrong());
    };
    for many in [&files::FROM, &PARENTS] {
        if asked.has(many.long) {
            return Err(Trouble::Usage(format!("{} needs {}", many.long, INTO.long)));
        }
    }
    let copy = copy_of(asked, &asked.input(name))?;
    if out == OsStr::new("-") {
        // A copy that nobody takes whole is not delivered, also where its reader wants no more.
        let mut stdout = io::stdout().lock();
        stdout.write_all(&copy).and_then(|()| stdout.flush()).map_err(Trouble::Output)?;
    } else {
        let mut whole = Whole::new(asked.has(FORCE.long));
        whole.put(Path::new(out), &copy).map_err(|error| Trouble::File(out.clone(), error))?;
        whole.flush()?;
    }
    Ok(0)
}

/// The copy of a file, the archive copy or the full one.
fn copy_of(asked: &Asked, input: &Input) -> Result<Vec<u8>, Trouble> {
    let bytes = input.bytes()?;
    let chunk = input.chunk(&bytes)?;
    Ok(if asked.has(FULL.long) { chunk.full_copy() } else { chunk.copy() })
}

/// Each file into a folder.
fn into(asked: &Asked, folder: &Path) -> Result<u8, Trouble> {
    let names = files::names(asked)?;
    let there = fs::metadata(folder).and_then(|found| match found.is_dir() {
        true => Ok(()),
        false => Err(io::Error::other("it is no folder")),
    });
    there.map_err(|error| Trouble::File(folder.into(), error))?;
    let mut copies = Copies { asked, folder, taken: BTreeMap::new(), whole: Whole::new(asked.has(FORCE.long)) };
    let quiet = asked.has(QUIET.long);
    let worst = files::each(asked, &names, Unread::GoOn, |out, input| match copies.add(input) {
        Ok(_) if quiet => (0, Ok(())),
        Ok((length, put)) => {
            let there = if let Put::There = put { ", there already" } else { "" };
            (0, writeln!(out, "{}: copy of {length} bytes{there}", Name(&input.shown())))
        }
        Err(trouble) => files::told(out, &trouble, quiet),
    });
    copies.whole.flush()?;
    worst
}

/// The copies in a folder: the files that are taken by this run, each with its name, and how they are written.
struct Copies<'a> {
    asked: &'a Asked,
    folder: &'a Path,
    taken: BTreeMap<PathBuf, PathBuf>,
    whole: Whole,
}

impl Copies<'_> {
    /// The copy of one more file; gives its length.
    fn add(&mut self, input: &Input) -> Result<(usize, Put), Trouble> {
        let trouble = |error: io::Error| Trouble::File(input.shown(), error);
        let parents = self.asked.has(PARENTS.long);
        let name = if input.name == "-" { None } else { name_in(Path::new(&input.name), parents).map_err(trouble)? };
        let name = name.ok_or_else(|| trouble(io::Error::other("it has no name for its copy")))?;
        let copy = copy_of(self.asked, input)?;
        let put = self.put(&name, &copy).map_err(trouble)?;
        Ok((copy.len(), put))
    }

    /// Puts a copy under its name in the folder. What this run has put there stays, with --force too.
    fn put(&mut self, name: &Path, copy: &[u8]) -> io::Result<Put> {
        let out = self.folder.join(name);
        if let Some(first) = self.taken.get(&led_to(&out)) {
            return match same(&out, copy) {
                Ok(true) => Ok(Put::There),
                _ if first == name => Err(io::Error::other("another file of that name was copied before")),
                _ => Err(io::Error::other(format!("{}: it leads to the copy of another file", Name(out.as_os_str())))),
            };
        }
        let folders = name.parent().unwrap_or(Path::new(""));
        let put = self.whole.make_folders(self.folder, folders).and_then(|()| self.whole.put(&out, copy));
        let put = put.map_err(|error| io::Error::new(error.kind(), format!("{}: {error}", Name(out.as_os_str()))))?;
        self.taken.insert(led_to(&out), name.into());
        Ok(put)
    }
}

/// The file that a name leads to: two names may lead to one, by links. Where nothing is there yet the name itself.
fn led_to(name: &Path) -> PathBuf {
    fs::canonicalize(name).unwrap_or_else(|_| name.into())
}

/// The name of a file's copy in the folder: the file's own, or its whole path, which must not lead out of the folder.
fn name_in(file: &Path, parents: bool) -> io::Result<Option<PathBuf>> {
    if !parents {
        return Ok(file.file_name().map(PathBuf::from));
    }
    if file.components().any(|part| part == Component::ParentDir) {
        return Err(io::Error::other("--parents takes no path with .., which could lead out of the folder"));
    }
    let path: PathBuf = file.components().filter(|part| matches!(part, Component::Normal(_))).collect();
    Ok(Some(path).filter(|path| path.file_name().is_some()))
}

#[cfg(test)]
mod tests {
    use super::*;

    #[test]
    fn names_in_the_folder() {
        for (file, own, whole) in [
            ("a", Some("a"), Some("a")),
            ("b/a", Some("a"), Some("b/a")),
            ("./b//./a/", Some("a"), Some("b/a")),
            ("/c/b/a", Some("a"), Some("c/b/a")),
            ("//a", Some("a"), Some("a")),
            ("/", None, None),
            (".", None, None),
            ("...", Some("..."), Some("...")),
        ] {
            assert_eq!(name_in(Path::new(file), false).unwrap(), own.map(PathBuf::from), "{file}");
            assert_eq!(name_in(Path::new(file), true).unwrap(), whole.map(PathBuf::from), "{file}");
        }
        for file in ["..", "../a", "b/../a", "/..", "a/.."] {
            assert!(name_in(Path::new(file), true).is_err(), "{file}");
        }
        assert_eq!(name_in(Path::new("../a"), false).unwrap(), Some(PathBuf::from("a")));
    }
}
