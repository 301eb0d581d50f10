//! The file beside a name, into which is written first what is to have the name: `.lafzimdo-PID-CHANCE.part`, in the
//! same folder. It is taken away again, by the run itself or, where that was killed, by the next.
use std::collections::hash_map::RandomState;
use std::ffi::OsStr;
use std::fs::{self, DirEntry, OpenOptions, Permissions};
use std::hash::{BuildHasher, Hasher};
use std::io::{self, Write};
use std::path::{Path, PathBuf};
use std::process;

const BEGINS: &str = ".lafzimdo-";
const ENDS: &str = ".part";

/// Such a file; it is removed where this goes out of scope.
pub struct Beside {
    path: PathBuf,
}

impl Beside {
    /// Writes one, and flushes it to the disk. Permissions first: nobody reads here what he may not read there.
    pub fn written(folder: &Path, bytes: &[u8], permissions: Option<&Permissions>) -> io::Result<Beside> {
        let path = folder.join(fresh_name());
        let mut file = OpenOptions::new().write(true).create_new(true).open(&path)?;
        let beside = Beside { path };
        if let Some(permissions) = permissions {
            file.set_permissions(permissions.clone())?;
        }
        file.write_all(bytes)?;
        file.sync_all()?;
        Ok(beside)
    }

    /// Gives it a name that nothing has yet: a link is never made over another file, whoever else is at work.
    pub fn link(&self, name: &Path) -> io::Result<()> {
        match fs::hard_link(&self.path, name) {
            // A file system without hard links; here another run may come between test and renaming.
            Err(error) if !matches!(error.kind(), io::ErrorKind::AlreadyExists | io::ErrorKind::NotFound) => {
                match fs::symlink_metadata(name) {
                    Ok(_) => Err(io::ErrorKind::AlreadyExists.into()),
                    Err(_) => fs::rename(&self.path, name),
                }
            }
            made => made,
        }
    }

    /// Gives it a name, in the place of what has it.
    pub fn rename(&self, name: &Path) -> io::Result<()> {
        fs::rename(&self.path, name)
    }

    /// Whether somebody has taken it away.
    pub fn gone(&self) -> bool {
        fs::symlink_metadata(&self.path).is_err()
    }
}

impl Drop for Beside {
    fn drop(&mut self) {
        let _ = fs::remove_file(&self.path);
    }
}

/// A name that no run has had. By the process alone runs in two containers could have the same, and one would give its
/// name to what the other has half written.
fn fresh_name() -> String {
    format!("{BEGINS}{}-{:016x}{ENDS}", process::id(), RandomState::new().build_hasher().finish())
}

/// The process whose file this is, if the name has exactly that form.
fn process_of(name: &OsStr) -> Option<u32> {
    let (process, chance) = name.to_str()?.strip_prefix(BEGINS)?.strip_suffix(ENDS)?.split_once('-')?;
    let hex = |digit: u8| digit.is_ascii_digit() || (b'a'..=b'f').contains(&digit);
    let formed = process.bytes().all(|digit| digit.is_ascii_digit()) && chance.len() == 16 && chance.bytes().all(hex);
    process.parse().ok().filter(|_| formed)
}

/// Takes away what runs that were killed have left in a folder. Where that is not possible nothing is lost but space.
pub fn cleared(folder: &Path) {
    for entry in fs::read_dir(folder).into_iter().flatten().flatten() {
        if is_left(&entry) {
            let _ = fs::remove_file(entry.path());
        }
    }
}

/// Whether a file is what a dead run has left.
fn is_left(entry: &DirEntry) -> bool {
    let dead = process_of(&entry.file_name()).is_some_and(|process| !lives(process));
    dead && entry.file_type().is_ok_and(|kind| kind.is_file())
}

/// Whether a process is a run of this program, which goes by its name: the number of a dead run is given again, and 1
/// always lives. Where that is wrong the other run writes its file again (whole.rs, `TRIES`). Of our own no file is
/// there yet: what has our number is of a run before. Without /proc nobody can tell who lives.
fn lives(process: u32) -> bool {
    let name = |process: &str| fs::read(format!("/proc/{process}/comm")).ok();
    let Some(own) = name("self") else {
        return true;
    };
    process != process::id() && name(&process.to_string()) == Some(own)
}

#[cfg(test)]
mod tests {
    use super::*;

    #[test]
    fn names() {
        let (one, other) = (fresh_name(), fresh_name());
        assert_eq!(process_of(OsStr::new(&one)), Some(process::id()));
        assert_ne!(one, other);
        assert_eq!(process_of(OsStr::new(".lafzimdo-7-0123456789abcdef.part")), Some(7));
        for wrong in [
            "lafzimdo-7-0123456789abcdef.part",
            ".lafzimdo-7-0123456789abcdef.part.luac",
            ".lafzimdo-7-0123456789abcde.part",
            ".lafzimdo-7-0123456789abcdeF.part",
            ".lafzimdo-7-0123456789abcdef-.part",
            ".lafzimdo--0123456789abcdef.part",
            ".lafzimdo-+7-0123456789abcdef.part",
            ".lafzimdo-4294967296-0123456789abcdef.part",
            ".lafzimdo-.part",
        ] {
            assert_eq!(process_of(OsStr::new(wrong)), None, "{wrong}");
        }
    }
}
