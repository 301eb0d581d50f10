//! Puts bytes under a name, all of them or nothing: they are written beside it, flushed to the disk, and then given the
//! name. Whenever a run ends, no half has a name that somebody trusts.
use crate::beside::{cleared, Beside};
use crate::open::open_to_write;
use crate::trouble::{Name, Trouble};
use std::collections::BTreeSet;
use std::fs::{self, File, Permissions};
use std::io::{self, Read, Write};
use std::path::{Path, PathBuf};

/// So often a file is written that somebody takes away: a run in another container, one that /proc is hidden from, or
/// one of a program with another name, cannot see that ours lives.
const TRIES: usize = 5;

/// What came of it.
pub enum Put {
    Written,
    /// There already were these bytes.
    There,
}

/// The files of a run, and the folders that they are in.
pub struct Whole {
    force: bool,
    folders: BTreeSet<PathBuf>,
}

impl Whole {
    /// With `force` what is there is replaced, else it stays.
    pub fn new(force: bool) -> Whole {
        Whole { force, folders: BTreeSet::new() }
    }

    /// Puts the bytes under the name. A link stays: what it leads to is replaced.
    pub fn put(&mut self, name: &Path, bytes: &[u8]) -> io::Result<Put> {
        match fs::metadata(name) {
            Ok(old) if self.force && old.is_file() => {
                self.write(&fs::canonicalize(name)?, bytes, Some(&old.permissions()))
            }
            // A device or a pipe.
            Ok(old) if self.force && !old.is_dir() => {
                open_to_write(name.as_os_str())?.write_all(bytes).map(|()| Put::Written)
            }
            Ok(_) => self.keep(name, bytes),
            Err(error) if error.kind() != io::ErrorKind::NotFound => Err(error),
            // Not 'is something there': another run may have put its file there by now.
            Err(_) if fs::symlink_metadata(name).is_ok_and(|found| found.is_symlink()) => {
                Err(io::Error::other("it is a link to a file that is not there"))
            }
            Err(_) => self.write(name, bytes, None),
        }
    }

    fn write(&mut self, name: &Path, bytes: &[u8], permissions: Option<&Permissions>) -> io::Result<Put> {
        let folder = folder_of(name);
        self.enter(folder);
        for _ in 0..TRIES {
            let beside = Beside::written(folder, bytes, permissions)?;
            match if self.force { beside.rename(name) } else { beside.link(name) } {
                Ok(()) => return Ok(Put::Written),
                // Another run was first.
                Err(error) if error.kind() == io::ErrorKind::AlreadyExists && !self.force => {
                    return self.keep(name, bytes);
                }
                Err(error) if error.kind() == io::ErrorKind::NotFound && beside.gone() => {}
                Err(error) => return Err(error),
            }
        }
        Err(io::Error::other("what is written beside it is taken away"))
    }

    /// What is there stays. The very copy is as good as one that is written now.
    fn keep(&mut self, name: &Path, bytes: &[u8]) -> io::Result<Put> {
        self.enter(folder_of(name));
        let old = fs::metadata(name)?;
        let why = if old.is_dir() {
            "it exists already, and is a folder".into()
        } else if !old.is_file() {
            "it exists already, and is no file; --force writes to it".into()
        } else {
            match same(name, bytes) {
                Ok(true) => return Ok(Put::There),
                Ok(false) => "it exists already, and is no such copy; --force overwrites it".into(),
                Err(error) => format!("it exists already, and cannot be read ({error}); --force overwrites it"),
            }
        };
        Err(io::Error::new(io::ErrorKind::AlreadyExists, why))
    }

    /// A folder in which a file is, or is to be: what dead runs have left there is taken away, once.
    fn enter(&mut self, folder: &Path) {
        if self.folders.insert(folder.into()) {
            cleared(folder);
        }
    }

    /// Makes the folders of a path in a folder. One that is there may also be a link to a folder, as for cp.
    pub fn make_folders(&mut self, folder: &Path, path: &Path) -> io::Result<()> {
        let mut folder = folder.to_path_buf();
        for part in path {
            // Its name is to last too, also if a run that was killed has made it.
            self.enter(&folder);
            folder.push(part);
            match fs::create_dir(&folder) {
                Err(error) if error.kind() != io::ErrorKind::AlreadyExists => return Err(error),
                // Told here, before anybody opens it: a pipe would be waited for.
                Err(_) if !folder.is_dir() => {
                    return Err(io::Error::other(format!("{} is no folder", Name(folder.as_os_str()))));
                }
                _ => {}
            }
        }
        Ok(())
    }

    /// Flushes the folders to the disk, so that the names last; gives the first that could not be.
    pub fn flush(&self) -> Result<(), Trouble> {
        let flushed = self.folders.iter().map(|folder| match flush(folder) {
            Ok(()) => Ok(()),
            Err(error) => {
                let why = format!("the folder cannot be flushed to the disk: {error}");
                Err(Trouble::File(folder.into(), io::Error::new(error.kind(), why)))
            }
        });
        flushed.fold(Ok(()), Result::and)
    }
}

/// The folder that a name is in.
fn folder_of(name: &Path) -> &Path {
    name.parent().filter(|folder| !folder.as_os_str().is_empty()).unwrap_or(Path::new("."))
}

/// Whether this is a file that has just these bytes. Of one that has not no more is read than tells.
pub fn same(name: &Path, bytes: &[u8]) -> io::Result<bool> {
    let found = fs::metadata(name)?;
    if !found.is_file() || found.len() != bytes.len() as u64 {
        return Ok(false);
    }
    let mut file = File::open(name)?;
    let (mut piece, mut rest) = (vec![0; 1 << 16], bytes);
    loop {
        match file.read(&mut piece) {
            Ok(0) => return Ok(rest.is_empty()),
            Ok(read) if rest.starts_with(&piece[..read]) => rest = &rest[read..],
            Ok(_) => return Ok(false),
            Err(error) if error.kind() == io::ErrorKind::Interrupted => {}
            Err(error) => return Err(error),
        }
    }
}

/// Some file systems flush no folders, and one that may be written but not read cannot be opened for it: no trouble.
/// What is no folder (any more) is passed over unopened: a pipe would be waited for.
fn flush(folder: &Path) -> io::Result<()> {
    use io::ErrorKind::{InvalidInput, PermissionDenied, Unsupported};
    if fs::metadata(folder).is_ok_and(|found| !found.is_dir()) {
        return Ok(());
    }
    match File::open(folder).and_then(|folder| folder.sync_all()) {
        Err(error) if !matches!(error.kind(), InvalidInput | PermissionDenied | Unsupported) => Err(error),
        _ => Ok(()),
    }
}
