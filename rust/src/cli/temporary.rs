//! Temporary files and directories, `.hmsr-PID-N.tmp`: held by a lock while their command runs, so that the next command
//! can tell those of a killed one, whose locks are gone, and takes them away.
use std::ffi::OsStr;
use std::fs::{self, File, OpenOptions};
use std::io;
use std::os::unix::fs::MetadataExt;
use std::path::{Path, PathBuf};
use std::process;

use super::card_files::number_of_name;
use super::files;

/// How many names are tried before giving up.
const TRIES: usize = 100;

/// A temporary file or directory that goes away with this value unless it is kept.
pub struct Temporary {
    pub path: PathBuf,
    /// The open file or directory, locked.
    pub held: File,
    kept: bool,
}

impl Temporary {
    pub fn file(beside: &Path) -> io::Result<Temporary> {
        Temporary::make(beside, |path| OpenOptions::new().write(true).create_new(true).open(path))
    }

    pub fn directory(beside: &Path) -> io::Result<Temporary> {
        Temporary::make(beside, |path| {
            fs::create_dir(path)?;
            File::open(path).inspect_err(|_| remove(path))
        })
    }

    fn make(beside: &Path, create: impl Fn(&Path) -> io::Result<File>) -> io::Result<Temporary> {
        for attempt in 0..TRIES {
            let path = beside.join(format!(".hmsr-{}-{attempt}.tmp", process::id()));
            match create(&path) {
                Ok(held) => {
                    // Where the file system has no locks, no command can lock it and take it for a stale one.
                    let _ = held.lock();
                    let still_there = is_at(&held, &path);
                    let made = Temporary { path, held, kept: !still_there };
                    // Another command that cleans may have taken it before it was locked.
                    if still_there {
                        return Ok(made);
                    }
                }
                Err(e) if e.kind() == io::ErrorKind::AlreadyExists => {}
                Err(e) => return Err(e),
            }
        }
        Err(io::ErrorKind::AlreadyExists.into())
    }

    /// Gives it its name, at once.
    pub fn rename(mut self, target: &Path) -> io::Result<()> {
        fs::rename(&self.path, target)?;
        self.kept = true;
        Ok(())
    }
}

impl Drop for Temporary {
    fn drop(&mut self) {
        if !self.kept {
            remove(&self.path);
        }
    }
}

/// Takes away what killed commands have left in a directory. What cannot be taken away stays: its name says what it is.
pub fn clean(directory: &Path) {
    for entry in fs::read_dir(directory).into_iter().flatten().flatten() {
        if is_temporary(&entry.file_name()) {
            remove_stale(&entry.path());
        }
    }
}

fn is_temporary(name: &OsStr) -> bool {
    let numbers = name.to_str().and_then(|name| name.strip_prefix(".hmsr-")?.strip_suffix(".tmp")?.split_once('-'));
    let is_number = |text: &str| !text.is_empty() && text.bytes().all(|byte| byte.is_ascii_digit());
    numbers.is_some_and(|(process, attempt)| is_number(process) && is_number(attempt))
}

fn remove_stale(path: &Path) {
    if !fs::symlink_metadata(path).is_ok_and(|there| there.is_file() || there.is_dir()) {
        return;
    }
    if let Ok(held) = files::open_to_read(path) {
        if held.try_lock().is_ok() && is_at(&held, path) {
            remove(path);
        }
    }
}

/// Whether an open file is the one that has the name.
fn is_at(held: &File, path: &Path) -> bool {
    let identity = |there: fs::Metadata| (there.dev(), there.ino());
    let both = (held.metadata().map(identity), fs::symlink_metadata(path).map(identity));
    matches!(both, (Ok(held), Ok(named)) if held == named)
}

/// Removes a temporary file, or a temporary directory with the cards in it and nothing else.
fn remove(path: &Path) {
    if fs::remove_file(path).is_ok() {
        return;
    }
    for entry in fs::read_dir(path).into_iter().flatten().flatten() {
        if number_of_name(&entry.file_name()).is_some() {
            let _ = fs::remove_file(entry.path());
        }
    }
    let _ = fs::remove_dir(path);
}
