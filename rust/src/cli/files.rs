//! Reading files of bounded size, and placing new files whole or not at all.
use std::fs::{self, File, OpenOptions, Permissions, TryLockError};
use std::io::{self, Read, Write};
use std::os::unix::fs::OpenOptionsExt;
use std::path::{Path, PathBuf};

use super::temporary::Temporary;
use super::text::shown;
use super::Failure;

/// The flag with which opening a FIFO does not wait for its other end.
#[cfg(any(target_os = "linux", target_os = "android"))]
const O_NONBLOCK: i32 = 0o4000;
#[cfg(not(any(target_os = "linux", target_os = "android")))]
const O_NONBLOCK: i32 = 0x4;

/// The bytes of a file, or `None` where it has more than the most. What is no file, as a directory, a FIFO or a device,
/// is not read.
pub fn read(path: &Path, most: usize) -> io::Result<Option<Vec<u8>>> {
    let not_a_file = || io::Error::new(io::ErrorKind::InvalidInput, "not a file");
    // Opening a device may already do something, so it is looked at before; and after, for it may have changed.
    if !fs::metadata(path)?.is_file() {
        return Err(not_a_file());
    }
    let file = open_to_read(path)?;
    if !file.metadata()?.is_file() {
        return Err(not_a_file());
    }
    read_bounded(file, most)
}

/// The bytes of a source, or `None` where it has more than the most.
pub fn read_bounded(source: impl Read, most: usize) -> io::Result<Option<Vec<u8>>> {
    let mut bytes = Vec::new();
    source.take(most as u64 + 1).read_to_end(&mut bytes)?;
    Ok(Some(bytes).filter(|bytes| bytes.len() <= most))
}

/// The bytes of a file or, for `-`, of standard input; `None` where there are more than the most.
pub fn read_input(file: &Path, most: usize) -> Result<Option<Vec<u8>>, Failure> {
    let bytes = match is_standard_input(file) {
        true => read_bounded(io::stdin().lock(), most),
        false => read(file, most),
    };
    bytes.map_err(|e| Failure::Io(format!("cannot read {}: {e}", input_name(file))))
}

/// What the user is told that was read.
pub fn input_name(file: &Path) -> String {
    match is_standard_input(file) {
        true => "standard input".to_string(),
        false => shown(file),
    }
}

fn is_standard_input(file: &Path) -> bool {
    file == Path::new("-")
}

/// Opens without waiting.
pub fn open_to_read(path: &Path) -> io::Result<File> {
    OpenOptions::new().read(true).custom_flags(O_NONBLOCK).open(path)
}

/// A new file with these bytes, on the disk.
pub fn write_new(path: &Path, bytes: &[u8]) -> io::Result<()> {
    let mut file = OpenOptions::new().write(true).create_new(true).open(path)?;
    file.write_all(bytes)?;
    file.sync_all()
}

/// A file that stands complete under a temporary name in the directory of its target, and goes away unless it is placed.
pub struct Pending {
    temporary: Temporary,
    target: PathBuf,
}

impl Pending {
    /// Writes the bytes, to the disk, under a temporary name; with the permissions that are given.
    pub fn write(target: &Path, bytes: &[u8], permissions: Option<Permissions>) -> io::Result<Pending> {
        let mut temporary = Temporary::file(parent(target))?;
        temporary.held.write_all(bytes)?;
        if let Some(permissions) = permissions {
            temporary.held.set_permissions(permissions)?;
        }
        temporary.held.sync_all()?;
        Ok(Pending { temporary, target: target.to_path_buf() })
    }

    /// The same, with the permissions of the file that it is to replace, where there is one.
    pub fn replacing(target: &Path, bytes: &[u8]) -> io::Result<Pending> {
        let permissions = fs::symlink_metadata(target).ok().map(|there| there.permissions());
        Pending::write(target, bytes, permissions)
    }

    /// Gives the file its name, which no file may have, whoever makes it meanwhile. Where the file system has no links,
    /// that is looked at just before.
    pub fn place_new(self) -> io::Result<()> {
        match fs::hard_link(&self.temporary.path, &self.target) {
            Err(_) if fs::symlink_metadata(&self.target).is_err() => self.place(),
            linked => linked,
        }
    }

    /// Gives the file its name, at once, in the place of what has it.
    pub fn place(self) -> io::Result<()> {
        self.temporary.rename(&self.target)
    }
}

/// Sends a directory's names to the disk. A directory that may not be read, and some file systems, cannot be told to;
/// the files are there all the same.
pub fn sync_directory(directory: &Path) -> Result<(), Failure> {
    let Ok(opened) = File::open(directory) else {
        return Ok(());
    };
    match opened.sync_all() {
        Err(e) if !matches!(e.kind(), io::ErrorKind::InvalidInput | io::ErrorKind::Unsupported) => {
            Err(Failure::of_path("send to the disk what is in", directory, &e))
        }
        _ => Ok(()),
    }
}

/// Holds a directory until the file is closed, so that no two commands that hold it change its cards at once. Where it
/// cannot be opened it is not read either, and where the file system has no locks nothing is held.
pub fn hold(directory: &Path) -> Result<Option<File>, Failure> {
    let Some(opened) = Some(directory).filter(|there| there.is_dir()).and_then(|there| File::open(there).ok()) else {
        return Ok(None);
    };
    match opened.try_lock() {
        Err(TryLockError::WouldBlock) => {
            Err(Failure::Io(format!("another command changes the cards in {}: try again", shown(directory))))
        }
        _ => Ok(Some(opened)),
    }
}

/// The directory that a file stands in.
pub fn parent(path: &Path) -> &Path {
    match path.parent() {
        Some(parent) if parent != Path::new("") => parent,
        _ => Path::new("."),
    }
}
