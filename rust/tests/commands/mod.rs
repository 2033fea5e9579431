//! What the tests share that compile C: the repository, a place for what they make, and commands that must succeed.
#![allow(dead_code)] // each test program uses a part of it

use std::fs;
use std::path::{Path, PathBuf};
use std::process::Command;

/// What `examples/example.c` prints.
pub const EXAMPLE_PRINTS: &str = "write: no refusal\nrepair: no refusal\nopen: no refusal\nthe witness was sworn\n";

/// The top of the repository.
pub fn top() -> PathBuf {
    Path::new(env!("CARGO_MANIFEST_DIR")).join("..")
}

/// A new directory for a test.
pub fn place(test: &str) -> PathBuf {
    let place = Path::new(env!("CARGO_TARGET_TMPDIR")).join("commands").join(test);
    let _ = fs::remove_dir_all(&place);
    fs::create_dir_all(&place).unwrap();
    place
}

/// What a command prints, which must succeed and not complain.
pub fn printed(command: &mut Command) -> String {
    let output = command.output().unwrap_or_else(|e| panic!("{command:?} cannot be run: {e}"));
    let complaint = String::from_utf8_lossy(&output.stderr);
    assert!(output.status.success() && complaint.is_empty(), "{command:?}: {}\n{complaint}", output.status);
    String::from_utf8(output.stdout).unwrap()
}

/// Whether a program is there at all.
pub fn there(program: &str) -> bool {
    Command::new(program).arg("--version").output().is_ok()
}
