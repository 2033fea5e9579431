//! Runs of the program with faults put into its calls of the C library.
use std::path::{Path, PathBuf};
use std::process::{Command, Output};
use std::sync::LazyLock;

use crate::place::Place;

/// The library of `faults.c`.
static LIBRARY: LazyLock<PathBuf> = LazyLock::new(|| {
    let source = Path::new(env!("CARGO_MANIFEST_DIR")).join("tests/cli/faults.c");
    let library = Path::new(env!("CARGO_TARGET_TMPDIR")).join("faults.so");
    let mut compiler = Command::new("gcc");
    compiler.args(["-std=gnu11", "-O1", "-Wall", "-Wextra", "-Werror", "-shared", "-fPIC"]);
    let compiled = compiler.arg(source).args(["-ldl", "-o"]).arg(&library).output().expect("gcc can be run");
    assert!(compiled.status.success(), "{}", String::from_utf8_lossy(&compiled.stderr));
    library
});

impl Place {
    /// Runs the program with the variables that `faults.c` looks at.
    pub fn run_with_faults(&self, line: &str, faults: &[(&str, &str)]) -> Output {
        let mut command = self.command(&line.split(' ').collect::<Vec<_>>());
        command.env("LD_PRELOAD", &*LIBRARY).envs(faults.iter().copied()).output().unwrap()
    }
}
