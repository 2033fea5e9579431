//! Links the proved static library, which `make library` writes at the top of the repository.
use std::env;
use std::ffi::OsString;
use std::path::{Path, PathBuf};

const LIBRARY: &str = "libhmsr.a";

fn main() {
    let package = PathBuf::from(env::var_os("CARGO_MANIFEST_DIR").expect("cargo names the package"));
    let given = env::var_os("HMSR_LIB_DIR").map(PathBuf::from);
    println!("cargo:rerun-if-env-changed=HMSR_LIB_DIR");
    if given.as_ref().is_some_and(|given| given.is_relative()) {
        println!("cargo:rerun-if-env-changed=PWD");
    }
    let directory = directory(&package, given, env::var_os("PWD"));
    println!("cargo:rerun-if-changed={}", directory.join(LIBRARY).display());
    // The tests that compile C link the same library.
    println!("cargo:rustc-env=HMSR_LIBRARY={}", directory.join(LIBRARY).display());
    println!("cargo:rustc-link-search=native={}", directory.display());
    println!("cargo:rustc-link-lib=static=hmsr");
    // `cargo doc` and `cargo check` need no library: only linking fails without it.
    if let Some(warning) = warning(&directory) {
        println!("cargo:warning={warning}");
    }
}

/// HMSR_LIB_DIR, and else where `make library` writes. A relative one is taken from where cargo was called: cargo starts
/// this program in the package's directory, but leaves it the caller's PWD. Without a PWD, or with one that is not
/// absolute, it is taken from the package's directory.
pub fn directory(package: &Path, given: Option<PathBuf>, caller: Option<OsString>) -> PathBuf {
    let caller = caller.map(PathBuf::from).filter(|caller| caller.is_absolute());
    match given {
        Some(given) => caller.unwrap_or(package.to_path_buf()).join(given),
        None => package.with_file_name("target").join("staticlib"),
    }
}

/// What to do where the library is not there.
pub fn warning(directory: &Path) -> Option<String> {
    let library = directory.join(LIBRARY);
    let advice = "run `make library` at the top of the repository, or set HMSR_LIB_DIR";
    (!library.is_file()).then(|| format!("{} is not there, so nothing can be linked: {advice}", library.display()))
}
