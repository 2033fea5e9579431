//! Where the build script looks for the library, and what `make install` puts in place.
#[path = "../build.rs"]
#[allow(dead_code)] // its main is cargo's to call
mod build_script;
mod commands;

use commands::{place, printed, there, top, EXAMPLE_PRINTS};
use std::fs;
use std::os::unix::fs::PermissionsExt;
use std::path::{Path, PathBuf};
use std::process::Command;

const PROGRAM: &str = env!("CARGO_BIN_EXE_hmsr");
const LIBRARY: &str = env!("HMSR_LIBRARY");
const INSTALLED: [(&str, u32); 5] = [
    ("bin/hmsr", 0o755),
    ("include/hmsr.h", 0o644),
    ("lib/libhmsr.a", 0o644),
    ("lib/pkgconfig/hmsr.pc", 0o644),
    ("share/man/man1/hmsr.1", 0o644),
];

#[test]
fn a_relative_library_directory_is_taken_from_where_cargo_was_called() {
    let cases = [
        (None, Some("/home"), "/clone/target/staticlib"),
        (Some("/lib"), Some("/home"), "/lib"),
        (Some("lib"), Some("/home"), "/home/lib"),
        (Some("../lib"), Some("/home/work"), "/home/work/../lib"),
        (Some("lib"), None, "/clone/rust/lib"),
        (Some("lib"), Some("home"), "/clone/rust/lib"),
    ];
    for (given, caller, expected) in cases {
        let found = build_script::directory(Path::new("/clone/rust"), given.map(PathBuf::from), caller.map(Into::into));
        assert_eq!(found, Path::new(expected), "{given:?} called from {caller:?}");
    }
}

#[test]
fn a_missing_library_is_warned_of() {
    let place = place("library");
    let warning = build_script::warning(&place).unwrap();
    for part in [place.to_str().unwrap(), "`make library`", "HMSR_LIB_DIR"] {
        assert!(warning.contains(part), "{warning}");
    }
    assert!(!warning.contains('\n'), "{warning}");
    fs::write(place.join("libhmsr.a"), []).unwrap();
    assert_eq!(build_script::warning(&place), None);
}

/// Runs make, which is given what is built already.
fn make(words: &[&str], destination: &Path, prefix: &Path) -> String {
    let mut make = Command::new("make");
    // Of a make that runs these tests, no setting counts here.
    make.env_remove("MAKEFLAGS").env_remove("MAKELEVEL");
    make.args(["--no-print-directory", "-C"]).arg(top()).args(words);
    make.arg(format!("LIBRARY={LIBRARY}")).arg(format!("PROGRAM={PROGRAM}"));
    make.arg(format!("DESTDIR={}", destination.display())).arg(format!("PREFIX={}", prefix.display()));
    printed(&mut make)
}

/// The files below a directory, by their names from there, with their modes.
fn files(directory: &Path) -> Vec<(String, u32)> {
    let mut all = Vec::new();
    let mut left = vec![directory.to_path_buf()];
    while let Some(path) = left.pop() {
        if path.is_dir() {
            left.extend(fs::read_dir(path).unwrap().map(|entry| entry.unwrap().path()));
        } else {
            let mode = fs::metadata(&path).unwrap().permissions().mode() & 0o777;
            all.push((path.strip_prefix(directory).unwrap().to_str().unwrap().to_string(), mode));
        }
    }
    all.sort();
    all
}

fn installed() -> Vec<(String, u32)> {
    INSTALLED.map(|(name, mode)| (name.to_string(), mode)).to_vec()
}

/// The flags of an installed pkg-config file for compiling and linking.
fn flags(prefix: &Path) -> Vec<String> {
    let file = fs::read_to_string(prefix.join("lib/pkgconfig/hmsr.pc")).unwrap();
    let value = |start: &str| file.lines().find_map(|line| line.strip_prefix(start)).unwrap().to_string();
    let flags = format!("{} {}", value("Cflags: "), value("Libs: "));
    let flags = flags.replace("${includedir}", &value("includedir=")).replace("${libdir}", &value("libdir="));
    flags.replace("${prefix}", &value("prefix=")).split_whitespace().map(str::to_string).collect()
}

/// What pkg-config says of what is installed there.
fn pkg_config(prefix: &Path, words: &[&str]) -> Vec<String> {
    let mut command = Command::new("pkg-config");
    command.env("PKG_CONFIG_LIBDIR", prefix.join("lib/pkgconfig")).args(words).arg("hmsr");
    printed(&mut command).split_whitespace().map(str::to_string).collect()
}

#[test]
fn a_c_program_is_compiled_with_what_is_installed() {
    let prefix = place("installed");
    make(&["install-files"], Path::new(""), &prefix);
    assert_eq!(files(&prefix), installed());
    for (name, source) in [("bin/hmsr", PROGRAM), ("lib/libhmsr.a", LIBRARY)] {
        assert!(fs::read(prefix.join(name)).unwrap() == fs::read(source).unwrap(), "{name} is another file");
    }
    let flags = flags(&prefix);
    if there("pkg-config") {
        assert_eq!(pkg_config(&prefix, &["--cflags", "--libs"]), flags);
        assert_eq!(pkg_config(&prefix, &["--modversion"]), [env!("CARGO_PKG_VERSION")]);
    }
    let program = place("compiled").join("example");
    let example = top().join("examples/example.c");
    printed(Command::new("gcc").arg(example).args(flags).arg("-o").arg(&program));
    assert_eq!(printed(&mut Command::new(program)), EXAMPLE_PRINTS);
}

#[test]
fn a_package_is_staged_and_taken_away_again() {
    let (stage, prefix) = (place("staged"), Path::new("/opt/court archive"));
    let root = stage.join("opt/court archive");
    make(&["install-files"], &stage, prefix);
    assert_eq!(files(&root), installed());
    let pc = fs::read_to_string(root.join("lib/pkgconfig/hmsr.pc")).unwrap();
    assert!(pc.contains("prefix=/opt/court archive\n") && !pc.contains(stage.to_str().unwrap()), "{pc}");
    assert!(pc.contains(concat!("\nVersion: ", env!("CARGO_PKG_VERSION"), "\n")), "{pc}");

    fs::write(root.join("lib/libother.a"), "another's").unwrap();
    make(&["uninstall"], &stage, prefix);
    let left: Vec<String> = files(&stage).into_iter().map(|(name, _)| name).collect();
    assert_eq!(left, ["opt/court archive/lib/libother.a"]);
}

/// What make would do; nothing is built or installed.
#[test]
fn the_library_and_the_program_are_built_before_they_are_installed() {
    let steps = make(&["--dry-run", "install"], Path::new(""), Path::new("out"));
    let header = top().canonicalize().unwrap().join("out/include/hmsr.h");
    let parts = ["rt lib", "cargo build", "--release", header.to_str().unwrap()];
    let places: Vec<_> = parts.iter().map(|part| steps.find(part)).collect();
    assert!(places.iter().all(Option::is_some) && places.is_sorted(), "{places:?} in {steps}");
}

/// An entry of the manual page for each command and option that the program's summary names.
#[test]
fn the_manual_page_has_every_command_and_option() {
    let page = fs::read_to_string(top().join("install/hmsr.1.in")).unwrap();
    let summary = printed(Command::new(PROGRAM).arg("--help"));
    let commands = summary.lines().filter_map(|line| line.trim_start().strip_prefix("hmsr ")?.split([' ', ',']).next());
    let options = summary.split(|c: char| c != '-' && !c.is_ascii_alphanumeric()).filter(|word| word.starts_with("--"));
    let words: Vec<&str> = commands.chain(options).collect();
    assert!(["write", "repair", "demo", "--layers", "--help"].iter().all(|word| words.contains(word)), "{words:?}");
    for word in words {
        let entry = format!(".TP\n\\fB{}\\fR", word.replace('-', "\\-"));
        assert!(page.contains(&entry), "the manual page has no entry for {word}");
    }
}
