//! The commands of the program. Each gives a report to print, or why it turned back.
mod agreement;
mod args;
mod card_files;
mod cards;
mod check;
mod choice;
mod correct;
mod demo;
mod failure;
mod files;
mod groups;
mod info;
mod json;
mod layers;
mod obstacles;
mod open;
mod order;
mod plan;
mod repair;
mod replace;
mod rules;
#[allow(unsafe_code)]
mod signals;
mod temporary;
mod text;
mod traffic;
mod transfers;
mod usage;
mod write;

use std::ffi::OsString;

use args::Args;
pub use failure::Failure;
pub use signals::ignore_file_size_limit;
pub use text::one_line;

/// What a command has to say.
#[derive(Default)]
pub struct Report {
    /// For standard output.
    pub text: String,
    /// For standard error, where standard output has the transcript.
    pub aside: String,
    /// Why it turned back all the same.
    pub failure: Option<Failure>,
}

impl From<String> for Report {
    fn from(text: String) -> Report {
        Report { text, ..Report::default() }
    }
}

/// A command with the words and options that it takes.
struct Command {
    name: &'static str,
    words: &'static [&'static str],
    /// What may be given more than once: the last word, and options.
    repeats: &'static [&'static str],
    /// Options with a value.
    options: &'static [&'static str],
    flags: &'static [&'static str],
    run: fn(&Args) -> Result<Report, Failure>,
}

const COMMANDS: [Command; 10] = [
    Command {
        name: "write",
        words: &["FILE", "DIR"],
        repeats: &[],
        options: &["--nodes", "--data", "--layers", "--losses", "--hearing"],
        flags: &["--quiet"],
        run: write::run,
    },
    Command {
        name: "check",
        words: &["DIR"],
        repeats: &[],
        options: &[],
        flags: &["--json", "--quiet"],
        run: check::run,
    },
    Command {
        name: "open",
        words: &["DIR", "OUT"],
        repeats: &["--stretch"],
        options: &["--stretch"],
        flags: &["--quiet"],
        run: open::run,
    },
    Command {
        name: "repair",
        words: &["DIR"],
        repeats: &[],
        options: &["--dead", "--helpers"],
        flags: &["--dry-run", "--quiet"],
        run: repair::run,
    },
    Command {
        name: "correct",
        words: &["DIR"],
        repeats: &[],
        options: &["--at", "--from", "--to"],
        flags: &["--dry-run", "--quiet"],
        run: correct::run,
    },
    Command {
        name: "layers",
        words: &[],
        repeats: &[],
        options: &["--nodes", "--data", "--losses"],
        flags: &["--json"],
        run: layers::run,
    },
    Command {
        name: "plan",
        words: &[],
        repeats: &[],
        options: &["--nodes", "--data", "--layers", "--dead", "--helpers"],
        flags: &["--json"],
        run: plan::run,
    },
    Command {
        name: "order",
        words: &["FILE"],
        repeats: &[],
        options: &["--nodes", "--data", "--layers", "--dead", "--helpers"],
        flags: &["--json"],
        run: order::run,
    },
    Command { name: "info", words: &["CARD"], repeats: &["CARD"], options: &[], flags: &["--json"], run: info::run },
    Command { name: "demo", words: &[], repeats: &[], options: &[], flags: &[], run: demo::run },
];

/// Runs the command that the arguments name.
pub fn run(given: Vec<OsString>) -> Result<Report, Failure> {
    let Some((first, rest)) = given.split_first() else {
        return Err(Failure::argument("which command?"));
    };
    let name = first.to_string_lossy();
    match &*name {
        "--version" => return Ok(format!("hmsr {}\n", env!("CARGO_PKG_VERSION")).into()),
        "--help" | "-h" => return Ok(usage::all().into()),
        "help" => return help(rest),
        _ => {}
    }
    let Some(command) = COMMANDS.iter().find(|command| command.name == name) else {
        return Err(Failure::argument(&format!("there is no command {name}")));
    };
    if args::asks_for_help(rest) {
        return Ok(usage::of(command.name).into());
    }
    let args = Args::parse(rest, command)?;
    let report = (command.run)(&args)?;
    Ok(if args.has("--quiet") { Report { failure: report.failure, ..Report::default() } } else { report })
}

/// `hmsr help`, or `hmsr help write`.
fn help(rest: &[OsString]) -> Result<Report, Failure> {
    let named = |name: &OsString| COMMANDS.iter().find(|command| *name == *command.name);
    match rest {
        [] => Ok(usage::all().into()),
        [name] if named(name).is_some() => Ok(usage::of(&name.to_string_lossy()).into()),
        [name, ..] => Err(Failure::argument(&format!("there is no command {}", name.to_string_lossy()))),
    }
}
