//! Why a command turned back, and the exit status that says so.
use std::io;
use std::path::Path;

use hmsr::Refusal;

use super::text::shown;

/// One line for the user. The kinds are those that a script can tell apart.
#[derive(Debug)]
pub enum Failure {
    /// Something is to be done: the transcript is there, but cards are missing or wrong; or transfers may not run in
    /// the order of their list.
    Repairable(String),
    /// The transcript cannot be had from these cards, or it cannot be told which cards are right.
    Lost(String),
    /// The arguments were not understood, or ask for what cannot be.
    Usage(String),
    /// A file or directory could not be read or written.
    Io(String),
}

impl Failure {
    /// The arguments were not understood.
    pub fn argument(complaint: &str) -> Failure {
        Failure::Usage(format!("{complaint} (see hmsr --help)"))
    }

    /// A file or directory could not be used.
    pub fn of_path(doing: &str, path: &Path, cause: &io::Error) -> Failure {
        Failure::Io(format!("cannot {doing} {}: {cause}", shown(path)))
    }

    /// The library refused, with the cause's number and what to do about it.
    pub fn refused(kind: fn(String) -> Failure, what: &str, refusal: Refusal, advice: &str) -> Failure {
        kind(format!("{what}: refusal {} ({refusal}); {advice}", refusal.number()))
    }

    pub fn message(&self) -> &str {
        match self {
            Failure::Repairable(message) | Failure::Lost(message) | Failure::Usage(message) | Failure::Io(message) => {
                message
            }
        }
    }

    /// The exit status; 0 is a command that did its work.
    pub fn status(&self) -> u8 {
        match self {
            Failure::Repairable(_) => 1,
            Failure::Lost(_) => 2,
            Failure::Usage(_) => 3,
            Failure::Io(_) => 4,
        }
    }
}
