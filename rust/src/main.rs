//! The program `hmsr`: prints what a command reports, or one line that says why it turned back.
#![deny(unsafe_code)]

mod cli;

use std::env;
use std::io::{self, Write};
use std::process::ExitCode;

use cli::{Failure, Report};

fn main() -> ExitCode {
    cli::ignore_file_size_limit();
    match cli::run(env::args_os().skip(1).collect()).and_then(print) {
        Ok(()) => ExitCode::SUCCESS,
        Err(failure) => {
            // Nothing more can be done if that fails.
            let _ = writeln!(io::stderr(), "hmsr: {}", cli::one_line(failure.message()));
            ExitCode::from(failure.status())
        }
    }
}

/// Prints a report. A closed pipe is a failure like any other.
fn print(report: Report) -> Result<(), Failure> {
    let mut out = io::stdout().lock();
    out.write_all(report.text.as_bytes())
        .and_then(|()| out.flush())
        .and_then(|()| io::stderr().write_all(report.aside.as_bytes()))
        .map_err(|e| Failure::Io(format!("the work is done, but its report cannot be printed: {e}")))?;
    report.failure.map_or(Ok(()), Err)
}
