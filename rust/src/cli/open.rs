//! `hmsr open`: the transcript, or stretches of it, from any k cards, into a new file.
use std::fs;
use std::io::{self, Write};
use std::ops::Range;
use std::path::Path;

use super::agreement::Agreement;
use super::args::Args;
use super::card_files::number_of_name;
use super::cards::Cards;
use super::files::{self, Pending};
use super::text::{counted, hearing_line, nodes_listed, shown};
use super::{choice, temporary, Failure, Report};

/// Bytes of the transcript, how they are named in the report, and the line of it on what was read for them.
struct Opened {
    bytes: Vec<u8>,
    named: String,
    read: String,
}

pub fn run(args: &Args) -> Result<Report, Failure> {
    let (directory, out, stretches) = (args.path(0), args.path(1), args.stretches()?);
    if out != Path::new("-") {
        return open(directory, out, &stretches).map(Report::from);
    }
    let (bytes, report) = opened(directory, "standard output", &stretches)?;
    let mut stdout = io::stdout().lock();
    let printed = stdout.write_all(&bytes).and_then(|()| stdout.flush());
    printed.map_err(|e| Failure::Io(format!("cannot write standard output: {e}")))?;
    Ok(Report { aside: report, ..Report::default() })
}

/// Opens the cards of a directory: these stretches, or, where there are none, the transcript. A file that is there
/// already is never written over.
pub fn open(directory: &Path, out: &Path, stretches: &[Range<usize>]) -> Result<String, Failure> {
    if fs::symlink_metadata(out).is_ok() {
        return Err(Failure::Io(format!("{} is there already: choose the name of a new file", shown(out))));
    }
    if is_named_as_card(directory, out) {
        return Err(Failure::Usage(format!("{} is the name of a card: choose another name", shown(out))));
    }
    let (bytes, report) = opened(directory, &shown(out), stretches)?;
    let failed = |e| Failure::of_path("write", out, &e);
    temporary::clean(files::parent(out));
    Pending::write(out, &bytes, None).map_err(failed)?.place_new().map_err(failed)?;
    files::sync_directory(files::parent(out))?;
    Ok(report)
}

/// Whether a file would be taken for a card of the directory.
fn is_named_as_card(directory: &Path, out: &Path) -> bool {
    let same = |a: &Path, b: &Path| matches!((a.canonicalize(), b.canonicalize()), (Ok(a), Ok(b)) if a == b);
    out.file_name().and_then(number_of_name).is_some() && same(files::parent(out), directory)
}

/// The bytes in the cards that agree, and what is to be said of them.
fn opened(directory: &Path, out: &str, stretches: &[Range<usize>]) -> Result<(Vec<u8>, String), Failure> {
    let cards = Cards::load(directory)?;
    cards.need(cards.shape.data, Failure::Lost, "find more of them")?;
    let agreement = Agreement::of(&cards)?;
    let used = &agreement.right[..cards.shape.data];
    let opened = match stretches {
        [] => whole(&cards, used)?,
        _ => parts(&cards, used, stretches)?,
    };
    cards.refuse_foreign()?;
    let report = report(&cards, &agreement, &opened, out);
    Ok((opened.bytes, report))
}

fn whole(cards: &Cards, used: &[usize]) -> Result<Opened, Failure> {
    let named = counted(cards.length, "byte");
    Ok(Opened { bytes: cards.transcript(used)?, named, read: String::new() })
}

fn parts(cards: &Cards, used: &[usize], stretches: &[Range<usize>]) -> Result<Opened, Failure> {
    let opened = cards.stretches(used, stretches)?;
    let count = match stretches.len() {
        1 => "1 stretch".to_string(),
        count => format!("{count} stretches"),
    };
    let named = format!("{} in {count}", counted(opened.bytes.len(), "byte"));
    // The k nodes have as many symbols as a transcript may have bytes.
    let read = format!("{} read of {}\n", counted(opened.symbols, "symbol"), choice::capacity(cards.shape));
    Ok(Opened { bytes: opened.bytes, named, read })
}

fn report(cards: &Cards, agreement: &Agreement, opened: &Opened, out: &str) -> String {
    let used = &agreement.right[..cards.shape.data];
    let mut report = format!("opened {} into {out} from {}\n", opened.named, nodes_listed(used));
    report += &match agreement.right.len() - used.len() {
        0 => "no further card was there to compare with\n".to_string(),
        1 => "1 further card agrees with them\n".to_string(),
        count => format!("{count} further cards agree with them\n"),
    };
    report += &opened.read;
    report += &hearing_line(cards.hearing);
    if !cards.absent().is_empty() {
        report += &format!("not used: {}\n", cards.absent_described());
    }
    if let Some(wrong) = agreement.wrong_described(cards) {
        report += &format!("not used: {wrong}\n");
    }
    report + &cards.notes()
}
