//! `hmsr demo`: an archive written, three nodes lost and repaired, and the transcript opened from others.
use std::env;
use std::fs;
use std::io;
use std::path::{Path, PathBuf};
use std::process;

use super::args::Args;
use super::card_files::card_path;
use super::cards::Cards;
use super::choice::Layers;
use super::repair::Wanted;
use super::text::{listed, shown};
use super::{open, repair, traffic, write, Failure, Report};

const NODES: usize = 12;
const DATA: usize = 8;
const LOST: [usize; 3] = [1, 4, 10];
/// Other nodes than the first eight, which opening takes: the three that were lost among them.
const OPENED: [usize; DATA] = [1, 3, 4, 6, 7, 9, 10, 11];
const LINES: usize = 1500;

pub fn run(_: &Args) -> Result<Report, Failure> {
    let place = Temporary::make()?;
    let (transcript, drives) = (place.0.join("transcript.txt"), place.0.join("drives"));
    let text = sample();
    fs::write(&transcript, &text).map_err(|e| Failure::of_path("write", &transcript, &e))?;

    let mut report =
        format!("A transcript of {} bytes over {NODES} drives, any {DATA} of which give it back.\n", text.len());
    report += &format!("\n$ hmsr write transcript.txt drives --nodes {NODES} --data {DATA}\n");
    let wanted = write::Wanted { nodes: NODES, data: DATA, layers: Layers::Best, hearing: 0 };
    report += &write::write(&transcript, &drives, &wanted)?;
    report += &format!("\nDrives {} are lost.\n\n$ hmsr repair drives\n", listed(&LOST));
    let written = lose(&drives)?;
    report += &repair::repair(&drives, Wanted::default())?;
    report += &format!("\nThe transcript from drives {} alone.\n\n$ hmsr open others opened.txt\n", listed(&OPENED));
    report += &opened(&place.0, &drives)?;
    report += &compared(&place.0, &drives, &text, &written)?;
    let shape = Cards::load(&drives)?.shape;
    report += "\nSymbols and bytes sent, against repairs that read whole drives (through one new drive that passes the others\n\
               on, or each new drive by itself):\n\n";
    report += &traffic::table(shape);
    report += &format!("\n{}\n", traffic::ENCODING);
    Ok(report.replace(&format!("{}/", shown(&place.0)), "").into())
}

/// A made-up hearing.
fn sample() -> String {
    let line = |number: usize| match number % 3 {
        0 => format!("{number:05}  Q.  Where were you at page {}?\n", number / 25),
        1 => format!("{number:05}  A.  At the office, counsel, as I said before.\n"),
        _ => format!("{number:05}      THE COURT: Let the record show it.\n"),
    };
    (0..LINES).map(line).collect()
}

/// Removes the lost cards, and gives what they held.
fn lose(drives: &Path) -> Result<Vec<Vec<u8>>, Failure> {
    let take = |path: PathBuf| fs::read(&path).and_then(|card| fs::remove_file(&path).map(|()| card));
    let failed = |e: io::Error| Failure::of_path("take cards from", drives, &e);
    LOST.iter().map(|&node| take(card_path(drives, node)).map_err(failed)).collect()
}

/// Opens the transcript from a directory that has some of the cards alone.
fn opened(place: &Path, drives: &Path) -> Result<String, Failure> {
    let others = place.join("others");
    let failed = |e| Failure::of_path("copy cards to", &others, &e);
    fs::create_dir(&others).map_err(failed)?;
    for node in OPENED {
        fs::copy(card_path(drives, node), card_path(&others, node)).map_err(failed)?;
    }
    open::open(&others, &place.join("opened.txt"), &[])
}

/// Whether the transcript and the lost cards are as they were.
fn compared(place: &Path, drives: &Path, text: &str, written: &[Vec<u8>]) -> Result<String, Failure> {
    let failed = |e| Failure::of_path("read", place, &e);
    if fs::read(place.join("opened.txt")).map_err(failed)? != text.as_bytes() {
        return Err(Failure::Lost("the transcript that was opened is another one".to_string()));
    }
    for (&node, card) in LOST.iter().zip(written) {
        if fs::read(card_path(drives, node)).map_err(failed)? != *card {
            return Err(Failure::Lost(format!("the new card of node {node} is another one")));
        }
    }
    Ok("\nThe transcript and the three cards are the same, byte for byte.\n".to_string())
}

/// A new directory that goes away with this value.
struct Temporary(PathBuf);

impl Temporary {
    fn make() -> Result<Temporary, Failure> {
        let path = env::temp_dir().join(format!("hmsr-demo-{}", process::id()));
        fs::create_dir(&path).map_err(|e| Failure::of_path("make the directory", &path, &e))?;
        Ok(Temporary(path))
    }
}

impl Drop for Temporary {
    fn drop(&mut self) {
        let _ = fs::remove_dir_all(&self.0);
    }
}
