//! `hmsr correct`: one byte of the transcript, in the cards that it changes.
//!
//! A correction that is killed between two renames leaves cards of two codewords, with the byte as it was and as it is to
//! be. They differ in n - k + 1 nodes, so, as long as no card is lost besides, no third codeword agrees with all cards but
//! (n - k) div 2: the other commands name the fewer cards as wrong, and those moved away and repaired give one of the two;
//! or there are as many of both, and they cannot tell. In either case the same correction again finishes it, and one from
//! Y to X takes it back.
use std::path::Path;

use super::args::Args;
use super::cards::Cards;
use super::obstacles::corrected_file;
use super::replace::replace;
use super::text::{byte_shown, hearing_line, joined, shown};
use super::{check, files, temporary, Failure, Report};

/// One byte of the transcript, what it is, and what it is to be.
struct Erratum {
    byte: usize,
    from: u8,
    to: u8,
}

/// The symbols of all nodes with the byte as it was, and as it is to be.
struct Nodes {
    before: Vec<u16>,
    after: Vec<u16>,
}

pub fn run(args: &Args) -> Result<Report, Failure> {
    let byte = args.required_number("--at")?;
    let (from, to) = (args.required_byte("--from")?, args.required_byte("--to")?);
    correct(args.path(0), &Erratum { byte, from, to }, args.has("--dry-run")).map(Report::from)
}

fn correct(directory: &Path, erratum: &Erratum, dry_run: bool) -> Result<String, Failure> {
    let _held = if dry_run { None } else { files::hold(directory)? };
    let cards = Cards::load(directory)?;
    if !dry_run {
        temporary::clean(directory);
    }
    let nodes = nodes_of(&cards, erratum)?;
    let (done, left) = nodes.done_and_left(&cards);
    if left.is_empty() {
        let (byte, archive, notes) = (erratum.shown(erratum.from), cards.described(), cards.notes());
        return Ok(format!("nothing to correct: {byte} already, no card is rewritten ({archive})\n{notes}"));
    }
    let file = |node: usize| corrected_file(&cards, node).map(|path| (node, path));
    let files = left.into_iter().map(file).collect::<Result<Vec<_>, _>>()?;
    if !dry_run {
        replace(&cards, &files, &nodes.before, &nodes.after)?;
    }
    let rewrote = if dry_run { "not rewritten, as this is a dry run:" } else { "rewrote" };
    let names = joined(files.iter().map(|(_, path)| shown(path)));
    let (first, cut_off) = (erratum.described(nodes.size(&cards)), cut_off_described(&cards, &done));
    Ok(format!("{first}{cut_off}{rewrote} {names}\n{}{}", hearing_line(cards.hearing), cards.notes()))
}

/// What a correction that was cut off has done, where there was one.
fn cut_off_described(cards: &Cards, done: &[usize]) -> String {
    match done {
        [] => String::new(),
        _ => format!("a correction that was cut off has rewritten {}\n", cards.files_of(done)),
    }
}

/// The nodes of a sound archive, or those of a correction that was cut off.
fn nodes_of(cards: &Cards, erratum: &Erratum) -> Result<Nodes, Failure> {
    match check::judged(cards) {
        Ok(_) => nodes_of_sound(cards, erratum),
        Err(failure) => {
            let nodes = nodes_of_cut_off(cards, erratum).ok_or(failure)?;
            cards.refuse_foreign().map(|()| nodes)
        }
    }
}

/// Refuses where the byte is not what it is said to be.
fn nodes_of_sound(cards: &Cards, erratum: &Erratum) -> Result<Nodes, Failure> {
    let shape = cards.shape;
    let transcript = cards.transcript(&(0..shape.data).collect::<Vec<_>>())?;
    match transcript.get(erratum.byte) {
        Some(&there) if there != erratum.from => return Err(erratum.another(there)),
        _ => {}
    }
    let before = cards.symbols_of(&(0..shape.nodes).collect::<Vec<_>>());
    let refused = |refusal| {
        let advice = match cards.length {
            0 => "the transcript has no bytes".to_string(),
            length => format!("the transcript's bytes are 0 to {}", length - 1),
        };
        Failure::refused(Failure::Usage, &format!("byte {} cannot be corrected", erratum.byte), refusal, &advice)
    };
    let after = shape.correct_to_nodes(&before, cards.length, erratum.byte, erratum.change()).map_err(refused)?;
    Ok(Nodes { before, after })
}

/// The nodes of which every card holds the one or the other symbols, where there are such. A correction changes no data
/// node but the byte's own, so the data nodes give one of the two codewords, whichever cards it has rewritten.
fn nodes_of_cut_off(cards: &Cards, erratum: &Erratum) -> Option<Nodes> {
    let data: Vec<usize> = (0..cards.shape.data).collect();
    let there = *cards.transcript(&data).ok()?.get(erratum.byte)?;
    let given = cards.shape.restore_nodes(&data, &cards.symbols_of(&data)).ok()?;
    let other = |change| cards.shape.correct_to_nodes(&given, cards.length, erratum.byte, change);
    let nodes = match there {
        there if there == erratum.from => Nodes { after: other(erratum.change()).ok()?, before: given },
        there if there == erratum.to => Nodes { before: other(-erratum.change()).ok()?, after: given },
        _ => return None,
    };
    let symbols = |node| (cards.symbols(node), nodes.of(cards, node));
    let either = |node| matches!(symbols(node), (Some(card), [before, after]) if card == before || card == after);
    (0..cards.shape.nodes).all(either).then_some(nodes)
}

impl Nodes {
    /// How many symbols a node has.
    fn size(&self, cards: &Cards) -> usize {
        self.after.len() / cards.shape.nodes
    }

    /// A node's symbols before and after.
    fn of(&self, cards: &Cards, node: usize) -> [&[u16]; 2] {
        let size = self.size(cards);
        [&self.before, &self.after].map(|nodes| &nodes[node * size..][..size])
    }

    /// The nodes that the correction changes, rising: those whose cards hold it, and the others.
    fn done_and_left(&self, cards: &Cards) -> (Vec<usize>, Vec<usize>) {
        let changes = |node: &usize| self.of(cards, *node)[0] != self.of(cards, *node)[1];
        let is_done = |node: &usize| cards.symbols(*node) == Some(self.of(cards, *node)[1]);
        (0..cards.shape.nodes).filter(changes).partition(is_done)
    }
}

impl Erratum {
    fn change(&self) -> i64 {
        i64::from(self.to) - i64::from(self.from)
    }

    /// "Transcript byte number b stands on node b div N at place b mod N."
    fn described(&self, size: usize) -> String {
        let (node, place) = (self.byte / size, self.byte % size);
        let (from, to) = (byte_shown(self.from), byte_shown(self.to));
        format!("correction of byte {}, on node {node} at place {place}, from {from} to {to}\n", self.byte)
    }

    /// "byte 9 is 97 ('a')".
    fn shown(&self, there: u8) -> String {
        format!("byte {} is {}", self.byte, byte_shown(there))
    }

    /// Another byte is there.
    fn another(&self, there: u8) -> Failure {
        let digit = match there.is_ascii_digit() {
            true => format!(" (the digit is given by its number, {there})"),
            false => String::new(),
        };
        let already = if there == self.to { " already" } else { "" };
        let (byte, from) = (self.shown(there), byte_shown(self.from));
        Failure::Usage(format!("{byte}{already}, not {from}{digit}: nothing is changed"))
    }
}
