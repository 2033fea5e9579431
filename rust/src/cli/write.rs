//! `hmsr write`: a transcript into one card a node.
use std::fs;
use std::io;
use std::path::{Path, PathBuf};

use hmsr::{Header, Shape};

use super::args::Args;
use super::card_files::{card_name, card_path, numbers_of_cards};
use super::choice::{self, Layers};
use super::files::{self, Pending};
use super::temporary::{self, Temporary};
use super::text::{counted, hearing_line, shown};
use super::{layers, Failure, Report};

/// "0 for none, otherwise 1 to 999,999".
const MOST_HEARING: usize = 999_999;

/// What the user asks for.
pub struct Wanted {
    pub nodes: usize,
    pub data: usize,
    pub layers: Layers,
    /// The hearing number, 0 for none.
    pub hearing: usize,
}

pub fn run(args: &Args) -> Result<Report, Failure> {
    let (nodes, data) = (args.required_number("--nodes")?, args.required_number("--data")?);
    let wanted = Wanted { nodes, data, layers: layers_asked(args, nodes, data)?, hearing: hearing(args)? };
    write(args.path(0), args.path(1), &wanted).map(Report::from)
}

/// The layers that are named, or those for the losses that are. Losses are judged here, before the transcript is read.
fn layers_asked(args: &Args, nodes: usize, data: usize) -> Result<Layers, Failure> {
    match (args.number("--layers")?, args.losses()?) {
        (Some(_), Some(_)) => Err(Failure::argument("--layers and --losses: give only one of them")),
        (Some(layers), None) => Ok(Layers::Named(layers)),
        (None, Some(losses)) => Ok(Layers::MultipleOf(layers::for_losses(nodes, data, &losses)?.layers)),
        (None, None) => Ok(Layers::Best),
    }
}

/// The hearing number that is named, or 0. It is judged here, before the transcript is read; the library judges it when
/// a card is packed.
fn hearing(args: &Args) -> Result<usize, Failure> {
    let number = args.number("--hearing")?.unwrap_or(0);
    if number <= MOST_HEARING {
        return Ok(number);
    }
    let complaint = format!("--hearing: {number} is too large, hearing numbers are 1 to {MOST_HEARING}, or 0 for none");
    Err(Failure::argument(&complaint))
}

/// Writes the file's bytes into cards in the directory, which is made where it is not there.
pub fn write(file: &Path, directory: &Path, wanted: &Wanted) -> Result<String, Failure> {
    let &Wanted { nodes, data, layers, hearing } = wanted;
    let bytes = files::read_input(file, choice::most_bytes(nodes, data)?)?;
    // A transcript of more than the most bytes was not read; a length that no archive holds stands for it.
    let length = bytes.as_ref().map_or(usize::MAX, Vec::len);
    let shape = choice::choose(nodes, data, layers, length)?;
    let cards = packed(shape, hearing, &bytes.unwrap_or_default())?;
    let finished = put_cards(directory, &cards)?;
    let gives = if data == 1 { "of them gives" } else { "of them give" };
    Ok(format!(
        "wrote {} into {nodes} cards in {}: any {data} {gives} it back\n{}, {}\n{}{finished}",
        counted(length, "byte"),
        shown(directory),
        counted(shape.layers, "layer"),
        choice::described(shape),
        hearing_line(hearing)
    ))
}

/// The card of each node.
fn packed(shape: Shape, hearing: usize, transcript: &[u8]) -> Result<Vec<Vec<u8>>, Failure> {
    let refused = |refusal| {
        Failure::refused(Failure::Lost, "the transcript cannot be written", refusal, "this is a fault of the program")
    };
    let size = shape.node_symbols().map_err(refused)?;
    let symbols = shape.write_to_nodes(transcript).map_err(refused)?;
    let header = |node: usize| Header { shape, node, length: transcript.len(), hearing };
    let nodes = symbols.chunks_exact(size).enumerate();
    nodes.map(|(node, symbols)| header(node).pack_to_vec(symbols).map_err(refused)).collect()
}

/// Puts the cards into the directory, all or none. Says so where some were there.
fn put_cards(directory: &Path, cards: &[Vec<u8>]) -> Result<String, Failure> {
    temporary::clean(files::parent(directory));
    if !directory.is_dir() {
        return put_directory(directory, cards).map(|()| String::new());
    }
    temporary::clean(directory);
    let there = refuse_others(directory, cards)?;
    put_missing(directory, cards, &there)?;
    Ok(match there.len() {
        0 => String::new(),
        1 => "1 of these cards was there already\n".to_string(),
        count => format!("{count} of these cards were there already\n"),
    })
}

/// A new directory with all cards in it: made under a temporary name beside it, and given its name at once.
fn put_directory(directory: &Path, cards: &[Vec<u8>]) -> Result<(), Failure> {
    let unmade = |e| Failure::of_path("make the directory", directory, &e);
    if fs::symlink_metadata(directory).is_ok() {
        return Err(unmade(io::ErrorKind::NotADirectory.into()));
    }
    let parent = files::parent(directory);
    let made = Temporary::directory(parent).map_err(unmade)?;
    let mut written = cards.iter().enumerate();
    written
        .try_for_each(|(node, card)| files::write_new(&made.path.join(card_name(node)), card))
        .map_err(|e| Failure::of_path("write cards into", directory, &e))?;
    files::sync_directory(&made.path)?;
    made.rename(directory).map_err(unmade)?;
    files::sync_directory(parent)
}

/// The nodes whose cards are there already, all of them the very cards that are to be written: a killed write of the same
/// transcript has left them. Any other card is refused.
fn refuse_others(directory: &Path, cards: &[Vec<u8>]) -> Result<Vec<usize>, Failure> {
    let there = numbers_of_cards(directory)?;
    let same = |node: usize| cards.get(node).is_some_and(|card| holds(&card_path(directory, node), card));
    match there.iter().find(|&&node| !same(node)) {
        Some(&node) => {
            let card = shown(&card_path(directory, node));
            Err(Failure::Io(format!("{card} is there already: choose another directory")))
        }
        None => Ok(there),
    }
}

/// Whether a file has exactly these bytes.
fn holds(path: &Path, card: &[u8]) -> bool {
    files::read(path, card.len()).is_ok_and(|bytes| bytes.as_deref() == Some(card))
}

/// Puts the cards that are not there into the directory; the last of them completes it. Where the same write runs twice at
/// once, each takes the cards that the other has put there.
fn put_missing(directory: &Path, cards: &[Vec<u8>], there: &[usize]) -> Result<(), Failure> {
    let failed = |e| Failure::of_path("write cards into", directory, &e);
    let mut pending = Vec::new();
    for (node, card) in cards.iter().enumerate().filter(|(node, _)| !there.contains(node)) {
        let path = card_path(directory, node);
        pending.push((Pending::write(&path, card, None).map_err(failed)?, path, card));
    }
    let mut placed = Vec::new();
    for (new, path, card) in pending {
        match new.place_new() {
            Ok(()) => placed.push(path),
            Err(_) if holds(&path, card) => {}
            Err(e) => {
                remove(&placed);
                return Err(failed(e));
            }
        }
    }
    files::sync_directory(directory)
}

/// Takes cards away that this command placed.
fn remove(placed: &[PathBuf]) {
    for card in placed {
        let _ = fs::remove_file(card);
    }
}
