//! Readable cards replaced by others, all or none as far as a file system lets them be.
use std::io;
use std::path::{Path, PathBuf};

use super::cards::Cards;
use super::files::{self, Pending};
use super::text::{joined, shown};
use super::Failure;

/// A card's file, and both its cards under temporary names.
struct Replacement {
    path: PathBuf,
    before: Pending,
    after: Pending,
}

/// Replaces the cards of these nodes, in these files, with symbols of `before` by those with symbols of `after`. Nothing
/// is replaced before all cards are on the disk, the old ones once more, so that going back takes renames alone.
pub fn replace(cards: &Cards, files: &[(usize, PathBuf)], before: &[u16], after: &[u16]) -> Result<(), Failure> {
    let mut pending = Vec::new();
    for (node, path) in files {
        let (before, after) = (cards.packed(*node, before)?, cards.packed(*node, after)?);
        let both = both_pending(path, &before, &after);
        pending.push(both.map_err(|e| failed("write a corrected card into", cards, &e, "nothing is changed"))?);
    }
    let mut replaced = Vec::new();
    for Replacement { path, before, after } in pending {
        match after.place() {
            Ok(()) => replaced.push((path, before)),
            Err(e) => return Err(failed("put corrected cards into", cards, &e, &put_back(&cards.directory, replaced))),
        }
    }
    files::sync_directory(&cards.directory)
        .map_err(|failure| Failure::Io(format!("the cards are corrected, but {}", failure.message())))
}

fn both_pending(path: &Path, before: &[u8], after: &[u8]) -> io::Result<Replacement> {
    let (before, after) = (Pending::replacing(path, before)?, Pending::replacing(path, after)?);
    Ok(Replacement { path: path.to_path_buf(), before, after })
}

fn failed(doing: &str, cards: &Cards, cause: &io::Error, state: &str) -> Failure {
    Failure::Io(format!("cannot {doing} {}: {cause}; {state}", shown(&cards.directory)))
}

/// Puts the old cards back, the last first, and says what the cards are then.
fn put_back(directory: &Path, replaced: Vec<(PathBuf, Pending)>) -> String {
    let mut left = Vec::new();
    for (path, before) in replaced.into_iter().rev() {
        if before.place().is_err() {
            left.insert(0, shown(&path));
        }
    }
    // The failure that is told is the first one.
    let _ = files::sync_directory(directory);
    match left.is_empty() {
        true => "every card is as before".to_string(),
        false => format!("{} could not be put back: the same correction again finishes it", joined(left)),
    }
}
