//! What keeps a node's card from being made anew: nothing is written over but a file whose bytes are no card. And what
//! keeps a readable card from being corrected.
use std::fs;
use std::io;
use std::path::{Path, PathBuf};

use super::card_files::{card_name, card_path, read_card, Unreadable, MOST_NAMES};
use super::cards::Cards;
use super::text::shown;
use super::Failure;

/// Why an absent node's card cannot be put under its name, and what to do about it.
pub fn obstacle(cards: &Cards, node: usize) -> Result<(), Failure> {
    if cards.doubt(node).is_some() {
        let files = cards.files_of(&[node]);
        return Err(Failure::Repairable(format!("{files} are cards of node {node} and differ: move them all away")));
    }
    let path = card_path(&cards.directory, node);
    match cards.node_of_name(node) {
        Some(other) => Err(Failure::Repairable(format!("{} is {}", shown(&path), in_the_way(cards, node, other)))),
        None => replaceable(&path, cards.unreadable(node)),
    }
}

/// What to do with the card of one node that has the name of another. The name that it is to have is always free.
fn in_the_way(cards: &Cards, named: usize, node: usize) -> String {
    if cards.doubt(node).is_some() {
        return format!("one of several cards of node {node} that differ: move them all away");
    }
    if let Some(copy) = cards.names_of(node).into_iter().find(|&other| other != named) {
        return format!("a copy of {}: move it away", card_name(copy));
    }
    let free = std::iter::once(node).chain(cards.shape.nodes..MOST_NAMES).find(|&name| !cards.is_taken(name));
    match free {
        Some(name) => format!("the card of node {node}: rename it to {}, which is free", card_name(name)),
        None => format!("the card of node {node}, and every name is taken: move the copies of other cards away"),
    }
}

/// Reads the file once more, as a card. One that cannot be read at all may be a good card.
fn replaceable(path: &Path, at_first: Option<&Unreadable>) -> Result<(), Failure> {
    let file = shown(path);
    match fs::symlink_metadata(path) {
        Err(e) if e.kind() == io::ErrorKind::NotFound => return Ok(()),
        Ok(there) if !there.is_file() => return Err(Failure::Io(format!("{file} is not a file: move it away"))),
        _ => {}
    }
    let again = read_card(path);
    match (&again, at_first) {
        (Ok(_), _) => Err(Failure::Io(format!("{file} could not be read at first, but is a card: try again"))),
        (Err(Unreadable::NotRead(e)), _) | (_, Some(Unreadable::NotRead(e))) => {
            Err(Failure::Io(format!("{file} may be good, but cannot be read: {e}; if it is lost, move it away")))
        }
        (Err(Unreadable::NoCard(_)), _) => Ok(()),
    }
}

/// The file of a readable card that is to be corrected; or why it cannot be. A copy of the card would keep the byte as it
/// was, and so would the file that a link names.
pub fn corrected_file(cards: &Cards, node: usize) -> Result<PathBuf, Failure> {
    let files = cards.files_of(&[node]);
    let [named] = cards.names_of(node)[..] else {
        return Err(Failure::Repairable(format!("{files} are all cards of node {node}: move all but one away")));
    };
    let path = card_path(&cards.directory, named);
    match fs::symlink_metadata(&path) {
        Ok(there) if there.is_symlink() => {
            Err(Failure::Io(format!("{files} is a link and would be replaced: put the card itself there")))
        }
        _ => Ok(path),
    }
}
