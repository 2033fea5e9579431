//! Files that are named as cards: which are there, and reading one.
use std::fmt;
use std::fs;
use std::io;
use std::path::{Path, PathBuf};

use hmsr::{unpack_to_vec, Header, Refusal};

use super::choice::MOST_LAYERS;
use super::{files, Failure};

/// "n may be 3 to 14".
const MOST_NODES: usize = 14;

/// The bytes of the largest buffer that a card is packed into: no card is longer.
const MOST_CARD: usize = 15 + 2 * (MOST_LAYERS << MOST_NODES);

/// Names have two digits.
pub const MOST_NAMES: usize = 100;

/// A readable card.
pub struct Card {
    /// The number in its file's name; the header may say another node.
    pub named: usize,
    pub header: Header,
    pub symbols: Vec<u16>,
}

/// Why a file is not a readable card.
#[derive(Debug)]
pub enum Unreadable {
    /// Its bytes were not read: it may be a good card.
    NotRead(io::Error),
    /// Its bytes are no card.
    NoCard(Refusal),
}

impl fmt::Display for Unreadable {
    fn fmt(&self, f: &mut fmt::Formatter<'_>) -> fmt::Result {
        match self {
            Unreadable::NotRead(cause) => cause.fmt(f),
            Unreadable::NoCard(refusal) => write!(f, "refusal {}, {refusal}", refusal.number()),
        }
    }
}

/// Where a node's card stands.
pub fn card_path(directory: &Path, node: usize) -> PathBuf {
    directory.join(card_name(node))
}

pub fn card_name(node: usize) -> String {
    format!("node-{node:02}.card")
}

/// The number in a card's name.
pub fn number_of_name(name: &std::ffi::OsStr) -> Option<usize> {
    (0..MOST_NAMES).find(|&node| name == card_name(node).as_str())
}

/// The numbers, rising, in the names of the directory's cards.
pub fn numbers_of_cards(directory: &Path) -> Result<Vec<usize>, Failure> {
    let failed = |e| Failure::of_path("read the directory", directory, &e);
    let mut numbers = Vec::new();
    for entry in fs::read_dir(directory).map_err(failed)? {
        numbers.extend(number_of_name(&entry.map_err(failed)?.file_name()));
    }
    numbers.sort_unstable();
    Ok(numbers)
}

/// A card's header and symbols. No more than the longest card is read.
pub fn read_card(path: &Path) -> Result<(Header, Vec<u16>), Unreadable> {
    let bytes = files::read(path, MOST_CARD).map_err(Unreadable::NotRead)?;
    let unpacked = bytes.map_or(Err(Refusal::Malformed), |bytes| unpack_to_vec(&bytes));
    unpacked.map_err(Unreadable::NoCard)
}
