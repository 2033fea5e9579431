//! Which archive the cards of a directory are of, where their headers do not all say the same.
use std::path::Path;

use hmsr::{Header, Shape};

use super::card_files::{card_name, card_path, Card};
use super::text::{counted, joined, shown};
use super::Failure;

/// What the cards of an archive have in common.
#[derive(Clone, Copy, PartialEq, Eq)]
pub struct Kind {
    pub shape: Shape,
    /// The transcript's length.
    pub length: usize,
    /// The hearing number, 0 for none.
    pub hearing: usize,
}

pub fn kind(card: &Card) -> Kind {
    let Header { shape, length, hearing, .. } = card.header;
    Kind { shape, length, hearing }
}

/// A kind in words.
pub fn described(kind: Kind) -> String {
    let Shape { nodes, data, layers } = kind.shape;
    let (layers, bytes) = (counted(layers, "layer"), counted(kind.length, "byte"));
    let hearing = if kind.hearing == 0 { String::new() } else { format!(", hearing {}", kind.hearing) };
    format!("{nodes} nodes, any {data} of them, {layers}, {bytes}{hearing}")
}

/// The kind that all cards have; or else the one that has its k nodes and more of them than every other kind.
pub fn decided(directory: &Path, cards: &[Card]) -> Result<Option<Kind>, Failure> {
    let kinds = kinds(cards);
    if kinds.len() < 2 {
        return Ok(kinds.first().copied());
    }
    let count = |kind: &Kind| usable(cards, *kind);
    let decides = |one: &Kind| {
        count(one) >= one.shape.data && kinds.iter().all(|other| other == one || count(other) < count(one))
    };
    match kinds.iter().find(|kind| decides(kind)) {
        Some(kind) => Ok(Some(*kind)),
        None => Err(undecided(directory, cards, &kinds)),
    }
}

/// Every kind once, by the first card that has it.
fn kinds(cards: &[Card]) -> Vec<Kind> {
    let mut kinds = Vec::new();
    for kind in cards.iter().map(kind) {
        if !kinds.contains(&kind) {
            kinds.push(kind);
        }
    }
    kinds
}

/// The nodes of a kind with a card that no other card contradicts.
fn usable(cards: &[Card], wanted: Kind) -> usize {
    let of_node = |node: usize| cards.iter().filter(move |card| kind(card) == wanted && card.header.node == node);
    (0..wanted.shape.nodes).filter(|&node| same(of_node(node))).count()
}

/// Whether there are cards, and all with the same symbols.
pub fn same<'a>(mut cards: impl Iterator<Item = &'a Card>) -> bool {
    cards.next().is_some_and(|first| cards.all(|card| card.symbols == first.symbols))
}

/// The names of the cards of a kind.
fn names(cards: &[Card], wanted: Kind) -> String {
    joined(cards.iter().filter(|card| kind(card) == wanted).map(|card| card_name(card.named)))
}

/// Where one of the kinds has a hearing number, one that has none is said to have none.
fn undecided(directory: &Path, cards: &[Card], kinds: &[Kind]) -> Failure {
    let numbered = kinds.iter().any(|kind| kind.hearing != 0);
    let none = |kind: &Kind| if numbered && kind.hearing == 0 { ", no hearing number" } else { "" };
    let group = |wanted: &Kind| format!("{} ({}{})", names(cards, *wanted), described(*wanted), none(wanted));
    let groups: Vec<String> = kinds.iter().map(group).collect();
    Failure::Lost(format!(
        "the cards in {} are of different archives, and it cannot be told which is meant: {}; none is used: find more \
         cards of the one that is meant",
        shown(directory),
        groups.join(" or ")
    ))
}

/// What is wrong with the cards of other kinds than the one that is meant, where there are some: first those of another
/// shape or length, then those that differ in the hearing number alone.
pub fn foreign_described(directory: &Path, foreign: &[Card], meant: Kind) -> Option<String> {
    let in_hearing_alone = |kind: &Kind| Kind { hearing: meant.hearing, ..*kind } == meant;
    let (hearings, others): (Vec<Kind>, Vec<Kind>) = kinds(foreign).into_iter().partition(in_hearing_alone);
    let files = |kinds: &[Kind]| -> Vec<String> {
        let cards = foreign.iter().filter(|card| kinds.contains(&kind(card)));
        cards.map(|card| shown(&card_path(directory, card.named))).collect()
    };
    let mut complaints = Vec::new();
    if let Some(first) = others.first() {
        complaints.push(of_another_archive(files(&others), *first, meant));
    }
    if !hearings.is_empty() {
        let groups = hearings.iter().map(|kind| with_number(files(&[*kind]), kind.hearing));
        complaints.push(of_another_hearing(groups.collect(), meant.hearing));
    }
    (!complaints.is_empty()).then(|| complaints.join("; "))
}

fn of_another_archive(files: Vec<String>, first: Kind, meant: Kind) -> String {
    let is = if files.len() == 1 { "is" } else { "are" };
    format!(
        "{} {is} of another archive ({}) than most here ({}): keep the cards of one archive in a directory",
        joined(files),
        described(first),
        described(meant)
    )
}

/// "drives/node-03.card has hearing number 701".
fn with_number(files: Vec<String>, hearing: usize) -> String {
    let has = if files.len() == 1 { "has" } else { "have" };
    match hearing {
        0 => format!("{} {has} no hearing number", joined(files)),
        number => format!("{} {has} hearing number {number}", joined(files)),
    }
}

fn of_another_hearing(groups: Vec<String>, meant: usize) -> String {
    let most = if meant == 0 { "no hearing number".to_string() } else { meant.to_string() };
    format!("{}, most here have {most}: keep the cards of one hearing in a directory", groups.join(" and "))
}
