//! `hmsr repair`: missing and unreadable cards made anew, with the help of k + 1 others.
use std::path::Path;

use hmsr::Shape;

use super::agreement::Agreement;
use super::args::Args;
use super::card_files::card_path;
use super::cards::Cards;
use super::files::{self, Pending};
use super::obstacles::obstacle;
use super::text::{joined, nodes_listed, shown};
use super::traffic::{packed_bytes, Traffic, ENCODING};
use super::{plan, temporary, Failure, Report};

/// What the user asks for.
#[derive(Default)]
pub struct Wanted {
    /// The nodes to be repaired; every absent one where none are named.
    dead: Option<Vec<usize>>,
    helpers: Option<Vec<usize>>,
    /// Nothing is to be changed.
    dry_run: bool,
}

pub fn run(args: &Args) -> Result<Report, Failure> {
    let (dead, helpers) = (args.list("--dead")?, args.list("--helpers")?);
    repair(args.path(0), Wanted { dead, helpers, dry_run: args.has("--dry-run") }).map(Report::from)
}

/// Repairs the dead nodes that are wanted.
pub fn repair(directory: &Path, wanted: Wanted) -> Result<String, Failure> {
    let cards = Cards::load(directory)?;
    if !wanted.dry_run {
        temporary::clean(directory);
    }
    agree(&cards)?;
    let dead = chosen_dead(&cards, wanted.dead)?;
    let helpers = chosen_helpers(&cards, wanted.helpers)?;
    if dead.is_empty() {
        let (archive, notes) = (cards.described(), cards.notes());
        return Ok(format!("nothing to repair: all cards are there and agree ({archive})\n{notes}"));
    }
    dead.iter().try_for_each(|&node| obstacle(&cards, node))?;
    let (nodes, report) = repaired(&cards, &dead, &helpers)?;
    if !wanted.dry_run {
        put_cards(&cards, &dead, &nodes)?;
    }
    let made = if wanted.dry_run { "not made, as this is a dry run:" } else { "made" };
    let names = joined(dead.iter().map(|&node| shown(&card_path(directory, node))));
    Ok(format!("{report}{made} {names}\n{}", cards.notes()))
}

/// Refuses cards that are too few or do not all agree, with what can be done.
fn agree(cards: &Cards) -> Result<(), Failure> {
    let data = cards.shape.data;
    cards.need(data, Failure::Lost, "find more of them")?;
    let agreement = Agreement::of(cards)?;
    cards.transcript(&agreement.right[..data])?;
    cards.refuse_foreign()?;
    let advice = "they still open: open the transcript, and write it anew into another directory";
    cards.need(data + 1, Failure::Repairable, advice)?;
    agreement.refuse_wrong(cards)
}

/// Only absent nodes are repaired, so that no readable card is written over.
fn chosen_dead(cards: &Cards, named: Option<Vec<usize>>) -> Result<Vec<usize>, Failure> {
    let absent = cards.absent();
    let Some(named) = named else {
        return Ok(absent);
    };
    match named.iter().find(|node| !absent.contains(node)) {
        Some(node) if *node < cards.shape.nodes => Err(Failure::Usage(format!(
            "node {node} is not dead, its card can be read: move {} away first",
            cards.files_of(&[*node])
        ))),
        Some(node) => Err(no_such_node(cards, *node)),
        None => Ok(named),
    }
}

/// The helpers that are named, or the first k + 1 nodes whose cards can be read.
fn chosen_helpers(cards: &Cards, named: Option<Vec<usize>>) -> Result<Vec<usize>, Failure> {
    let mut present = cards.present();
    let Some(named) = named else {
        present.truncate(cards.shape.data + 1);
        return Ok(present);
    };
    match named.iter().find(|node| !present.contains(node)) {
        Some(node) if *node < cards.shape.nodes => {
            Err(Failure::Usage(format!("node {node} cannot help, it has no readable card: name another")))
        }
        Some(node) => Err(no_such_node(cards, *node)),
        None => Ok(named),
    }
}

fn no_such_node(cards: &Cards, node: usize) -> Failure {
    Failure::Usage(format!("there is no node {node}: nodes are 0 to {}", cards.shape.nodes - 1))
}

/// All nodes after the repair, and the plans it went by. A loss that the number of layers does not let be repaired in one
/// go is repaired in several.
fn repaired(cards: &Cards, dead: &[usize], helpers: &[usize]) -> Result<(Vec<u16>, String), Failure> {
    let shape = cards.shape;
    let advice = format!("name exactly {} helpers", shape.data + 1);
    let refused = |refusal| Failure::refused(Failure::Usage, "the repair cannot be made", refusal, &advice);
    let mut nodes = cards.symbols_of(&(0..shape.nodes).collect::<Vec<_>>());
    let mut report = String::new();
    let mut rest = dead;
    while !rest.is_empty() {
        let (now, later) = rest.split_at(in_one_go(shape, rest.len()));
        hmsr::Repair { shape, dead: now, helpers }.repair_nodes(&mut nodes).map_err(refused)?;
        report += &plan_described(shape, now, helpers)?;
        rest = later;
    }
    Ok((nodes, report))
}

/// The most dead nodes of those left that can be repaired together. One always can.
fn in_one_go(shape: Shape, left: usize) -> usize {
    (1..=left).rev().find(|&dead_count| shape.message_symbols(dead_count).is_ok()).unwrap_or(1)
}

/// A plan with the symbols and bytes of each message, and of the repairs that it spares.
fn plan_described(shape: Shape, dead: &[usize], helpers: &[usize]) -> Result<String, Failure> {
    let mut report = format!("repair of {} with the help of {}\n", nodes_listed(dead), nodes_listed(helpers));
    report += "from  to  symbols     bytes\n";
    for message in plan::messages(shape, dead, helpers)? {
        let bytes = packed_bytes(message.symbols);
        report += &format!("{:>4}{:>4}{:>9}{bytes:>10}\n", message.sender, message.receiver, message.symbols);
    }
    if let Some(t) = Traffic::of(shape, dead.len()) {
        let sent = [(" in all", t.cooperative), (" with whole nodes through one new node", t.through_one)];
        for (way, sent) in sent.into_iter().chain([(" with whole nodes to each alone", t.each_alone)]) {
            report += &format!("{:>8}{:>9}{:>10}{way}\n", "", sent.symbols, sent.bytes);
        }
    }
    Ok(report + ENCODING + "\n")
}

/// Puts the new cards in place once all of them are on the disk.
fn put_cards(cards: &Cards, dead: &[usize], nodes: &[u16]) -> Result<(), Failure> {
    let mut pending = Vec::new();
    for &node in dead {
        pending.push((node, pending_card(cards, node, nodes)?));
    }
    let failed = |e| Failure::of_path("put new cards into", &cards.directory, &e);
    for (node, card) in pending {
        // Where no file was to be replaced, one that came meanwhile is not.
        match cards.is_taken(node) {
            true => card.place().map_err(failed)?,
            false => card.place_new().map_err(failed)?,
        }
    }
    files::sync_directory(&cards.directory)
}

/// A node's new card under a temporary name.
fn pending_card(cards: &Cards, node: usize, nodes: &[u16]) -> Result<Pending, Failure> {
    let card = cards.packed(node, nodes)?;
    let failed = |e| Failure::of_path("write a new card into", &cards.directory, &e);
    Pending::replacing(&card_path(&cards.directory, node), &card).map_err(failed)
}
