//! `hmsr info`: what cards say of themselves; several are sorted by hearing.
use std::path::Path;

use hmsr::{Header, Shape};

use super::args::Args;
use super::card_files::{read_card, Unreadable};
use super::text::{counted, shown};
use super::{json, Failure, Report};

/// A readable card.
struct Card<'a> {
    path: &'a Path,
    header: Header,
    symbols: usize,
}

pub fn run(args: &Args) -> Result<Report, Failure> {
    let paths = args.paths();
    let mut cards = Vec::new();
    let mut unreadable = Vec::new();
    for &path in &paths {
        match read_card(path) {
            Ok((header, symbols)) => cards.push(Card { path, header, symbols: symbols.len() }),
            Err(why) => unreadable.push((path, why)),
        }
    }
    sort(&mut cards);
    let text = match (args.has("--json"), paths.len()) {
        (true, _) => cards.iter().map(for_programs).collect(),
        (false, 1) => cards.iter().map(in_words).collect(),
        (false, _) => table(&cards),
    };
    Ok(Report { text, failure: refused(&unreadable), ..Report::default() })
}

/// By hearing number, 0 first, then what else tells archives apart, then node, then file name.
fn sort(cards: &mut [Card]) {
    cards.sort_by_key(|card| {
        let Header { shape: Shape { nodes, data, layers }, node, length, hearing } = card.header;
        (hearing, nodes, data, layers, length, node, card.path)
    });
}

/// The files that are no readable cards, on one line. One that could not be read at all decides the status: it may be a
/// good card.
fn refused(unreadable: &[(&Path, Unreadable)]) -> Option<Failure> {
    let complaint = |(path, why): &(&Path, Unreadable)| format!("{} is not a readable card: {why}", shown(path));
    let complaints: Vec<String> = unreadable.iter().map(complaint).collect();
    let not_read = unreadable.iter().any(|(_, why)| matches!(why, Unreadable::NotRead(_)));
    match (complaints.is_empty(), not_read) {
        (true, _) => None,
        (false, true) => Some(Failure::Io(complaints.join("; "))),
        (false, false) => Some(Failure::Lost(complaints.join("; "))),
    }
}

fn hearing_described(hearing: usize) -> String {
    match hearing {
        0 => "none".to_string(),
        number => number.to_string(),
    }
}

fn in_words(card: &Card) -> String {
    let Header { shape, node, length, hearing } = card.header;
    let gives = if shape.data == 1 { "gives" } else { "give" };
    format!(
        "node              {node} of 0 to {}\n\
         any               {} {gives} the transcript back\n\
         layers            {}\n\
         transcript        {}\n\
         hearing           {}\n\
         symbols           {}\n",
        shape.nodes - 1,
        counted(shape.data, "node"),
        shape.layers,
        counted(length, "byte"),
        hearing_described(hearing),
        card.symbols
    )
}

/// A line for each card, below a heading.
fn table(cards: &[Card]) -> String {
    let mut table = String::new();
    if !cards.is_empty() {
        table += "hearing  node  nodes  data  layers    bytes  file\n";
    }
    for card in cards {
        let Header { shape: Shape { nodes, data, layers }, node, length, hearing } = card.header;
        let (hearing, file) = (hearing_described(hearing), shown(card.path));
        table += &format!("{hearing:>7}  {node:>4}  {nodes:>5}  {data:>4}  {layers:>6}  {length:>7}  {file}\n");
    }
    table
}

fn for_programs(card: &Card) -> String {
    let Header { shape, node, length, hearing } = card.header;
    let object = json::object([
        ("node", node.to_string()),
        ("nodes", shape.nodes.to_string()),
        ("data", shape.data.to_string()),
        ("layers", shape.layers.to_string()),
        ("bytes", length.to_string()),
        ("symbols", card.symbols.to_string()),
        ("hearing", hearing.to_string()),
        ("file", json::string(&card.path.to_string_lossy())),
    ]);
    object + "\n"
}
