//! `hmsr check`: whether every card is there, all agree, and they hold a transcript.
use std::path::Path;

use hmsr::{Checked, Shape};

use super::agreement::Agreement;
use super::args::Args;
use super::card_files::card_name;
use super::cards::Cards;
use super::obstacles::obstacle;
use super::{json, Failure, Report};

pub fn run(args: &Args) -> Result<Report, Failure> {
    let directory = args.path(0);
    match args.has("--json") {
        true => Ok(for_programs(directory)),
        false => judged(&Cards::load(directory)?).map(Report::from),
    }
}

/// What is to be said of the cards; a failure where they are not sound.
pub fn judged(cards: &Cards) -> Result<String, Failure> {
    if cards.absent().is_empty() {
        met(cards)?;
    }
    cards.need(cards.shape.data, Failure::Lost, "find more of them: the transcript cannot be opened")?;
    let agreement = Agreement::of(cards)?;
    cards.transcript(&agreement.right[..cards.shape.data])?;
    cards.refuse_foreign()?;
    if !cards.absent().is_empty() {
        return Err(to_be_done(cards, &agreement));
    }
    let notes = cards.notes();
    Ok(format!("sound: all cards are there, agree and hold a transcript ({})\n{notes}", cards.described()))
}

/// The absent nodes, and what is to be done about them.
fn to_be_done(cards: &Cards, agreement: &Agreement) -> Failure {
    let absent = cards.absent_described();
    if let Err(wrong) = agreement.refuse_wrong(cards) {
        return Failure::Repairable(format!("{absent}; {}", wrong.message()));
    }
    let count = agreement.right.len();
    if count > cards.shape.data {
        return Failure::Repairable(format!(
            "{absent}; the other {count} agree: {}run hmsr repair",
            to_be_moved(cards)
        ));
    }
    let others = if count == 1 { "the other one is".to_string() } else { format!("the other {count} are") };
    Failure::Repairable(format!(
        "{absent}; {others} just enough to open the transcript, and none is left to compare or repair with: open it, \
         and write it anew"
    ))
}

/// What is to be done before a repair can put new cards in their places.
fn to_be_moved(cards: &Cards) -> String {
    let absent = cards.absent().into_iter();
    let mut obstacles: Vec<String> =
        absent.filter_map(|node| obstacle(cards, node).err()).map(|why| format!("{}; then ", why.message())).collect();
    obstacles.dedup();
    obstacles.concat()
}

/// The check of all nodes.
fn met(cards: &Cards) -> Result<(), Failure> {
    match cards.shape.check(&cards.symbols_of(&cards.present())) {
        Ok(Checked::Sound) => Ok(()),
        Ok(Checked::Unmet { layer, a, t }) => Err(unmet(cards, layer, a, t)),
        Ok(Checked::HighData { node, place }) => Err(no_transcript(cards, node, place)),
        Err(refusal) => {
            let what = "the cards cannot be checked";
            Err(Failure::refused(Failure::Lost, what, refusal, "this is a fault of the program"))
        }
    }
}

/// The first unmet equation, and which cards are to blame where that can be told.
fn unmet(cards: &Cards, layer: usize, a: usize, t: usize) -> Failure {
    let unmet = format!("not sound: the equation of layer {layer}, a = {a}, t = {t} is the first unmet");
    let blame = |agreement: Agreement| {
        cards.transcript(&agreement.right[..cards.shape.data])?;
        agreement.refuse_wrong(cards)
    };
    match Agreement::of(cards).and_then(blame) {
        Err(Failure::Repairable(blamed)) => Failure::Repairable(format!("{unmet}; {blamed}")),
        Err(other) => Failure::Lost(format!("{unmet}; {}", other.message())),
        Ok(()) => Failure::Lost(unmet),
    }
}

/// The first data symbol above 255, and what it means.
fn no_transcript(cards: &Cards, node: usize, place: usize) -> Failure {
    Failure::Lost(format!(
        "not sound: the drives agree, but they hold no transcript: node {node} ({}) has a symbol above 255 at place \
         {place}, which no transcript gives; find other copies of these cards",
        cards.files_of(&[node])
    ))
}

/// The same for programs: the verdict, the archive where that can be told, and each node's card.
fn for_programs(directory: &Path) -> Report {
    let (cards, verdict) = match Cards::load(directory) {
        Ok(cards) => {
            let verdict = judged(&cards);
            (Some(cards), verdict)
        }
        Err(failure) => (None, Err(failure)),
    };
    let (status, word, message) = match &verdict {
        Ok(report) => (0, "sound", report.lines().next().unwrap_or_default()),
        Err(failure) => (failure.status(), verdict_word(failure), failure.message()),
    };
    let text = json::object([
        ("status", status.to_string()),
        ("verdict", json::string(word)),
        ("message", json::string(message)),
        ("archive", cards.as_ref().map_or("null".to_string(), archive)),
        ("nodes", json::array(cards.iter().flat_map(nodes))),
    ]);
    Report { text: text + "\n", failure: verdict.err(), ..Report::default() }
}

fn verdict_word(failure: &Failure) -> &'static str {
    match failure {
        Failure::Repairable(_) => "repairable",
        Failure::Lost(_) => "lost",
        Failure::Usage(_) | Failure::Io(_) => "error",
    }
}

fn archive(cards: &Cards) -> String {
    let Shape { nodes, data, layers } = cards.shape;
    json::object([
        ("nodes", nodes.to_string()),
        ("data", data.to_string()),
        ("layers", layers.to_string()),
        ("bytes", cards.length.to_string()),
        ("hearing", cards.hearing.to_string()),
    ])
}

/// Each node with the names of its cards, and what they are.
fn nodes(cards: &Cards) -> Vec<String> {
    let agreement = match cards.present().len() < cards.shape.data {
        true => None,
        false => Agreement::of(cards).ok(),
    };
    let state = |node: usize| match (cards.symbols(node), &agreement) {
        (Some(_), Some(agreement)) if agreement.wrong.contains(&node) => "wrong",
        (Some(_), Some(_)) => "good",
        (Some(_), None) => "readable",
        (None, _) if cards.doubt(node).is_some() => "in doubt",
        (None, _) if cards.unreadable(node).is_some() => "unreadable",
        (None, _) => "missing",
    };
    let one = |node: usize| {
        let files = cards.names_of(node).into_iter().map(|named| json::string(&card_name(named)));
        json::object([("node", node.to_string()), ("state", json::string(state(node))), ("files", json::array(files))])
    };
    (0..cards.shape.nodes).map(one).collect()
}
