//! The cards of one archive in a directory: which nodes they are of, whether they agree, and the transcript in them.
use std::ops::Range;
use std::path::{Path, PathBuf};

use hmsr::{Header, Refusal, Shape, Stretches};

use super::card_files::{card_name, card_path, numbers_of_cards, read_card, Card, Unreadable};
use super::groups::{self, described, kind, Kind};
use super::text::{counted, joined, nodes_listed, shown};
use super::Failure;

/// The cards of one archive.
pub struct Cards {
    pub directory: PathBuf,
    pub shape: Shape,
    pub length: usize,
    /// The hearing number, 0 for none.
    pub hearing: usize,
    /// The readable cards of this archive.
    cards: Vec<Card>,
    /// The readable cards of others.
    foreign: Vec<Card>,
    /// For each node, the place among the cards of the one that is used.
    used: Vec<Option<usize>>,
    /// The numbers in the names of files that are no readable cards, and why.
    unreadable: Vec<(usize, Unreadable)>,
}

impl Cards {
    /// Reads the directory's cards. A card is of the node that its header names, whatever its file is named.
    pub fn load(directory: &Path) -> Result<Cards, Failure> {
        let mut cards = Vec::new();
        let mut unreadable = Vec::new();
        for named in numbers_of_cards(directory)? {
            match read_card(&card_path(directory, named)) {
                Ok((header, symbols)) => cards.push(Card { named, header, symbols }),
                Err(why) => unreadable.push((named, why)),
            }
        }
        let Some(wanted) = groups::decided(directory, &cards)? else {
            return Err(none_readable(directory, &unreadable));
        };
        let (cards, foreign): (Vec<Card>, Vec<Card>) = cards.into_iter().partition(|card| kind(card) == wanted);
        let Kind { shape, length, hearing } = wanted;
        let used = (0..shape.nodes).map(|node| used(&cards, node)).collect();
        Ok(Cards { directory: directory.to_path_buf(), shape, length, hearing, cards, foreign, used, unreadable })
    }

    /// Cards of another archive stop every command: their nodes may be missing, and then they have those nodes' names.
    pub fn refuse_foreign(&self) -> Result<(), Failure> {
        match groups::foreign_described(&self.directory, &self.foreign, self.kind()) {
            Some(foreign) => Err(Failure::Repairable(foreign)),
            None => Ok(()),
        }
    }

    /// The nodes whose cards can be used, rising.
    pub fn present(&self) -> Vec<usize> {
        (0..self.shape.nodes).filter(|&node| self.used[node].is_some()).collect()
    }

    /// The nodes whose cards are missing, cannot be read or are in doubt, rising.
    pub fn absent(&self) -> Vec<usize> {
        (0..self.shape.nodes).filter(|&node| self.used[node].is_none()).collect()
    }

    /// Why the file with a node's name is no readable card, where it is there and is none.
    pub fn unreadable(&self, node: usize) -> Option<&Unreadable> {
        self.unreadable.iter().find(|(named, _)| *named == node).map(|(_, why)| why)
    }

    /// The node of the readable card that has a node's name.
    pub fn node_of_name(&self, named: usize) -> Option<usize> {
        self.cards.iter().find(|card| card.named == named).map(|card| card.header.node)
    }

    /// The numbers in the names of all cards of a node.
    pub fn names_of(&self, node: usize) -> Vec<usize> {
        self.cards.iter().filter(|card| card.header.node == node).map(|card| card.named).collect()
    }

    /// Whether a name is the name of some file that was there.
    pub fn is_taken(&self, named: usize) -> bool {
        self.node_of_name(named).is_some() || self.unreadable(named).is_some()
    }

    /// The files of a node's cards.
    pub fn files_of(&self, nodes: &[usize]) -> String {
        let names = nodes.iter().flat_map(|&node| self.names_of(node));
        joined(names.map(|named| shown(&card_path(&self.directory, named))))
    }

    /// The absent nodes in words.
    pub fn absent_described(&self) -> String {
        joined(self.absent().into_iter().map(|node| self.why_absent(node)))
    }

    fn why_absent(&self, node: usize) -> String {
        match (self.doubt(node), self.unreadable(node)) {
            (Some(doubt), _) => doubt,
            (None, Some(why)) => format!("node {node} cannot be read ({why})"),
            (None, None) => format!("node {node} is missing"),
        }
    }

    /// Where several cards of a node differ, which they are.
    pub fn doubt(&self, node: usize) -> Option<String> {
        let names = self.names_of(node);
        if self.used[node].is_some() || names.is_empty() {
            return None;
        }
        let names: Vec<String> = names.into_iter().map(card_name).collect();
        Some(format!("node {node} cannot be told ({} are its cards and differ)", names.join(" and ")))
    }

    /// The cards that are not under their own names, a line each.
    pub fn notes(&self) -> String {
        let misnamed = self.cards.iter().filter(|card| card.named != card.header.node);
        let note = |card: &Card| {
            let (name, node) = (card_name(card.named), card.header.node);
            match self.used[node].map(|place| self.cards[place].named) {
                Some(used) if used == card.named => {
                    format!("note: {name} is the card of node {node}, and read as such\n")
                }
                Some(used) => format!("note: {name} is a copy of {}\n", card_name(used)),
                None => String::new(),
            }
        };
        misnamed.map(note).collect()
    }

    /// A node's symbols, where its card can be used.
    pub fn symbols(&self, node: usize) -> Option<&[u16]> {
        self.used[node].map(|place| &*self.cards[place].symbols)
    }

    /// The symbols of nodes, one behind the other; those of an absent node are 0.
    pub fn symbols_of(&self, nodes: &[usize]) -> Vec<u16> {
        let zeros = vec![0; self.shape.node_symbols().unwrap_or(0)];
        nodes.iter().flat_map(|&node| self.symbols(node).unwrap_or(&zeros).iter().copied()).collect()
    }

    /// Refuses where fewer cards can be used than are needed.
    pub fn need(&self, count: usize, kind: fn(String) -> Failure, advice: &str) -> Result<(), Failure> {
        let present = self.present();
        if count <= present.len() {
            return Ok(());
        }
        let doubts: String = (0..self.shape.nodes).filter_map(|node| self.doubt(node)).map(|d| d + "; ").collect();
        let cards = match &present[..] {
            [] => "no card can be used".to_string(),
            [node] => format!("1 readable card (node {node}) is too few"),
            _ => format!("{} readable cards ({}) are too few", present.len(), nodes_listed(&present)),
        };
        let needed = if count == 1 { "1 is needed".to_string() } else { format!("{count} are needed") };
        Err(kind(format!("{cards}: {needed}; {doubts}{advice}")))
    }

    /// The transcript from k nodes.
    pub fn transcript(&self, nodes: &[usize]) -> Result<Vec<u8>, Failure> {
        self.shape.open_to_vec(nodes, &self.symbols_of(nodes), self.length).map_err(not_opened)
    }

    /// Stretches of the transcript from k nodes.
    pub fn stretches(&self, nodes: &[usize], stretches: &[Range<usize>]) -> Result<Stretches, Failure> {
        let opened = self.shape.open_stretches_to_vec(nodes, &self.symbols_of(nodes), self.length, stretches);
        let past = stretches.iter().find(|stretch| stretch.end > self.length);
        opened.map_err(|refusal| match (refusal, past) {
            (Refusal::PastEnd, Some(Range { start, end })) => {
                let what = format!("stretch {start}..{end} cannot be opened");
                let advice = format!("the transcript has {}", counted(self.length, "byte"));
                Failure::refused(Failure::Usage, &what, refusal, &advice)
            }
            _ => not_opened(refusal),
        })
    }

    /// A node's card, with its symbols among those of all nodes.
    pub fn packed(&self, node: usize, nodes: &[u16]) -> Result<Vec<u8>, Failure> {
        let refused = |refusal| {
            Failure::refused(Failure::Lost, "the new card cannot be packed", refusal, "this is a fault of the program")
        };
        let size = self.shape.node_symbols().map_err(refused)?;
        let header = Header { shape: self.shape, node, length: self.length, hearing: self.hearing };
        header.pack_to_vec(&nodes[node * size..][..size]).map_err(refused)
    }

    fn kind(&self) -> Kind {
        Kind { shape: self.shape, length: self.length, hearing: self.hearing }
    }

    /// The archive in words.
    pub fn described(&self) -> String {
        described(self.kind())
    }
}

/// The place of a node's card, where no other card of it differs: that under its own name, or else the first.
fn used(cards: &[Card], node: usize) -> Option<usize> {
    if !groups::same(cards.iter().filter(|card| card.header.node == node)) {
        return None;
    }
    let of_node = |card: &Card| card.header.node == node;
    let own = cards.iter().position(|card| of_node(card) && card.named == node);
    own.or_else(|| cards.iter().position(of_node))
}

fn not_opened(refusal: Refusal) -> Failure {
    Failure::refused(Failure::Lost, "the cards do not open", refusal, "some are damaged, or their length is")
}

fn none_readable(directory: &Path, unreadable: &[(usize, Unreadable)]) -> Failure {
    let directory = shown(directory);
    Failure::Lost(match unreadable.first() {
        Some((node, why)) => format!("no card in {directory} can be read; {}: {why}", card_name(*node)),
        None => format!("{directory} holds no cards (node-00.card and so on): name the directory that has them"),
    })
}
