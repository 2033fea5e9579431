//! The calls that a repair is made of, one by one: each helper's message and each sum compared with its piece of the
//! whole repair's wire, and each new node with what the repair left there.

use super::digest::{line, mixed_all, number};
use super::trial::{nodes_of, Role, Trial};
use hmsr::{Refusal, Repair};

/// n, k, h, L, and whether the archive is a codeword.
const CASES: [(usize, usize, usize, usize, bool); 28] = [
    (3, 1, 1, 1, true),
    (3, 1, 1, 15, false),
    (4, 1, 2, 3, false),
    (4, 1, 2, 6, true),
    (5, 1, 3, 2, false),
    (5, 2, 2, 15, false),
    (6, 1, 4, 5, true),
    (6, 2, 3, 7, false),
    (7, 1, 5, 6, false),
    (7, 3, 3, 4, true),
    (8, 1, 6, 14, false),
    (8, 2, 5, 15, true),
    (8, 4, 2, 15, false),
    (9, 1, 7, 3, false),
    (9, 2, 6, 7, true),
    (9, 4, 4, 15, false),
    (10, 1, 8, 9, false),
    (10, 3, 6, 14, true),
    (11, 1, 9, 10, false),
    (11, 6, 4, 5, true),
    (12, 1, 10, 11, false),
    (12, 2, 9, 15, true),
    (12, 5, 5, 15, false),
    (12, 10, 1, 15, false),
    // h = 11 and h = 12 are new with document 02 §7.
    (13, 1, 11, 3, false),
    (13, 1, 11, 6, true),
    (14, 2, 11, 3, false),
    (14, 1, 12, 13, false),
];

/// A repair that was made, with the nodes and the wire afterwards.
struct Repaired<'a> {
    trial: Trial,
    dead: &'a [usize],
    helpers: &'a [usize],
    nodes: &'a [u16],
    wire: &'a [u16],
}

impl<'a> Repaired<'a> {
    fn calls(&self) -> Repair<'a> {
        Repair { shape: self.trial.shape, dead: self.dead, helpers: self.helpers }
    }

    /// The symbols of a node.
    fn node(&self, node: usize) -> &'a [u16] {
        let size = self.trial.node_symbols();
        &self.nodes[node * size..][..size]
    }

    /// So many messages of the wire, from one on.
    fn messages(&self, first: usize, count: usize) -> &'a [u16] {
        let size = self.trial.message_symbols();
        &self.wire[first * size..][..count * size]
    }

    /// Where the wire has the helpers' messages to the new node of a rank.
    fn told_at(&self, rank: usize) -> usize {
        rank * self.helpers.len()
    }

    /// Where it has, behind all helpers' messages, those of the other new nodes.
    fn received_at(&self, rank: usize) -> usize {
        self.told_at(self.dead.len()) + rank * (self.dead.len() - 1)
    }

    /// How many messages of helpers are those of the wire.
    fn messages_same(&self) -> u64 {
        let mut message = vec![7; self.trial.message_symbols()];
        let mut same = 0;
        for (rank, &new) in self.dead.iter().enumerate() {
            for (index, &helper) in self.helpers.iter().enumerate() {
                let own = self.node(helper);
                let answer = self.calls().helper_message(helper, new, own, &mut message);
                same += given(answer, &message, self.messages(self.told_at(rank) + index, 1));
            }
        }
        same
    }

    /// How many sums of the new nodes are those of the wire, how many new nodes are as the repair left them, and a
    /// digest of the own pairs.
    fn steps_same(&self) -> [u64; 3] {
        let mut pairs = vec![7; 2 * self.trial.message_symbols()];
        let (mut sums, mut nodes, mut digest) = (0, 0, 0);
        for rank in 0..self.dead.len() {
            sums += self.sums_same(rank, &mut pairs);
            nodes += self.node_same(rank, &pairs);
            digest = mixed_all(digest, &pairs);
        }
        [sums, nodes, digest]
    }

    /// The first step of the new node of a rank: how many of its sums are those of the wire.
    fn sums_same(&self, rank: usize, pairs: &mut [u16]) -> u64 {
        let size = self.trial.message_symbols();
        let told = self.messages(self.told_at(rank), self.helpers.len());
        let mut sums = vec![7; (self.dead.len() - 1) * size];
        let new = self.dead[rank];
        let answer = self.calls().first_step(new, told, pairs, &mut sums);
        let receivers = (0..self.dead.len()).filter(|&receiver| receiver != rank);
        let sent = receivers.map(|receiver| {
            // The receiver has no message from itself.
            let index = if rank < receiver { rank } else { rank - 1 };
            self.messages(self.received_at(receiver) + index, 1)
        });
        sums.chunks_exact(size).zip(sent).map(|(sum, sent)| given(answer, sum, sent)).sum()
    }

    /// The second step of the new node of a rank: 1 where it leaves the node as the repair did.
    fn node_same(&self, rank: usize, pairs: &[u16]) -> u64 {
        let received = self.messages(self.received_at(rank), self.dead.len() - 1);
        let mut symbols = vec![7; self.trial.node_symbols()];
        let new = self.dead[rank];
        let answer = self.calls().second_step(new, pairs, received, &mut symbols);
        given(answer, &symbols, self.node(new))
    }
}

/// 1 for a call that was accepted and gave these symbols.
fn given(answer: Result<(), Refusal>, made: &[u16], symbols: &[u16]) -> u64 {
    u64::from(answer.is_ok() && made == symbols)
}

/// A repair of random nodes, as a whole and then call by call.
fn repaired_line(trial: Trial, seed: u64, nodes: &mut [u16], wire: &mut [u16]) -> String {
    let filled = trial.fill(seed, nodes);
    let roles = trial.random_roles(seed);
    let (dead, helpers) = (nodes_of(&roles, Role::Dead), nodes_of(&roles, Role::Helping));
    let repair = Repair { shape: trial.shape, dead: &dead, helpers: &helpers };
    let answer = number(repair.repair(nodes, wire)) as u64;
    let whole = [filled, answer, mixed_all(0, wire), mixed_all(0, nodes)];
    let repaired = Repaired { trial, dead: &dead, helpers: &helpers, nodes, wire };
    line(&[&trial.heading()[..], &whole, &[repaired.messages_same()], &repaired.steps_same()].concat())
}

pub fn lines() -> String {
    let (mut nodes, mut wire) = (vec![], vec![]);
    let mut lines = String::new();
    for ((n, k, dead, layers, sound), seed) in CASES.into_iter().zip(1..) {
        let trial = Trial::new(n, k, dead, layers, sound);
        // The buffers keep what the case before left in them.
        nodes.resize(trial.archive_symbols(), 0);
        wire.resize(trial.wire_symbols(), 0);
        lines += &repaired_line(trial, seed, &mut nodes, &mut wire);
    }
    lines
}
