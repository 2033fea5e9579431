//! Whole repairs: every dead set and every helper set of the small shapes, and random ones of larger shapes, on random
//! archives, with anything in the dead and unlisted nodes; and repairs of symbols that are no codeword.

use super::digest::{line, mixed, mixed_all, number};
use super::trial::{nodes_of, Role, Trial};
use hmsr::{Repair, Shape};

/// Larger shapes: n, k, h, L, how many random repairs, and whether the archive is a codeword.
const LARGE: [(usize, usize, usize, usize, usize, bool); 48] = [
    (9, 5, 2, 3, 5, true),
    (9, 4, 4, 5, 5, true),
    (9, 3, 5, 3, 5, true),
    (9, 2, 6, 7, 5, true),
    (9, 1, 7, 1, 5, true),
    (10, 7, 2, 3, 4, true),
    (10, 5, 4, 5, 4, true),
    (10, 4, 5, 3, 4, true),
    (10, 1, 8, 9, 3, true),
    (11, 9, 1, 1, 4, true),
    (11, 4, 3, 1, 4, true),
    (11, 3, 6, 7, 3, true),
    (11, 1, 9, 5, 3, true),
    (12, 10, 1, 1, 4, true),
    (12, 8, 3, 1, 4, true),
    (12, 6, 3, 1, 4, true),
    (12, 4, 7, 1, 4, true),
    (12, 3, 8, 9, 2, true),
    (12, 1, 10, 11, 2, true),
    (3, 1, 1, 15, 3, true),
    (5, 2, 2, 15, 5, true),
    (6, 1, 3, 15, 5, true),
    (7, 2, 4, 15, 5, true),
    (8, 2, 5, 15, 5, true),
    (10, 2, 7, 15, 3, true),
    (11, 1, 9, 15, 2, true),
    (12, 10, 1, 15, 2, true),
    (12, 2, 9, 15, 2, true),
    (3, 1, 1, 1, 3, false),
    (4, 1, 2, 3, 6, false),
    (5, 1, 3, 2, 5, false),
    (6, 2, 2, 6, 5, false),
    (7, 1, 4, 15, 5, false),
    (8, 2, 5, 6, 5, false),
    (9, 1, 6, 14, 3, false),
    (10, 2, 7, 4, 3, false),
    (11, 2, 8, 9, 2, false),
    (12, 1, 10, 11, 1, false),
    (12, 5, 5, 15, 1, false),
    // "Exact repair and its total cover the new sizes" (document 02 §7); h = 11 and h = 12 are new with them.
    (13, 1, 11, 3, 2, true),
    (14, 1, 11, 3, 1, true),
    (14, 2, 11, 3, 2, true),
    (14, 1, 12, 13, 1, true),
    (13, 5, 7, 1, 2, true),
    (14, 10, 3, 1, 2, true),
    (14, 12, 1, 1, 2, true),
    (13, 1, 11, 6, 1, false),
    (14, 2, 11, 3, 1, false),
];

/// The repairs of an archive.
struct Repairs {
    trial: Trial,
    archive: Vec<u16>,
    /// What filling the archive answered.
    filled: u64,
    wire: Vec<u16>,
    /// How many were exact.
    exact: u64,
    /// Of answers and wires, and of the nodes where no codeword tells what they are to be.
    digest: u64,
}

impl Repairs {
    fn new(trial: Trial, seed: u64) -> Self {
        let mut archive = vec![0; trial.archive_symbols()];
        let filled = trial.fill(seed, &mut archive);
        Repairs { trial, archive, filled, wire: vec![7; trial.wire_symbols()], exact: 0, digest: 0 }
    }

    /// One repair, with its number among those of the line.
    fn repair(&mut self, index: usize, roles: &[Role]) {
        let (dead, helpers) = (nodes_of(roles, Role::Dead), nodes_of(roles, Role::Helping));
        let repair = Repair { shape: self.trial.shape, dead: &dead, helpers: &helpers };
        let mut nodes = self.nodes_with(index, |node| roles[node] == Role::Helping);
        let answer = number(repair.repair(&mut nodes, &mut self.wire));
        let whole = nodes == self.nodes_with(index, |node| roles[node] != Role::Unlisted);
        self.exact += u64::from(answer == 0 && whole);
        self.digest = mixed_all(mixed(self.digest, answer), &self.wire);
        if !self.trial.sound {
            self.digest = mixed_all(self.digest, &nodes);
        }
    }

    /// The archive's symbols on some nodes, and garbage on the others.
    fn nodes_with(&self, index: usize, holds: impl Fn(usize) -> bool) -> Vec<u16> {
        let size = self.trial.node_symbols();
        let symbol = |(place, &symbol)| if holds(place / size) { symbol } else { garbage(index, place) };
        self.archive.iter().enumerate().map(symbol).collect()
    }

    /// The answer to filling the archive, the exact repairs and the digest, behind a heading.
    fn line(&self, heading: &[u64]) -> String {
        line(&[heading, &[self.filled, self.exact, self.digest]].concat())
    }
}

/// What stands at a place of all nodes where no symbol is to be read, up to 65535.
fn garbage(index: usize, place: usize) -> u16 {
    ((place * 40503 + index * 9973 + 300) % 65536) as u16
}

/// The roles of the nodes: digit i of the number to the base 3 is that of node i.
fn roles_numbered(number: usize, nodes: usize) -> Vec<Role> {
    let role = |node| match number / 3usize.pow(node) % 3 {
        0 => Role::Unlisted,
        1 => Role::Dead,
        _ => Role::Helping,
    };
    (0..nodes as u32).map(role).collect()
}

/// Every repair of so many dead nodes, with the fewest layers that allow it.
fn small_line(nodes: usize, data: usize, dead: usize) -> String {
    let layers = Shape { nodes, data, layers: 1 }.batch_layers(dead).unwrap();
    let trial = Trial::new(nodes, data, dead, layers, true);
    let mut repairs = Repairs::new(trial, (nodes * 100 + data * 10 + dead) as u64);
    for number in 0..3usize.pow(nodes as u32) {
        let roles = roles_numbered(number, nodes);
        let count = |role| roles.iter().filter(|&&other| other == role).count();
        if count(Role::Dead) == dead && count(Role::Helping) == trial.helpers() {
            repairs.repair(number, &roles);
        }
    }
    repairs.line(&trial.heading()[..3])
}

/// So many random repairs.
fn large_line(trial: Trial, seed: u64, count: usize) -> String {
    let mut repairs = Repairs::new(trial, seed);
    for number in 0..count {
        repairs.repair(number, &trial.random_roles(seed + number as u64));
    }
    repairs.line(&trial.heading())
}

pub fn lines() -> String {
    let mut lines = String::new();
    for nodes in 3..=8 {
        for data in 1..=nodes - 2 {
            for dead in 1..=nodes - data - 1 {
                lines += &small_line(nodes, data, dead);
            }
        }
    }
    for ((nodes, data, dead, layers, count, sound), case) in LARGE.into_iter().zip(1..) {
        lines += &large_line(Trial::new(nodes, data, dead, layers, sound), case * 100, count);
    }
    lines
}
