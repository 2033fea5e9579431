//! Archives over many shapes, written, checked, restored, opened and damaged, with a digest of what each step gives.

use super::digest::{line, mixed, mixed_all, next, number, numbers, random_symbols};
use hmsr::{Checked, Shape};

/// n, k, L and the length of the transcript.
const CASES: [(usize, usize, usize, usize); 29] = [
    (3, 1, 1, 0),
    (3, 1, 1, 2),
    (3, 1, 1, 8),
    (3, 1, 15, 100),
    (4, 1, 3, 48),
    (4, 2, 2, 37),
    (5, 1, 1, 32),
    (5, 3, 2, 191),
    (6, 1, 2, 64),
    (6, 4, 3, 700),
    (7, 2, 1, 256),
    (7, 5, 1, 1),
    (8, 5, 15, 19200),
    (9, 1, 1, 512),
    (9, 7, 1, 3584),
    (10, 4, 1, 3000),
    (11, 9, 2, 36864),
    (12, 1, 1, 4095),
    (12, 6, 1, 20000),
    (12, 10, 1, 40960),
    (12, 7, 15, 430_000),
    (13, 1, 1, 8192),
    (13, 6, 1, 40001),
    (13, 11, 1, 90111),
    (14, 1, 1, 16383),
    (14, 2, 1, 30001),
    (14, 7, 2, 229_376),
    (14, 12, 1, 196_608),
    (14, 12, 15, 2_949_120),
];

struct Archive<'a> {
    shape: Shape,
    nodes: &'a mut [u16],
    /// The transcript that is written; then where transcripts are opened.
    text: &'a mut [u8],
}

impl Archive<'_> {
    fn line(&mut self, seed: u64) -> String {
        let Shape { nodes, data, layers } = self.shape;
        let shape = [nodes, data, layers, self.text.len()].map(|number| number as u64);
        let steps = [
            self.written(seed),
            self.checked(0, self.nodes),
            self.subset(next(seed)),
            self.subset(next(next(seed))),
            self.damaged(seed),
            self.damaged(next(seed)),
            self.subset(seed),
            self.anything(seed),
        ];
        line(&[&shape[..], &steps].concat())
    }

    /// A transcript written; other bytes are left in its place.
    fn written(&mut self, seed: u64) -> u64 {
        fill_bytes(seed, self.text);
        let answer = number(self.shape.write(self.text, self.nodes));
        fill_bytes(next(seed), self.text);
        mixed_all(answer as u64, self.nodes)
    }

    /// A check's answer in a digest: 0, the number of a cause, 9 and the equation, or 10 and the data symbol.
    fn checked(&self, digest: u64, nodes: &[u16]) -> u64 {
        match self.shape.check(nodes) {
            Ok(Checked::Sound) => mixed(digest, 0),
            Ok(Checked::Unmet { layer, a, t }) => mixed_all(digest, &[9, layer, a, t]),
            Ok(Checked::HighData { node, place }) => mixed_all(digest, &[10, node, place]),
            Err(refusal) => mixed(digest, refusal.number()),
        }
    }

    /// All nodes and the transcript from k of the nodes, as they are.
    fn subset(&mut self, seed: u64) -> u64 {
        let list = picked(seed, self.shape);
        let size = self.shape.node_symbols().unwrap();
        let symbols: Vec<u16> = list.iter().flat_map(|&node| &self.nodes[node * size..][..size]).copied().collect();
        let (digest, _) = self.restored(&list, &symbols);
        self.opened(digest, &list, &symbols)
    }

    /// The codeword that has any symbols at k of the nodes, which is checked too, and the transcript from them.
    fn anything(&mut self, seed: u64) -> u64 {
        let list = picked(seed, self.shape);
        let symbols = random_symbols(2, seed, self.shape.capacity().unwrap());
        let (digest, nodes) = self.restored(&list, &symbols);
        self.opened(self.checked(digest, &nodes), &list, &symbols)
    }

    /// All nodes from those listed, and their digest.
    fn restored(&self, list: &[usize], symbols: &[u16]) -> (u64, Vec<u16>) {
        let mut nodes = vec![7; self.nodes.len()];
        let answer = number(self.shape.restore(list, symbols, &mut nodes));
        (mixed_all(answer as u64, &nodes), nodes)
    }

    /// The transcript from the listed nodes, or what the buffer for it keeps, in a digest.
    fn opened(&mut self, digest: u64, list: &[usize], symbols: &[u16]) -> u64 {
        let answer = number(self.shape.open(list, symbols, self.text.len(), self.text));
        mixed_all(mixed(digest, answer), self.text)
    }

    /// One symbol changed, and all nodes checked again.
    fn damaged(&mut self, seed: u64) -> u64 {
        let x = next(seed);
        let y = next(x);
        let at = (x * 65521 + y) as usize % self.nodes.len();
        self.nodes[at] = (self.nodes[at] % 257 + 1 + (y % 256) as u16) % 257;
        self.checked(0, self.nodes)
    }
}

/// Bytes of a transcript: 255 more often than others.
fn fill_bytes(seed: u64, bytes: &mut [u8]) {
    for (byte, number) in bytes.iter_mut().zip(numbers(seed)) {
        *byte = if number % 5 == 0 { 255 } else { (number % 256) as u8 };
    }
}

/// k nodes, rising: each node is taken with the chance that is left.
pub fn picked(seed: u64, shape: Shape) -> Vec<usize> {
    let mut list = Vec::new();
    for (node, number) in (0..shape.nodes).zip(numbers(seed)) {
        let left = shape.nodes - node;
        if (number as usize) % left < shape.data - list.len() {
            list.push(node);
        }
    }
    list
}

pub fn lines() -> String {
    let (mut symbols, mut text) = (vec![], vec![]);
    let mut lines = String::new();
    for ((nodes, data, layers, length), seed) in CASES.into_iter().zip(1..) {
        let shape = Shape { nodes, data, layers };
        // The buffers keep what the case before left in them.
        symbols.resize(shape.archive_symbols().unwrap(), 0);
        text.resize(length, 0);
        lines += &Archive { shape, nodes: &mut symbols, text: &mut text }.line(seed);
    }
    lines
}
