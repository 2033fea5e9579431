//! Corrections (document 02 §10): for each n a digest of the answers and of the symbols that changed, and how many answers
//! were 0, 1, 4, 5, 9 and 12.

use super::digest::{drawn, far_drawn, line, mixed_all, number};
use hmsr::Shape;

/// The changes that a case's correction goes through, by the numbers in `spoil`; and the cases of each kind.
const KINDS: [&[usize]; 16] =
    [&[], &[1], &[2], &[3], &[4], &[5], &[6], &[7], &[8], &[9], &[10], &[3, 8], &[3, 8, 5], &[5, 7], &[5, 9], &[9, 10]];
const ROUNDS: usize = 4;

/// What the call is given, all symbols being 65535 but those of the byte's place.
struct Case {
    seed: u64,
    shape: Shape,
    /// N, the byte's node and its place, whatever the shape and the byte's number become.
    size: usize,
    own: usize,
    place: usize,
    nodes_length: usize,
    length: usize,
    byte: usize,
    change: i64,
    symbols: Vec<u16>,
}

impl Case {
    /// An accepted correction.
    fn new(nodes: usize, data: usize, mut seed: u64) -> Self {
        let layers = 1 + drawn(&mut seed) % if nodes < 10 { 15 } else { 2 };
        let shape = Shape { nodes, data, layers };
        let size = shape.node_symbols().unwrap();
        let (own, place) = (drawn(&mut seed) % data, far_drawn(&mut seed) % size);
        let byte = own * size + place;
        let length = byte + 1 + far_drawn(&mut seed) % (data * size - byte);
        let symbols: Vec<u16> = (0..nodes).map(|_| (drawn(&mut seed) % 257) as u16).collect();
        let change = (drawn(&mut seed) % 256) as i64 - i64::from(symbols[own]);
        let change = change.max(-255);
        Case { seed, shape, size, own, place, nodes_length: nodes * size, length, byte, change, symbols }
    }

    /// Another change, byte number, length, symbol, buffer or shape.
    fn spoil(&mut self, way: usize) {
        let (x, y) = (drawn(&mut self.seed), drawn(&mut self.seed));
        let (near, capacity, node) = (x as i64, self.shape.data * self.size, x % self.symbols.len());
        let Case { shape, nodes_length, length, byte, change, symbols, .. } = self;
        match way {
            1 => *change = 0,
            2 => *change = near % 511 - 255,
            3 => {
                let ends = [256, -256, 256 + near, -256 - near];
                *change = [ends, [*change + (1 << 32), *change - (1 << 32), i64::MAX, i64::MIN]].concat()[y % 8];
            }
            4 => (symbols[self.own], *change) = (256, -(near % 257)),
            5 => *byte = [*length, *length + x, capacity, *byte + (1 << 32), usize::MAX][y % 5],
            6 => *length = [0, *byte, x % (*byte + 1)][y % 3],
            7 => *length = [capacity + 1, capacity + 1 + x, *length + (1 << 32), usize::MAX][y % 4],
            8 => symbols[node] = [257, 258, 512, 65535][y % 4],
            9 => *nodes_length = [*nodes_length - 1, *nodes_length + 1, 0][y % 3],
            _ => spoil_shape(shape, x % 6),
        }
    }

    /// The number, and the index and the value of each symbol that changed.
    fn answer(&self) -> Vec<usize> {
        let mut nodes = vec![65535; self.nodes_length];
        for (node, &symbol) in self.symbols.iter().enumerate() {
            if let Some(held) = nodes.get_mut(node * self.size + self.place) {
                *held = symbol;
            }
        }
        let before = nodes.clone();
        let number = number(self.shape.correct(&mut nodes, self.length, self.byte, self.change));
        let changed = (0..nodes.len()).filter(|&index| nodes[index] != before[index]);
        [number].into_iter().chain(changed.flat_map(|index| [index, nodes[index].into()])).collect()
    }
}

pub fn spoil_shape(shape: &mut Shape, way: usize) {
    match way {
        0 => shape.nodes = 2,
        1 => shape.nodes = 15,
        2 => shape.data = 0,
        3 => shape.data = shape.nodes - 1,
        4 => shape.layers = 0,
        _ => shape.layers = 16,
    }
}

/// Each k, each kind so often; the cases are numbered from the seed on.
fn nodes_line(nodes: usize, seed: &mut u64) -> String {
    let (mut digest, mut counts) = (0, [0; 14]);
    for (data, case) in (1..=nodes - 2).flat_map(|data| (0..KINDS.len() * ROUNDS).map(move |case| (data, case))) {
        *seed += 1;
        let mut correction = Case::new(nodes, data, *seed);
        KINDS[case % KINDS.len()].iter().for_each(|&way| correction.spoil(way));
        let answer = correction.answer();
        counts[answer[0]] += 1;
        digest = mixed_all(digest, &answer);
    }
    line(&[nodes as u64, digest, counts[0], counts[1], counts[4], counts[5], counts[9], counts[12]])
}

pub fn lines() -> String {
    let mut seed = 0;
    (3..=14).map(|nodes| nodes_line(nodes, &mut seed)).collect()
}
