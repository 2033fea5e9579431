//! Stretches (document 02 §2): for each n a digest of what is returned and of both buffers, and how many calls were
//! accepted and how many refused with 1, 2, 4, 5, 7 and 9.

use super::code::picked;
use super::correct::spoil_shape;
use super::digest::{drawn, far_drawn, line, mixed_all};
use crate::raw::open_stretches;
use hmsr::Shape;
use std::collections::BTreeSet;

/// Two changes, by the numbers in `spoil`, that a case goes through.
const TWO_CHANGES: [[usize; 2]; 7] = [[13, 12], [3, 12], [1, 13], [9, 3], [5, 3], [14, 7], [15, 14]];
/// The cases of each kind.
const ROUNDS: usize = 3;

/// The changes of each kind: none, four times, each alone, and two.
fn kinds() -> Vec<Vec<usize>> {
    let alone = (1..=15).map(|way| vec![way]);
    vec![vec![]; 4].into_iter().chain(alone).chain(TWO_CHANGES.map(|ways| ways.to_vec())).collect()
}

/// What the call is given, all symbols being 65535 but those of the columns that are touched at first.
struct Case {
    seed: u64,
    shape: Shape,
    /// N, whatever the shape becomes.
    size: usize,
    list: Vec<usize>,
    symbols: Vec<u16>,
    length: usize,
    numbers: Vec<usize>,
    touched: Vec<usize>,
    bytes_length: usize,
    columns_length: usize,
}

impl Case {
    /// Accepted stretches, but for data symbols that come out as 256: from any nodes, few bytes of each stretch; or
    /// from the data nodes, which then hold bytes, more.
    fn new(nodes: usize, data: usize, mut seed: u64) -> Self {
        let layers = 1 + drawn(&mut seed) % if nodes < 8 { 15 } else { 2 };
        let shape = Shape { nodes, data, layers };
        let size = shape.node_symbols().unwrap();
        let length = far_drawn(&mut seed) % (data * size + 1);
        let data_nodes = drawn(&mut seed).is_multiple_of(3);
        let list = if data_nodes { (0..data).collect() } else { picked(seed, shape) };
        let numbers = drawn_stretches(&mut seed, length, if data_nodes { 200 } else { 5 });
        let wanted = numbers.chunks_exact(2).flat_map(|pair| pair[0]..pair[0] + pair[1]);
        let touched: Vec<usize> = wanted.map(|byte| byte % size).collect::<BTreeSet<_>>().into_iter().collect();
        let mut symbols = vec![65535; data * size];
        for (place, rank) in touched.iter().flat_map(|place| (0..data).map(move |rank| (place, rank))) {
            symbols[rank * size + place] = (drawn(&mut seed) % if data_nodes { 256 } else { 257 }) as u16;
        }
        let bytes_length = numbers.iter().skip(1).step_by(2).sum();
        Case { seed, shape, size, list, symbols, length, numbers, touched, bytes_length, columns_length: size }
    }

    /// Another length, stretch, count of numbers, buffer, symbol, list or shape.
    fn spoil(&mut self, way: usize) {
        let (x, y) = (drawn(&mut self.seed), drawn(&mut self.seed));
        let (data, size) = (self.shape.data, self.size);
        let Case { symbols, length, numbers, bytes_length, touched, .. } = self;
        match way {
            1 => *length = [0, *length / 2, *length * 9 / 10][y % 3],
            2 => *length = [data * size + 1, data * size + 1 + x, *length + (1 << 32), usize::MAX][y % 4],
            3..=6 => spoil_stretch(numbers, *length, way, [x, y]),
            7 if y.is_multiple_of(2) && !numbers.is_empty() => drop(numbers.pop()),
            7 => numbers.push(x),
            8 => numbers.resize(2 * (65 + x % 2), 0),
            9 => *bytes_length = [*bytes_length + 1, bytes_length.saturating_sub(1), 0][y % 3],
            10 => self.columns_length = [size - 1, size + 1, 0][y % 3],
            11 => symbols.resize([data * size - 1, data * size + 1, 0][y % 3], 65535),
            12 | 13 if !touched.is_empty() => {
                let index = y % data * size + touched[x % touched.len()];
                symbols[index] = if way == 13 { 256 } else { [257, 258, 512, 65535][y / data % 4] };
            }
            14 => spoil_list(&mut self.list, self.shape.nodes, y % 5),
            15 => spoil_shape(&mut self.shape, x % 6),
            _ => {}
        }
    }

    /// What is returned, and the runs of equal elements in both buffers, each as the element and how many.
    fn answer(&self) -> Vec<usize> {
        let (mut bytes, mut columns) = (vec![9; self.bytes_length], vec![9; self.columns_length]);
        let Case { shape, list, symbols, length, numbers, .. } = self;
        let number = open_stretches(*shape, list, symbols, *length, numbers, &mut bytes, &mut columns);
        let bytes: Vec<usize> = bytes.into_iter().map(usize::from).collect();
        let runs = [bytes, columns]
            .map(|buffer| buffer.chunk_by(|x, y| x == y).flat_map(|run| [run[0], run.len()]).collect::<Vec<usize>>());
        [vec![number], runs.concat()].concat()
    }
}

/// The numbers of up to 64 stretches, of less than so many bytes each.
fn drawn_stretches(seed: &mut u64, length: usize, bytes: usize) -> Vec<usize> {
    let counts = [0, 1, 2, drawn(seed) % 8, drawn(seed) % 65, 64];
    let count = counts[drawn(seed) % 6];
    let mut numbers = Vec::new();
    for _ in 0..count {
        let start = far_drawn(seed) % (length + 1);
        numbers.extend([start, (drawn(seed) % bytes).min(length - start)]);
    }
    numbers
}

/// One starts elsewhere or is longer; or two lengths change so that their sum, modulo 2^64, does not.
fn spoil_stretch(numbers: &mut Vec<usize>, length: usize, way: usize, [x, y]: [usize; 2]) {
    if numbers.is_empty() {
        numbers.extend([length + 1 + x, 0]);
    }
    let stretches = numbers.len() / 2;
    let (at, other) = (x % stretches * 2, y % stretches * 2);
    let (start, count) = (numbers[at], numbers[at + 1]);
    match way {
        3 => {
            let starts = [length, length.wrapping_add(1), start + (1 << 32), 0usize.wrapping_sub(count), usize::MAX];
            numbers[at] = starts[y % 5];
        }
        4 => numbers[at + 1] = [count + 1, count + (1 << 32), usize::MAX][y % 3],
        _ => {
            let more = if way == 5 { 1 << 63 } else { [1, 3, 1 << 32][y % 3] };
            numbers[at + 1] = numbers[at + 1].wrapping_add(more);
            numbers[other + 1] = numbers[other + 1].wrapping_sub(more);
        }
    }
}

/// One node less, one more, or another last one; or the first and the last exchanged.
fn spoil_list(list: &mut Vec<usize>, nodes: usize, way: usize) {
    let last = list.len() - 1;
    match way {
        0 => drop(list.pop()),
        1 => list.push(nodes - 1),
        2 => list[last] = nodes,
        3 => list[last] += 1 << 32,
        _ if last == 0 => list.push(list[0]),
        _ => list.swap(0, last),
    }
}

/// Each k, each kind so often; the cases are numbered from the seed on.
fn nodes_line(nodes: usize, seed: &mut u64) -> String {
    let (mut digest, mut counts, kinds) = (0, [0; 10], vec![kinds(); ROUNDS].concat());
    for (data, ways) in (1..=nodes - 2).flat_map(|data| kinds.iter().map(move |ways| (data, ways))) {
        *seed += 1;
        let mut case = Case::new(nodes, data, *seed);
        ways.iter().for_each(|&way| case.spoil(way));
        let answer = case.answer();
        counts[if answer[0] < 256 { answer[0] } else { 0 }] += 1;
        digest = mixed_all(digest, &answer);
    }
    line(&[nodes as u64, digest, counts[0], counts[1], counts[2], counts[4], counts[5], counts[7], counts[9]])
}

pub fn lines() -> String {
    let mut seed = 0;
    (3..=14).map(|nodes| nodes_line(nodes, &mut seed)).collect()
}
