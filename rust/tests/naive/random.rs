//! A small seeded generator, and random inputs for the tests.

use super::judge::{batch_layers, Stretch};
use super::plan::Transfer;
use super::stretches::column;
use super::{restore, Correction, Header, Lists, Shape, Wanted};

/// SplitMix64.
pub struct Random(u64);

impl Random {
    pub fn new(seed: u64) -> Self {
        Random(seed)
    }

    pub fn next(&mut self) -> u64 {
        self.0 = self.0.wrapping_add(0x9E37_79B9_7F4A_7C15);
        let mut z = self.0;
        z = (z ^ (z >> 30)).wrapping_mul(0xBF58_476D_1CE4_E5B9);
        z = (z ^ (z >> 27)).wrapping_mul(0x94D0_49BB_1331_11EB);
        z ^ (z >> 31)
    }

    pub fn below(&mut self, bound: usize) -> usize {
        (self.next() % bound as u64) as usize
    }

    /// From low to high, both included.
    pub fn between(&mut self, low: usize, high: usize) -> usize {
        low + self.below(high - low + 1)
    }

    /// True once in so many times.
    pub fn once_in(&mut self, times: usize) -> bool {
        self.below(times) == 0
    }

    pub fn choose<T: Copy>(&mut self, from: &[T]) -> T {
        from[self.below(from.len())]
    }

    /// 0 to 256, the ends more often.
    pub fn symbol(&mut self) -> u16 {
        match self.below(16) {
            0 => 0,
            1 => 256,
            2 => 255,
            _ => self.below(257) as u16,
        }
    }

    pub fn symbols(&mut self, count: usize) -> Vec<u16> {
        (0..count).map(|_| self.symbol()).collect()
    }

    /// Anything of two bytes.
    pub fn garbage(&mut self, count: usize) -> Vec<u16> {
        (0..count).map(|_| self.next() as u16).collect()
    }

    pub fn bytes(&mut self, count: usize) -> Vec<u8> {
        (0..count).map(|_| self.next() as u8).collect()
    }

    pub fn shuffle<T>(&mut self, list: &mut [T]) {
        for last in (1..list.len()).rev() {
            list.swap(last, self.below(last + 1));
        }
    }

    /// These in any order.
    pub fn shuffled<T: Copy>(&mut self, list: &[T]) -> Vec<T> {
        let mut shuffled = list.to_vec();
        self.shuffle(&mut shuffled);
        shuffled
    }

    /// So many of the given nodes, in the order given.
    pub fn some_of(&mut self, nodes: &[usize], count: usize) -> Vec<usize> {
        let mut chosen = nodes.to_vec();
        while chosen.len() > count {
            let index = self.below(chosen.len());
            chosen.remove(index);
        }
        chosen
    }

    /// A rising list of nodes of the shape.
    pub fn nodes(&mut self, shape: Shape, count: usize) -> Vec<usize> {
        let all: Vec<usize> = (0..shape.n).collect();
        self.some_of(&all, count)
    }

    /// A hearing number, or 0 for none: the ends of its range and of groups more often.
    pub fn hearing(&mut self) -> usize {
        let any = self.between(1, 999_999);
        self.choose(&[0, 0, 0, 0, 1, 127, 128, 16_383, 16_384, 999_999, any, any])
    }

    /// A number above the hearing numbers.
    pub fn no_hearing(&mut self) -> usize {
        let above = self.between(1_000_000, (1 << 21) - 1);
        let truncates = self.between(0, 999_999) + (1 << self.choose(&[20, 32, 63]));
        self.choose(&[1_000_000, usize::MAX, above, truncates])
    }

    /// The header of a small card, of one form or the other.
    pub fn small_header(&mut self) -> Header {
        let n = self.choose(&[3, 3, 3, 4, 5]);
        let shape = Shape { n, k: self.between(1, n - 2), layers: self.choose(&[1, 1, 2, 15]) };
        let length = self.below(shape.capacity() + 1);
        Header { shape, node: self.below(n), length, hearing: self.hearing() }
    }

    /// Any n and k in range, and layers that keep n × N within the bound, but at least one. More than twelve nodes come up
    /// seldom: they take long.
    pub fn shape(&mut self, bound: usize) -> Shape {
        let n = if self.once_in(40) { self.between(13, 14) } else { self.between(3, 12) };
        let k = self.between(1, n - 2);
        let most_layers = (bound / (n << n)).clamp(1, 15);
        Shape { n, k, layers: self.between(1, most_layers) }
    }

    /// Dead nodes and helpers of an accepted repair, but perhaps for the layers.
    pub fn dead_and_helpers(&mut self, shape: Shape) -> (Vec<usize>, Vec<usize>) {
        let h = self.between(1, shape.equations() - 1);
        self.sets(shape, h)
    }

    /// So many dead nodes, and helpers for them.
    pub fn sets(&mut self, shape: Shape, h: usize) -> (Vec<usize>, Vec<usize>) {
        let dead = self.nodes(shape, h);
        let living: Vec<usize> = (0..shape.n).filter(|node| !dead.contains(node)).collect();
        let helpers = self.some_of(&living, shape.k + 1);
        (dead, helpers)
    }

    /// Random dead nodes and helpers of that n, k and h, in an archive with the fewest layers that serve them.
    pub fn repair(&mut self, (n, k, h): (usize, usize, usize)) -> Lists {
        let shape = Shape { n, k, layers: batch_layers(h) };
        let (dead, helpers) = self.sets(shape, h);
        Lists { shape, dead, helpers }
    }

    /// The same of any n up to so many, k and h.
    pub fn small_repair(&mut self, most_nodes: usize) -> Lists {
        let n = self.between(3, most_nodes);
        let k = self.between(1, n - 2);
        let h = self.between(1, n - k - 1);
        self.repair((n, k, h))
    }

    /// A repair of any size, accepted but for the layers now and then.
    pub fn planned(&mut self) -> Lists {
        let n = self.between(3, 14);
        let mut shape = Shape { n, k: self.between(1, n - 2), layers: self.between(1, 15) };
        let (dead, helpers) = self.dead_and_helpers(shape);
        let s = batch_layers(dead.len());
        if !self.once_in(8) {
            shape.layers = self.between(1, 15 / s) * s;
        }
        Lists { shape, dead, helpers }
    }

    /// The plan's transfers in an order in which they may run: the helpers' messages anyhow, and each exchange anywhere
    /// behind those to its sender, often directly.
    pub fn order(&mut self, lists: &Lists) -> Vec<Transfer> {
        let helps = |transfer: &Transfer| lists.helpers.contains(&transfer.0);
        let (mut order, exchanges): (Vec<_>, Vec<_>) = lists.transfers().into_iter().partition(helps);
        self.shuffle(&mut order);
        for exchange in exchanges {
            let told_last = order.iter().rposition(|transfer| helps(transfer) && transfer.1 == exchange.0).unwrap();
            let later = self.between(told_last + 1, order.len());
            order.insert(self.choose(&[told_last + 1, later]), exchange);
        }
        order
    }

    /// A pair beside a transfer: another node for one of its numbers, or something far off, or its numbers in other places.
    pub fn other_pair(&mut self, shape: Shape, (sender, receiver): Transfer) -> Transfer {
        let node = self.below(shape.n + 2);
        let (far_sender, far_receiver) = (self.hostile(sender), self.hostile(receiver));
        self.choose(&[
            (node, receiver),
            (sender, node),
            (far_sender, receiver),
            (sender, far_receiver),
            (receiver, sender),
            (receiver, receiver),
        ])
    }

    /// Changes the list in one of the ways in which an order can be wrong; a swap may leave it right.
    pub fn spoil_order(&mut self, shape: Shape, order: &mut Vec<Transfer>) {
        if order.is_empty() {
            return order.push((0, 1));
        }
        let (at, other) = (self.below(order.len()), self.below(order.len()));
        match self.below(9) {
            0 | 1 => order.swap(at, other),
            2 => drop(order.remove(at)),
            3 => order.insert(at, order[other]),
            4 => order[at] = order[other],
            5 => order[at] = self.other_pair(shape, order[at]),
            6 => order.push(self.other_pair(shape, order[at])),
            7 => self.shuffle(order),
            _ => order.truncate(at),
        }
    }

    /// n and k, with one layer, more often those that allow large losses; and losses that they allow, from none to
    /// thousands, of up to four sizes, so that often some layers serve them all, and sometimes none do.
    pub fn losses(&mut self) -> (Shape, Vec<usize>) {
        let n = self.between(3, 14).max(self.between(3, 14));
        let k = self.between(1, n - 2).min(self.between(1, n - 2));
        let shape = Shape { n, k, layers: 1 };
        let sizes: Vec<usize> = (0..self.between(1, 4)).map(|_| self.between(1, shape.equations() - 1)).collect();
        let (few, many) = (self.below(8), self.below(5000));
        let count = self.choose(&[0, 1, 2, few, few, few, few, many]);
        (shape, (0..count).map(|_| self.choose(&sizes)).collect())
    }

    /// Puts losses that are out of range, or far off, among these.
    pub fn spoil_losses(&mut self, shape: Shape, losses: &mut Vec<usize>) {
        for _ in 0..self.between(1, 2) {
            let near = self.between(1, shape.equations());
            let far = self.hostile(near);
            let loss = self.choose(&[0, shape.equations(), far, far, (1 << 32) + near, (1 << 63) + near, usize::MAX]);
            let at = self.below(losses.len() + 1);
            losses.insert(at, loss);
        }
    }

    /// One of so many numbers from 0 on, the first and the last more often.
    pub fn one_of(&mut self, count: usize) -> usize {
        let any = self.below(count);
        self.choose(&[0, count - 1, any, any, any, any])
    }

    /// An accepted correction in nodes that hold no codeword: symbols at the byte's place, and anything elsewhere.
    pub fn correction(&mut self, shape: Shape) -> Correction {
        let byte = self.one_of(shape.k) * shape.symbols() + self.one_of(shape.symbols());
        let length = byte + 1 + self.one_of(shape.capacity() - byte);
        let nodes = self.garbage(shape.n * shape.symbols());
        let mut correction = Correction { shape, nodes, length, byte, change: 0 };
        correction.place_indices().into_iter().for_each(|index| correction.nodes[index] = self.symbol());
        // From 256 down to 0 is out of range.
        correction.change = (self.one_of(256) as i64 - i64::from(correction.nodes[byte])).max(-255);
        correction
    }

    /// A change that is out of range, whatever the data symbol is.
    fn no_change(&mut self) -> i64 {
        let near = self.one_of(300) as i64;
        let truncates = near + (1 << self.choose(&[8, 9, 16, 32, 62]));
        self.choose(&[256 + near, -256 - near, truncates, -truncates, i64::MAX - near, i64::MIN + near])
    }

    /// Makes a correction wrong, in nodes of that shape, in one of the ways in which it can be; any change that is in range
    /// may leave it right.
    pub fn spoil_correction(&mut self, shape: Shape, correction: &mut Correction) {
        let (capacity, place) = (shape.capacity(), correction.byte % shape.symbols());
        let near = self.between(0, capacity);
        match self.below(9) {
            0 => self.spoil_shape(&mut correction.shape),
            1 => drop(correction.nodes.pop()),
            2 => correction.nodes.push(0),
            3 => correction.length = self.choose(&[capacity + 1, usize::MAX, near + (1 << 32), near + (1 << 63)]),
            4 => correction.length = self.choose(&[0, correction.byte, correction.byte / 2]),
            5 => {
                let far = self.hostile(correction.byte);
                correction.byte = self.choose(&[correction.length, capacity, correction.nodes.len(), far]);
            }
            6 => {
                let index = self.below(shape.n) * shape.symbols() + place;
                // The last node may be one short.
                self.spoil_symbols(correction.nodes.get_mut(index..=index).unwrap_or_default());
            }
            7 => correction.change = self.no_change(),
            _ => correction.change = self.between(0, 510) as i64 - 255,
        }
    }

    /// A stretch of a transcript of that length: at an end of it, around the end of a node, or anywhere; with no byte,
    /// with few, or now and then with all that are left.
    fn stretch(&mut self, shape: Shape, length: usize) -> Stretch {
        let (any, back) = (self.one_of(length + 1), self.below(4));
        let near_a_node = (self.below(length / shape.symbols() + 1) * shape.symbols()).saturating_sub(back);
        let start = self.choose(&[any, any, near_a_node]);
        let (few, more) = (self.between(1, 6), self.below(60));
        let count = if self.once_in(60) { length } else { self.choose(&[0, 1, few, few, more]) };
        (start, count.min(length - start))
    }

    /// The numbers of up to 64 stretches, of which some come again.
    fn stretches(&mut self, shape: Shape, length: usize) -> Vec<usize> {
        let (few, many) = (self.below(6), self.below(65));
        let count = self.choose(&[0, 1, 1, 2, 3, few, few, few, many, 64]);
        let mut stretches: Vec<Stretch> = Vec::new();
        for _ in 0..count {
            let again = !stretches.is_empty() && self.once_in(8);
            let next = if again { self.choose(&stretches) } else { self.stretch(shape, length) };
            stretches.push(next);
        }
        stretches.into_iter().flat_map(|(start, count)| [start, count]).collect()
    }

    /// Accepted stretches, from any k nodes.
    pub fn wanted(&mut self, shape: Shape) -> Wanted {
        let list = self.nodes(shape, shape.k);
        self.wanted_from(shape, list)
    }

    /// Accepted stretches, from these nodes. In touched columns the data symbols are bytes where they are wanted, and
    /// else anything up to 256; in the other columns stands anything.
    pub fn wanted_from(&mut self, shape: Shape, list: Vec<usize>) -> Wanted {
        let length = self.one_of(shape.capacity() + 1).max(self.below(4));
        let (numbers, symbols) = (self.stretches(shape, length), self.garbage(shape.capacity()));
        let (bytes_length, columns_length) = (0, shape.symbols());
        let mut wanted = Wanted { shape, list, symbols, length, numbers, bytes_length, columns_length };
        wanted.bytes_length = wanted.bytes().len();
        let mut data = self.symbols(shape.capacity());
        wanted.bytes().into_iter().for_each(|byte| data[byte] = data[byte].min(255));
        hold(&mut wanted, &data);
        wanted
    }

    /// Has one of the wanted bytes, if there are any, be 256.
    pub fn want_no_byte(&mut self, wanted: &mut Wanted) {
        let Wanted { shape, list, symbols, .. } = &*wanted;
        let bytes = wanted.bytes();
        if bytes.is_empty() {
            return;
        }
        let at = self.one_of(bytes.len());
        let (node, place) = (bytes[at] / shape.symbols(), bytes[at] % shape.symbols());
        let mut data = vec![0; shape.capacity()];
        let held = column(*shape, list, symbols, place);
        (0..shape.k).for_each(|other| data[other * shape.symbols() + place] = held[other]);
        data[node * shape.symbols() + place] = 256;
        hold_place(wanted, &data, place);
    }

    /// Changes a stretch, so that it ends past the transcript or behind all numbers, or that the sum of the lengths is
    /// another one, or wraps to what it was.
    fn spoil_stretch(&mut self, wanted: &mut Wanted) {
        let Wanted { length, numbers, .. } = wanted;
        if numbers.len() < 4 {
            return numbers.extend([self.choose(&[*length + 1, usize::MAX, 1 << 63]), 0]);
        }
        let (at, other) = (self.below(numbers.len() / 2) * 2, self.below(numbers.len() / 2) * 2);
        let (count, far) = (numbers[at + 1], self.hostile(numbers[at]));
        let (bit, near) = (1 << self.choose(&[8, 16, 32, 62, 63]), self.between(1, 3));
        match self.below(6) {
            0 => numbers[at] = self.choose(&[*length, *length + 1, far, numbers[at].wrapping_add(bit)]),
            // The end wraps to a number within the transcript.
            1 => numbers[at] = 0usize.wrapping_sub(self.choose(&[count, count / 2, 1])),
            2 => numbers[at + 1] = self.hostile(count),
            // One has more, and another less: the sum stays, if not as a sum of whole numbers.
            3 | 4 => {
                let more = self.choose(&[near, bit, usize::MAX]);
                numbers[at + 1] = count.wrapping_add(more);
                numbers[other + 1] = numbers[other + 1].wrapping_sub(more);
            }
            _ => [at, other].into_iter().for_each(|at| numbers[at + 1] = numbers[at + 1].wrapping_add(1 << 63)),
        }
    }

    /// Makes stretches wrong, of nodes of that shape, in one of the ways in which they can be; some changes may leave
    /// them right.
    pub fn spoil_wanted(&mut self, shape: Shape, wanted: &mut Wanted) {
        let (capacity, near) = (shape.capacity(), self.below(shape.capacity() + 1));
        let Wanted { list, symbols, length, numbers, bytes_length, columns_length, .. } = wanted;
        match self.below(14) {
            0 => self.spoil_shape(&mut wanted.shape),
            1 if !list.is_empty() => self.spoil_list(shape.n, list),
            2 => symbols.resize(self.choose(&[capacity - 1, capacity + 1, 0]), 256),
            3 => *length = self.choose(&[capacity + 1, usize::MAX, near + (1 << 32), near + (1 << 63)]),
            4 | 5 => *length = self.choose(&[length.wrapping_sub(1).min(capacity), *length / 2, near, 0]),
            6 => self.spoil_length(bytes_length),
            7 => self.spoil_length(columns_length),
            8 if self.once_in(2) => drop(numbers.pop()),
            8 => numbers.push(near),
            // 65 stretches or 66, of which the last are empty.
            9 => numbers.resize(2 * self.between(65, 66), 0),
            10 | 11 => self.spoil_stretch(wanted),
            _ => {
                let mut starts: Vec<usize> = wanted.stretches().into_iter().map(|(start, _)| start).collect();
                starts.push(near);
                let place = self.choose(&starts) % shape.symbols();
                let index = self.below(shape.k) * shape.symbols() + place;
                self.spoil_symbols(wanted.symbols.get_mut(index..=index).unwrap_or_default());
            }
        }
    }

    /// A codeword of any symbols, 256 too: what random nodes 0 to k−1 restore to.
    pub fn codeword(&mut self, shape: Shape) -> Vec<u16> {
        let data = self.symbols(shape.capacity());
        codeword_of(shape, &data)
    }

    /// A codeword of bytes and so many symbols 256, or fewer, on nodes 0 to k−1.
    pub fn codeword_of_bytes(&mut self, shape: Shape, no_bytes: usize) -> Vec<u16> {
        let mut data: Vec<u16> = self.bytes(shape.capacity()).into_iter().map(u16::from).collect();
        for _ in 0..no_bytes {
            let index = self.below(data.len());
            data[index] = 256;
        }
        codeword_of(shape, &data)
    }

    /// A number that is out of range or far off wherever it stands for the given one.
    pub fn hostile(&mut self, number: usize) -> usize {
        let low = number.wrapping_sub(1);
        let truncates = number.wrapping_add(1 << self.choose(&[8, 16, 32, 63]));
        let far = self.choose(&[0, 2, 15, 16, 64, 255, 256, 65535, usize::MAX, usize::MAX / 2 + 1]);
        self.choose(&[low, number.wrapping_add(1), truncates, far])
    }

    pub fn spoil_shape(&mut self, shape: &mut Shape) {
        match self.below(3) {
            0 => shape.n = self.hostile(shape.n),
            1 => {
                shape.k = {
                    let far = self.hostile(shape.k);
                    self.choose(&[far, shape.n.wrapping_sub(1), shape.n, 0])
                }
            }
            _ => {
                shape.layers = {
                    let far = self.hostile(shape.layers);
                    self.choose(&[far, 0, 16, 17])
                }
            }
        }
    }

    pub fn spoil_length(&mut self, length: &mut usize) {
        *length = match self.below(4) {
            0 => length.saturating_sub(1),
            1 => *length + 1,
            2 => 0,
            _ => *length * 2 + 1,
        };
    }

    /// Changes the list in one of the ways a list can be wrong.
    pub fn spoil_list(&mut self, n: usize, list: &mut Vec<usize>) {
        let index = self.below(list.len());
        match self.below(7) {
            0 => {
                list[index] = self.choose(&[n, n + 1, usize::MAX, 1 << 32, (1 << 32) + list[index], 256 + list[index]])
            }
            1 => list.push(self.below(n)),
            2 => drop(list.remove(index)),
            3 => list.insert(index, list[index]),
            4 => list.reverse(),
            5 => list[index] = self.below(n),
            _ => *list = Vec::new(),
        }
    }

    /// Puts a value above 256 somewhere, both ends more often.
    pub fn spoil_symbols(&mut self, symbols: &mut [u16]) {
        if !symbols.is_empty() {
            let last = symbols.len() - 1;
            let index = self.below(symbols.len());
            symbols[self.choose(&[0, last, index, index])] = self.choose(&[257, 258, 511, 512, 513, 32768, 65535]);
        }
    }
}

/// What nodes 0 to k−1 restore to.
pub fn codeword_of(shape: Shape, data: &[u16]) -> Vec<u16> {
    let list: Vec<usize> = (0..shape.k).collect();
    restore(shape, &list, data, shape.n * shape.symbols()).unwrap()
}

/// Has the listed nodes hold, in the touched columns, what the equations ask for where nodes 0 to k−1 are these.
pub fn hold(wanted: &mut Wanted, data: &[u16]) {
    wanted.touched().into_iter().for_each(|place| hold_place(wanted, data, place));
}

/// The same in one column.
pub fn hold_place(wanted: &mut Wanted, data: &[u16], place: usize) {
    let first: Vec<usize> = (0..wanted.shape.k).collect();
    let column = column(wanted.shape, &first, data, place);
    for (index, &node) in wanted.place_indices(place).into_iter().zip(&wanted.list) {
        wanted.symbols[index] = column[node];
    }
}
