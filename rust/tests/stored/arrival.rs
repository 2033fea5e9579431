//! Messages in the order they arrive (document 02 §8): for each n and k a digest of each call's number and of all its
//! buffers afterwards, and how many calls to hear, then to finish, were accepted and how many refused with 1 to 5.

use super::correct::spoil_shape;
use super::digest::{drawn, line, mixed_all, number, random_symbols};
use super::trial::{nodes_of, Role, Trial};
use hmsr::{FirstStep, Hearing, Repair, Shape};
use std::collections::BTreeSet;

/// Two changes, by the numbers in `Call::spoil`, that a call goes through: the first, and each that may be the second.
const TWO_CHANGES: [(usize, &[usize]); 14] = [
    (1, &[6, 10, 13]),
    (2, &[17]),
    (3, &[7]),
    (5, &[13]),
    (6, &[7, 9]),
    (7, &[9]),
    (8, &[7]),
    (9, &[17, 18, 19]),
    (10, &[11, 12]),
    (11, &[9, 13, 16]),
    (12, &[6, 13]),
    (13, &[6, 9, 18]),
    (14, &[9]),
    (15, &[13]),
];

/// The changes of each kind: none, each alone, and two.
fn kinds() -> Vec<Vec<usize>> {
    let alone = (1..=19).map(|way| vec![way]);
    let two = TWO_CHANGES.iter().flat_map(|&(first, seconds)| seconds.iter().map(move |&second| vec![first, second]));
    [vec![]].into_iter().chain(alone).chain(two).collect()
}

/// What both calls are given.
#[derive(Clone)]
struct Call {
    shape: Shape,
    dead: Vec<usize>,
    helpers: Vec<usize>,
    new_node: usize,
    helper: usize,
    message: Vec<u16>,
    sums: Vec<u16>,
    record: Vec<usize>,
    /// How many symbols the buffers have that are filled at the end.
    pairs: usize,
    exchanges: usize,
}

impl Call {
    /// The nodes' roles are random; nobody is heard.
    fn new(trial: Trial, seed: u64, rank: usize) -> Self {
        let roles = trial.random_roles(seed);
        let (dead, helpers) = (nodes_of(&roles, Role::Dead), nodes_of(&roles, Role::Helping));
        let (shape, size) = (trial.shape, trial.message_symbols());
        Call {
            shape,
            new_node: dead[rank],
            helper: helpers[0],
            message: vec![],
            sums: vec![0; (shape.nodes - shape.data) * size],
            record: vec![0; shape.data + 2],
            pairs: 2 * size,
            exchanges: (dead.len() - 1) * size,
            dead,
            helpers,
        }
    }

    fn repair(&self) -> Repair<'_> {
        Repair { shape: self.shape, dead: &self.dead, helpers: &self.helpers }
    }

    fn hear(&mut self) -> usize {
        let Call { shape, dead, helpers, new_node, helper, message, sums, record, .. } = self;
        number(Repair { shape: *shape, dead, helpers }.hear(*new_node, *helper, message, sums, record))
    }

    /// The number, and digests of the pairs and exchanges, which are filled with 9.
    fn finish(&self) -> [usize; 3] {
        let (mut pairs, mut exchanges) = (vec![9; self.pairs], vec![9; self.exchanges]);
        let answer = self.repair().finish(self.new_node, &self.sums, &self.record, &mut pairs, &mut exchanges);
        [number(answer), digest(&pairs), digest(&exchanges)]
    }

    /// The number of one of the calls, and what stands in its buffers afterwards.
    fn told(&mut self, hears: bool) -> Vec<usize> {
        let own = if hears { vec![self.hear()] } else { self.finish().to_vec() };
        // The digest leaves no more of a number than this.
        let record = self.record.iter().map(|node| node % 1_000_003);
        own.into_iter().chain(record).chain([digest(&self.sums)]).collect()
    }

    /// Another name, message, kept sum, record, count of layers, list, shape or buffer.
    fn spoil(&mut self, way: usize, [x, y]: [usize; 2]) {
        match way {
            1..=5 => self.spoil_name(way, [x, y]),
            6 => resize(&mut self.message, y),
            7 => spoil_symbol(&mut self.message, x, y),
            8 => resize(&mut self.sums, y),
            9 => spoil_symbol(&mut self.sums, x * 65521 + y, y),
            10..=12 => self.spoil_record(way, [x, y]),
            13 => self.shape.layers = 1 + x % 15,
            14..=16 => self.spoil_lists(way, [x, y]),
            17 if x % 10 < 6 => spoil_shape(&mut self.shape, x % 10),
            17 => spoil_shape_far(&mut self.shape, x % 10),
            18 => self.pairs = [self.pairs - 1, self.pairs + 1, 0][y % 3],
            _ => self.exchanges = [self.exchanges.saturating_sub(1), self.exchanges + 1, 0][y % 3],
        }
    }

    /// Another helper, heard already or not, or none; or another new node, or none.
    fn spoil_name(&mut self, way: usize, [x, y]: [usize; 2]) {
        let (nodes, dead, helper) = (self.shape.nodes, self.a_dead(x), self.helpers[x % self.helpers.len()]);
        let idle = (0..nodes).find(|node| !self.dead.contains(node) && !self.helpers.contains(node));
        let strangers = [nodes, nodes + x, self.helper + (1 << 32), usize::MAX, idle.unwrap_or(nodes)];
        match way {
            1 if self.record[0] == 0 => self.helper = self.dead[0],
            1 => self.helper = self.record[1 + x % self.record[0]],
            2 => self.helper = strangers[y % 5],
            3 => self.helper = dead,
            4 => self.helper = helper,
            _ => self.new_node = [dead, helper, nodes, self.new_node + (1 << 32), usize::MAX][y % 5],
        }
    }

    /// Another length, count or node.
    fn spoil_record(&mut self, way: usize, [x, y]: [usize; 2]) {
        let (nodes, data, at) = (self.shape.nodes, self.shape.data, 1 + x % self.helpers.len());
        let (helper, dead) = (self.helpers[y / 6 % self.helpers.len()], self.a_dead(x));
        let record = &mut self.record;
        match way {
            10 => record.resize([data + 1, data + 3, 0, at][y % 4], 0),
            11 if !record.is_empty() => {
                record[0] = [data + 1, data + 2, data + 2 + x, record[0] + (1 << 32), usize::MAX][y % 5];
            }
            12 if at < record.len() => {
                record[at] = [helper, dead, nodes, record[at].wrapping_add(1 << 32), usize::MAX, y % nodes][y % 6];
            }
            _ => {}
        }
    }

    /// Another node in one of the lists, or another length.
    fn spoil_lists(&mut self, way: usize, [x, y]: [usize; 2]) {
        let (nodes, Call { dead, helpers, .. }) = (self.shape.nodes, self);
        let (dead_at, helper_at) = (x % dead.len(), x % helpers.len());
        match (way, y % 6) {
            (14, _) => dead[dead_at] = y % (nodes + 1),
            (15, _) => helpers[helper_at] = y % (nodes + 1),
            (_, 0) => drop(dead.pop()),
            (_, 1) => dead.push(nodes - 1),
            (_, 2) => dead.clear(),
            (_, 3) => drop(helpers.pop()),
            (_, 4) => helpers.push(nodes - 1),
            _ => helpers.clear(),
        }
    }

    fn a_dead(&self, x: usize) -> usize {
        self.dead[x % self.dead.len()]
    }
}

fn digest(symbols: &[u16]) -> usize {
    mixed_all(0, symbols) as usize
}

/// One symbol less, one more, or none.
fn resize(symbols: &mut Vec<u16>, way: usize) {
    let length = symbols.len();
    symbols.resize([length - 1, length + 1, 0][way % 3], 0);
}

/// A symbol above 256 in place of one, if there is any.
fn spoil_symbol(symbols: &mut [u16], at: usize, way: usize) {
    if !symbols.is_empty() {
        symbols[at % symbols.len()] = [257, 258, 512, 65535][way % 4];
    }
}

fn spoil_shape_far(shape: &mut Shape, way: usize) {
    match way {
        6 => shape.nodes += 1 << 32,
        7 => shape.data += 1 << 32,
        8 => shape.layers += 1 << 32,
        _ => *shape = Shape { nodes: usize::MAX, data: usize::MAX, layers: usize::MAX },
    }
}

/// How many nodes are dead, at most so many batches, and which rank is new, or any.
type Size = (usize, usize, Option<usize>);

/// To n = 8 all of them, several times.
fn sizes(nodes: usize, data: usize) -> Vec<Size> {
    let (half, most) = ((nodes - data) / 2, nodes - data - 1);
    match nodes {
        3..=8 => {
            let ranks = (1..=most).flat_map(|dead| (0..dead).map(move |rank| (dead, 15, Some(rank))));
            ranks.collect::<Vec<Size>>().repeat(1 + (1 << (9 - nodes)))
        }
        9..=12 => any_rank([1, half, most], 2),
        _ => {
            let ranks = if (nodes, data) == (14, 1) { 11 } else { 0 };
            [any_rank([half, half, most], 1), (0..ranks).map(|rank| (11, 1, Some(rank))).collect()].concat()
        }
    }
}

/// These counts of dead nodes, rising, each once.
fn any_rank(counts: [usize; 3], batches: usize) -> Vec<Size> {
    BTreeSet::from(counts).into_iter().map(|dead| (dead, batches, None)).collect()
}

/// The messages to a new node in any order, with spoiled calls strewn between. The case's number is the seed of all.
struct Case {
    number: u64,
    seed: u64,
    /// The nodes of a codeword, whose helpers send the messages; or none, and the messages are any.
    nodes: Vec<u16>,
    order: Vec<usize>,
    begun: Begun,
    call: Call,
}

/// Nobody is heard; or that, with anything behind the count; or so many are, and the sums are any.
#[derive(Clone, Copy, PartialEq)]
enum Begun {
    Empty,
    Unclean,
    Heard(usize),
}

impl Case {
    fn new(nodes: usize, data: usize, (dead, batches, rank): Size, number: u64) -> Self {
        let mut seed = number * 16 + 14;
        let s = Shape { nodes, data, layers: 1 }.batch_layers(dead).unwrap();
        let trial = Trial::new(nodes, data, dead, s * (1 + drawn(&mut seed) % batches.min(15 / s)), true);
        let rank = rank.unwrap_or_else(|| drawn(&mut seed) % dead);
        let call = Call::new(trial, number, rank);
        let nodes = if nodes < 8 && number.is_multiple_of(3) { codeword(trial, number) } else { vec![] };
        let order = shuffled(&call.helpers, &mut seed);
        let begun = match drawn(&mut seed) % 3 {
            0 => Begun::Empty,
            1 => Begun::Unclean,
            _ => Begun::Heard(drawn(&mut seed) % (data + 2)),
        };
        let mut case = Case { number, seed, nodes, order, begun, call };
        case.begin();
        case
    }

    fn heard(&self) -> usize {
        if let Begun::Heard(count) = self.begun {
            count
        } else {
            0
        }
    }

    /// Puts down what is kept at the beginning.
    fn begin(&mut self) {
        let heard = self.heard();
        let mut record = [&[heard], &self.order[..heard]].concat();
        while record.len() < self.order.len() + 1 {
            record.push(if self.begun == Begun::Empty { 0 } else { self.anything() });
        }
        if let Begun::Heard(_) = self.begun {
            self.call.sums = random_symbols(1, self.number * 16 + 15, self.call.sums.len());
        }
        self.call.record = record;
    }

    /// What may stand behind the count.
    fn anything(&mut self) -> usize {
        let [x, y] = [0; 2].map(|_| drawn(&mut self.seed));
        [0, self.order[x % self.order.len()], x, usize::MAX][y % 4]
    }

    fn message(&self, helper: usize) -> Vec<u16> {
        let Call { shape, dead, new_node, .. } = &self.call;
        if self.nodes.is_empty() {
            return random_symbols(1, self.number * 16 + helper as u64, shape.message_symbols(dead.len()).unwrap());
        }
        let size = shape.node_symbols().unwrap();
        self.call.repair().helper_message_to_vec(helper, *new_node, &self.nodes[helper * size..][..size]).unwrap()
    }

    fn run(mut self, told: &mut Told) {
        for index in self.heard()..self.order.len() {
            self.strays(self.order[index], 0, told);
            told.take(&mut self.call, true);
        }
        self.strays(self.order[0], 1, told);
        told.take(&mut self.call, false);
        if self.begun == Begun::Empty {
            assert_eq!(self.by_hearing(), self.call.finish(), "case {}", self.number);
        }
    }

    /// The message of a helper arrives. Before it is heard, so many spoiled calls or up to two more, whose buffers
    /// nothing else has.
    fn strays(&mut self, helper: usize, least: usize, told: &mut Told) {
        (self.call.helper, self.call.message) = (helper, self.message(helper));
        let kinds = kinds();
        for _ in 0..least + drawn(&mut self.seed) % 3 {
            let mut call = self.call.clone();
            for &way in &kinds[drawn(&mut self.seed) % kinds.len()] {
                call.spoil(way, [0; 2].map(|_| drawn(&mut self.seed)));
            }
            told.take(&mut call, drawn(&mut self.seed).is_multiple_of(2));
        }
    }

    /// What `Call::finish` tells, with the sums and the record that the package owns.
    fn by_hearing(&self) -> [usize; 3] {
        let mut hearing = Hearing::new(self.call.repair(), self.call.new_node);
        let heard = self.order.iter().all(|&helper| hearing.hear(helper, &self.message(helper)).is_ok());
        assert!(heard && hearing.heard() == self.order, "case {}", self.number);
        hearing.finish_to_vec().map_or([9; 3], |FirstStep { pairs, sums }| [0, digest(&pairs), digest(&sums)])
    }
}

/// The nodes of a codeword.
fn codeword(trial: Trial, seed: u64) -> Vec<u16> {
    let mut nodes = vec![0; trial.archive_symbols()];
    assert_eq!(trial.fill(seed, &mut nodes), 0);
    nodes
}

fn shuffled(nodes: &[usize], seed: &mut u64) -> Vec<usize> {
    let mut order = nodes.to_vec();
    for place in (1..order.len()).rev() {
        order.swap(place, drawn(seed) % (place + 1));
    }
    order
}

/// What the cases of an n and a k tell.
#[derive(Default)]
struct Told {
    digest: u64,
    /// How many calls had each number, those to hear and those to finish.
    counts: [[u64; 6]; 2],
}

impl Told {
    /// Makes one of the calls.
    fn take(&mut self, call: &mut Call, hears: bool) {
        let told = call.told(hears);
        self.digest = mixed_all(self.digest, &told);
        self.counts[usize::from(!hears)][told[0]] += 1;
    }
}

/// All cases of an n and a k, which are numbered from the last number on.
fn size_line(nodes: usize, data: usize, number: &mut u64) -> String {
    let mut told = Told::default();
    for size in sizes(nodes, data) {
        *number += 1;
        Case::new(nodes, data, size, *number).run(&mut told);
    }
    line(&[&[nodes as u64, data as u64, told.digest], &told.counts.concat()[..]].concat())
}

pub fn lines() -> String {
    let mut number = 0;
    let sizes = (3..=14).flat_map(|nodes| (1..=nodes - 2).map(move |data| (nodes, data)));
    sizes.map(|(nodes, data)| size_line(nodes, data, &mut number)).collect()
}
