//! Repairs of every small dead and helper set, and random larger ones: the dead nodes come back exactly, the other nodes
//! are untouched, and the wire is, piece by piece, what the calls of single helpers and new nodes give.

mod naive;

use naive::judge::batch_layers;
use naive::lent::Lent;
use naive::random::Random;
use naive::Shape;

/// A repair, and its nodes as they are before: garbage but for the helpers.
struct Repair {
    shape: Shape,
    dead: Vec<usize>,
    helpers: Vec<usize>,
    before: Vec<u16>,
}

impl Repair {
    /// The helpers hold their symbols of the archive.
    fn new(random: &mut Random, shape: Shape, dead: &[usize], helpers: &[usize], archive: &[u16]) -> Self {
        let size = shape.symbols();
        let mut before = random.garbage(shape.n * size);
        for &helper in helpers {
            let node = helper * size..(helper + 1) * size;
            before[node.clone()].copy_from_slice(&archive[node]);
        }
        Repair { shape, dead: dead.to_vec(), helpers: helpers.to_vec(), before }
    }

    fn library(&self) -> hmsr::Repair<'_> {
        let shape = hmsr::Shape { nodes: self.shape.n, data: self.shape.k, layers: self.shape.layers };
        hmsr::Repair { shape, dead: &self.dead, helpers: &self.helpers }
    }

    /// N/(h+1).
    fn message_length(&self) -> usize {
        self.shape.symbols() / (self.dead.len() + 1)
    }

    fn wire_length(&self) -> usize {
        let h = self.dead.len();
        h * (self.shape.k + h) * self.message_length()
    }

    /// The library's repair: the nodes and the wire afterwards. Nodes that are not dead are untouched.
    fn run(&self, random: &mut Random) -> (Vec<u16>, Vec<u16>) {
        let size = self.shape.symbols();
        let mut nodes = Lent::around(&self.before);
        let mut wire = Lent::symbols(random, self.wire_length());
        self.library().repair(nodes.slice(), wire.slice()).unwrap();
        let after = (nodes.slice().to_vec(), wire.slice().to_vec());
        for node in (0..self.shape.n).filter(|node| !self.dead.contains(node)) {
            assert!(after.0[node * size..(node + 1) * size] == self.before[node * size..(node + 1) * size]);
        }
        nodes.assert_holds(&after.0);
        wire.assert_holds(&after.1);
        after
    }

    /// The piece of the wire with that number.
    fn piece<'a>(&self, wire: &'a [u16], number: usize) -> &'a [u16] {
        &wire[number * self.message_length()..(number + 1) * self.message_length()]
    }

    /// The separate calls give the pieces of the wire, and the nodes afterwards.
    fn assert_pieces(&self, random: &mut Random, nodes: &[u16], wire: &[u16]) {
        for (rank, &new) in self.dead.iter().enumerate() {
            self.assert_helper_messages(random, rank, wire);
            let (pairs, sums) = self.first_step(random, rank, wire);
            self.assert_sent(rank, &sums, wire);
            let received = self.received(rank, wire);
            let mut symbols = random.garbage(self.shape.symbols());
            self.library().second_step(new, &pairs, received, &mut symbols).unwrap();
            assert!(symbols == nodes[new * symbols.len()..(new + 1) * symbols.len()]);
        }
    }

    fn assert_helper_messages(&self, random: &mut Random, rank: usize, wire: &[u16]) {
        let size = self.shape.symbols();
        for (index, &helper) in self.helpers.iter().enumerate() {
            let own = &self.before[helper * size..(helper + 1) * size];
            let mut message = random.garbage(self.message_length());
            let new = self.dead[rank];
            self.library().helper_message(helper, new, own, &mut message).unwrap();
            assert!(message == self.piece(wire, rank * self.helpers.len() + index));
        }
    }

    /// Own pairs and sums of the new node of this rank, from the helpers' messages to it on the wire.
    fn first_step(&self, random: &mut Random, rank: usize, wire: &[u16]) -> (Vec<u16>, Vec<u16>) {
        let length = self.message_length();
        let all = self.helpers.len() * length;
        let mut pairs = random.garbage(2 * length);
        let mut sums = random.garbage((self.dead.len() - 1) * length);
        let messages = &wire[rank * all..(rank + 1) * all];
        let new = self.dead[rank];
        self.library().first_step(new, messages, &mut pairs, &mut sums).unwrap();
        (pairs, sums)
    }

    /// The sums of a new node are its messages to the others on the wire: exchanges stand by receiver, then sender.
    fn assert_sent(&self, rank: usize, sums: &[u16], wire: &[u16]) {
        let h = self.dead.len();
        for (index, receiver) in (0..h).filter(|&receiver| receiver != rank).enumerate() {
            let sender = if rank < receiver { rank } else { rank - 1 };
            let number = h * self.helpers.len() + receiver * (h - 1) + sender;
            assert!(self.piece(sums, index) == self.piece(wire, number));
        }
    }

    /// What the new node of this rank receives from the others.
    fn received<'a>(&self, rank: usize, wire: &'a [u16]) -> &'a [u16] {
        let (h, length) = (self.dead.len(), self.message_length());
        let start = (h * self.helpers.len() + rank * (h - 1)) * length;
        &wire[start..start + (h - 1) * length]
    }

    /// A repair of the archive whose symbols the helpers hold.
    fn assert_all(&self, random: &mut Random, archive: Option<&[u16]>) {
        let size = self.shape.symbols();
        let (nodes, wire) = self.run(random);
        let expected = naive::repair(self.shape, &self.dead, &self.helpers, &self.before, wire.len());
        assert!(expected == Ok((nodes.clone(), wire.clone())), "{:?} {:?} {:?}", self.shape, self.dead, self.helpers);
        if let Some(archive) = archive {
            for node in &self.dead {
                assert!(nodes[node * size..(node + 1) * size] == archive[node * size..(node + 1) * size]);
            }
        }
        self.assert_pieces(random, &nodes, &wire);
    }
}

/// All rising lists of so many of these nodes.
fn choices(nodes: &[usize], count: usize) -> Vec<Vec<usize>> {
    if count == 0 {
        return vec![vec![]];
    }
    let mut all = Vec::new();
    for (index, &node) in nodes.iter().enumerate() {
        for rest in choices(&nodes[index + 1..], count - 1) {
            all.push([vec![node], rest].concat());
        }
    }
    all
}

/// Every repair with these n, k and h, with one batch of layers; gives their number.
fn try_every_set(random: &mut Random, n: usize, k: usize, h: usize) -> usize {
    let shape = Shape { n, k, layers: batch_layers(h) };
    let all: Vec<usize> = (0..n).collect();
    let mut repairs = 0;
    for dead in choices(&all, h) {
        let living: Vec<usize> = (0..n).filter(|node| !dead.contains(node)).collect();
        for helpers in choices(&living, k + 1) {
            let archive = random.codeword(shape);
            Repair::new(random, shape, &dead, &helpers, &archive).assert_all(random, Some(&archive));
            repairs += 1;
        }
    }
    repairs
}

#[test]
fn every_dead_and_helper_set_to_seven_nodes() {
    let mut random = Random::new(1);
    let mut all = 0;
    for n in 3..=7 {
        for k in 1..=n - 2 {
            for h in 1..n - k {
                let repairs = try_every_set(&mut random, n, k, h);
                assert_eq!(repairs, ways(n, k, h));
                all += repairs;
            }
        }
    }
    println!("{all} repairs");
}

/// n! / (h! (k+1)! (n-h-k-1)!): the ways to choose dead nodes and helpers.
fn ways(n: usize, k: usize, h: usize) -> usize {
    let factorial = |m: usize| (1..=m).product::<usize>();
    factorial(n) / factorial(h) / factorial(k + 1) / factorial(n - h - k - 1)
}

/// Random repairs with fifteen layers and n to the bound: every h that s allows, 15 being a multiple of 1, 3 and 5.
fn try_random(seed: u64, count: usize, most_nodes: usize, codeword: bool) {
    let mut random = Random::new(seed);
    let mut repairs = 0;
    while repairs < count {
        let n = random.between(3, most_nodes);
        let shape = Shape { n, k: random.between(1, n - 2), layers: 15 };
        let (dead, helpers) = random.dead_and_helpers(shape);
        if shape.layers.is_multiple_of(batch_layers(dead.len())) {
            let archive = if codeword { random.codeword(shape) } else { random.symbols(n * shape.symbols()) };
            let repair = Repair::new(&mut random, shape, &dead, &helpers, &archive);
            repair.assert_all(&mut random, codeword.then_some(&archive));
            repairs += 1;
        }
    }
}

#[test]
fn random_repairs_of_codewords() {
    try_random(1, 300, 9, true);
    try_random(2, 40, 12, true);
}

#[test]
fn random_repairs_of_other_symbols() {
    try_random(3, 300, 9, false);
    try_random(4, 40, 12, false);
}

/// A repair of random nodes, so many of them, of a codeword.
fn try_shape(random: &mut Random, shape: Shape, dead_count: usize) {
    let (dead, helpers) = random.sets(shape, dead_count);
    let archive = random.codeword(shape);
    Repair::new(random, shape, &dead, &helpers, &archive).assert_all(random, Some(&archive));
}

/// Each h that twelve nodes allow, with as many layers as s allows: s to 11, classes to 7.
#[test]
fn every_count_of_dead_nodes() {
    let mut random = Random::new(5);
    for h in 1..=10 {
        let s = batch_layers(h);
        try_shape(&mut random, Shape { n: 12, k: 3.min(11 - h), layers: 15 / s * s }, h);
    }
}

/// Each h that fourteen nodes allow, with one batch of layers: s to 13.
#[test]
fn every_count_of_dead_nodes_among_fourteen() {
    let mut random = Random::new(6);
    for h in 1..=12 {
        try_shape(&mut random, Shape { n: 14, k: 3.min(13 - h), layers: batch_layers(h) }, h);
    }
}

/// With eleven dead nodes (s = 3, H = 3) classes go by the bits of i_0, i_3 and i_6; with fewer, H is 1 or s is 1, and i_v
/// would do for i_(s×v). Codewords and other symbols, one batch of layers and more.
#[test]
fn eleven_dead_nodes() {
    let mut random = Random::new(7);
    for (n, k, layers) in [(13, 1, 3), (13, 1, 6), (14, 1, 3), (14, 2, 3), (14, 2, 9)] {
        let shape = Shape { n, k, layers };
        let (dead, helpers) = random.sets(shape, 11);
        let classes: Vec<usize> = {
            let repair = naive::repair::Repair::judged(shape, &dead, &helpers).unwrap();
            (0..11).map(|rank| repair.class_and_partner(rank).0).collect()
        };
        assert_eq!(classes, [0, 0, 0, 0, 1, 1, 0, 2, 2, 3, 3]); // Table V of document 004
        let archive = random.codeword(shape);
        Repair::new(&mut random, shape, &dead, &helpers, &archive).assert_all(&mut random, Some(&archive));
        let symbols = random.symbols(n * shape.symbols());
        Repair::new(&mut random, shape, &dead, &helpers, &symbols).assert_all(&mut random, None);
    }
}
