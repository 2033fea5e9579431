//! The stack that a call needs stays small and does not grow with the archive or with a list of losses or transfers: each
//! call that works on an archive is made at the largest shapes by a thread with little stack, and its results are held to
//! what was written; layers are chosen, and orders judged, for long lists. A call that needs more stack ends the whole test
//! program, which names the thread: each thread has the name of its call.

mod naive;

use hmsr::{unpack, Checked, Header, Refusal, Shape, MOST_STRETCHES};
use naive::Lists;
use std::thread;

/// The stack of a thread, in bytes. The buffers stand outside; in them an archive takes 6720 KiB, one node 480 KiB.
const ROOM: usize = 128 * 1024;

/// No archive is larger. With k = 8 and more, writing, checking and restoring work few multipliers out first; with k = 7
/// they do not.
const SHAPES: [Shape; 3] = [
    Shape { nodes: 14, data: 7, layers: 15 },
    Shape { nodes: 14, data: 8, layers: 15 },
    Shape { nodes: 14, data: 12, layers: 15 },
];

/// Makes a call in a thread with little stack.
fn with_little_stack<T: Send>(name: &str, call: impl FnOnce() -> Result<T, Refusal> + Send) -> T {
    let builder = thread::Builder::new().name(name.to_string()).stack_size(ROOM);
    let answer = thread::scope(|scope| builder.spawn_scoped(scope, call).unwrap().join());
    answer.unwrap().unwrap()
}

/// A transcript as long as can be, and its nodes.
struct Archive {
    shape: Shape,
    transcript: Vec<u8>,
    nodes: Vec<u16>,
}

impl Archive {
    fn write(shape: Shape) -> Self {
        let byte = |place: usize| ((place as u32).wrapping_mul(2_654_435_761) >> 24) as u8;
        let transcript: Vec<u8> = (0..shape.capacity().unwrap()).map(byte).collect();
        let mut nodes = vec![7; shape.archive_symbols().unwrap()];
        with_little_stack("write", || shape.write(&transcript, &mut nodes));
        Archive { shape, transcript, nodes }
    }

    fn node(&self, node: usize) -> &[u16] {
        let size = self.shape.node_symbols().unwrap();
        &self.nodes[node * size..(node + 1) * size]
    }

    fn check(&self) -> Checked {
        with_little_stack("check", || self.shape.check(&self.nodes))
    }

    /// The last k nodes, from which the first ones are worked out.
    fn last_nodes(&self) -> Vec<usize> {
        (self.shape.nodes - self.shape.data..self.shape.nodes).collect()
    }

    fn last_symbols(&self) -> &[u16] {
        &self.nodes[self.nodes.len() - self.transcript.len()..]
    }
}

/// The bytes on nodes 0 to k - 1 and the parity equations leave only one archive.
#[test]
fn written_and_checked() {
    for shape in SHAPES {
        let mut archive = Archive::write(shape);
        assert!(archive.nodes.iter().zip(&archive.transcript).all(|(&symbol, &byte)| symbol == byte.into()));
        assert_eq!(archive.check(), Checked::Sound);
        let last = archive.nodes.last_mut().unwrap();
        *last = (*last + 1) % 257;
        assert_eq!(archive.check(), Checked::Unmet { layer: 14, a: 16383, t: 0 });
        let mut data: Vec<u16> = archive.transcript.iter().map(|&byte| byte.into()).collect();
        *data.last_mut().unwrap() = 256;
        let list: Vec<usize> = (0..shape.data).collect();
        archive.nodes = shape.restore_nodes(&list, &data).unwrap();
        let place = shape.node_symbols().unwrap() - 1;
        assert_eq!(archive.check(), Checked::HighData { node: shape.data - 1, place });
    }
}

#[test]
fn restored() {
    for shape in SHAPES {
        let archive = Archive::write(shape);
        let (list, symbols) = (archive.last_nodes(), archive.last_symbols());
        let mut nodes = vec![7; archive.nodes.len()];
        with_little_stack("restore", || shape.restore(&list, symbols, &mut nodes));
        assert!(nodes == archive.nodes);
    }
}

#[test]
fn opened() {
    for shape in SHAPES {
        let archive = Archive::write(shape);
        let (list, symbols) = (archive.last_nodes(), archive.last_symbols());
        let mut transcript = vec![7; archive.transcript.len()];
        with_little_stack("open", || shape.open(&list, symbols, archive.transcript.len(), &mut transcript));
        assert!(transcript == archive.transcript);
    }
}

/// The whole transcript, and as many stretches as can be, of which each has more than a node's bytes.
#[test]
fn opened_in_stretches() {
    for shape in SHAPES {
        let archive = Archive::write(shape);
        let (list, symbols) = (archive.last_nodes(), archive.last_symbols());
        let (length, size) = (archive.transcript.len(), shape.node_symbols().unwrap());
        let many: Vec<_> = (0..MOST_STRETCHES).map(|at| 3 * at..3 * at + size + 1).collect();
        let whole = 0..length;
        for stretches in [vec![whole], many] {
            let expected: Vec<u8> = stretches.iter().flat_map(|s| &archive.transcript[s.clone()]).copied().collect();
            let (mut bytes, mut columns) = (vec![7; expected.len()], vec![7; size]);
            let read = with_little_stack("open_stretches", || {
                shape.open_stretches(&list, symbols, length, &stretches, &mut bytes, &mut columns)
            });
            assert_eq!(read, shape.data * size);
            assert!(bytes == expected && columns.into_iter().eq(0..size));
        }
    }
}

/// Bytes of the first and of the last place, on the first and on the last data node.
#[test]
fn corrected() {
    for shape in SHAPES {
        let mut archive = Archive::write(shape);
        let (length, size) = (archive.transcript.len(), shape.node_symbols().unwrap());
        for byte in [0, size - 1, length - size, length - 1] {
            let change = 255 - 2 * i64::from(archive.transcript[byte]);
            archive.transcript[byte] = 255 - archive.transcript[byte];
            with_little_stack("correct", || shape.correct(&mut archive.nodes, length, byte, change));
        }
        assert!(archive.nodes == shape.write_to_nodes(&archive.transcript).unwrap());
    }
}

#[test]
fn packed_and_unpacked() {
    for shape in SHAPES {
        let archive = Archive::write(shape);
        let (node, length) = (shape.nodes - 1, archive.transcript.len());
        for hearing in [0, 999_999] {
            let header = Header { shape, node, length, hearing };
            let mut card = vec![170; shape.card_room().unwrap()];
            let end = with_little_stack("pack", || header.pack(archive.node(node), &mut card));
            let mut symbols = vec![7; shape.node_symbols().unwrap()];
            assert_eq!(with_little_stack("unpack", || unpack(&card[..end], &mut symbols)), header);
            assert!(symbols == archive.node(node));
        }
    }
}

/// The first h nodes are dead, and the k + 1 behind them help.
struct Repair<'a> {
    archive: &'a Archive,
    dead: Vec<usize>,
    helpers: Vec<usize>,
}

/// What the first step of a new node gives.
#[derive(PartialEq)]
struct FirstStep {
    pairs: Vec<u16>,
    sums: Vec<u16>,
}

impl<'a> Repair<'a> {
    fn new(archive: &'a Archive, dead: usize) -> Self {
        Repair { archive, dead: (0..dead).collect(), helpers: (dead..dead + archive.shape.data + 1).collect() }
    }

    fn library(&self) -> hmsr::Repair<'_> {
        hmsr::Repair { shape: self.archive.shape, dead: &self.dead, helpers: &self.helpers }
    }

    fn message_symbols(&self) -> usize {
        self.archive.shape.message_symbols(self.dead.len()).unwrap()
    }

    /// The messages of all helpers to a new node.
    fn helper_messages(&self, new_node: usize) -> Vec<u16> {
        let size = self.message_symbols();
        let mut messages = vec![7; self.helpers.len() * size];
        for (&helper, message) in self.helpers.iter().zip(messages.chunks_exact_mut(size)) {
            let own = self.archive.node(helper);
            with_little_stack("helper_message", || self.library().helper_message(helper, new_node, own, message));
        }
        messages
    }

    fn first_step(&self, new_node: usize, messages: &[u16]) -> FirstStep {
        let size = self.message_symbols();
        let mut pairs = vec![7; 2 * size];
        let mut sums = vec![7; (self.dead.len() - 1) * size];
        with_little_stack("first_step", || self.library().first_step(new_node, messages, &mut pairs, &mut sums));
        FirstStep { pairs, sums }
    }

    /// The first step with the messages in another order, the last helper's first.
    fn by_arrival(&self, new_node: usize, messages: &[u16]) -> FirstStep {
        let (repair, size) = (self.library(), self.message_symbols());
        let mut kept = vec![0; self.archive.shape.kept_symbols(self.dead.len()).unwrap()];
        let mut heard = vec![0; self.archive.shape.data + 2];
        for (&helper, message) in self.helpers.iter().zip(messages.chunks_exact(size)).rev() {
            with_little_stack("hear", || repair.hear(new_node, helper, message, &mut kept, &mut heard));
        }
        let (mut pairs, mut sums) = (vec![7; 2 * size], vec![7; (self.dead.len() - 1) * size]);
        with_little_stack("finish", || repair.finish(new_node, &kept, &heard, &mut pairs, &mut sums));
        FirstStep { pairs, sums }
    }

    /// What a new node receives: of the sums of each other new node, the piece for this one.
    fn received(&self, receiver: usize, steps: &[FirstStep]) -> Vec<u16> {
        let size = self.message_symbols();
        let mut received = Vec::new();
        for (sender, step) in steps.iter().enumerate().filter(|&(sender, _)| sender != receiver) {
            let piece = if receiver < sender { receiver } else { receiver - 1 };
            received.extend_from_slice(&step.sums[piece * size..(piece + 1) * size]);
        }
        received
    }

    fn second_step(&self, new_node: usize, pairs: &[u16], received: &[u16]) -> Vec<u16> {
        let mut symbols = vec![7; self.archive.node(new_node).len()];
        with_little_stack("second_step", || self.library().second_step(new_node, pairs, received, &mut symbols));
        symbols
    }

    /// The repair by the calls of single nodes, with both kinds of first step: every new node has its symbols again. Gives
    /// all messages, as the wire has them: the helpers' by new node, then the new nodes' by receiver.
    fn by_steps(&self) -> Vec<u16> {
        let messages: Vec<_> = self.dead.iter().map(|&new_node| self.helper_messages(new_node)).collect();
        let steps: Vec<_> = self.dead.iter().map(|&new_node| self.first_step(new_node, &messages[new_node])).collect();
        let mut wire = messages.concat();
        for (&new_node, step) in self.dead.iter().zip(&steps) {
            assert!(self.by_arrival(new_node, &messages[new_node]) == *step);
            let received = self.received(new_node, &steps);
            assert!(self.second_step(new_node, &step.pairs, &received) == self.archive.node(new_node));
            wire.extend_from_slice(&received);
        }
        wire
    }

    /// The whole repair in one call: every node is as it was written. Gives the wire.
    fn whole(&self) -> Vec<u16> {
        let shape = self.archive.shape;
        let mut nodes = self.archive.nodes.clone();
        nodes[..self.dead.len() * shape.node_symbols().unwrap()].fill(65535);
        let mut wire = vec![7; shape.wire_symbols(self.dead.len()).unwrap()];
        with_little_stack("repair", || self.library().repair(&mut nodes, &mut wire));
        assert!(nodes == self.archive.nodes);
        wire
    }
}

/// Every number of dead nodes whose batch divides the layers.
#[test]
fn repaired() {
    for shape in SHAPES {
        let archive = Archive::write(shape);
        let counts = 1..shape.nodes - shape.data;
        for dead in counts.filter(|&dead| shape.layers.is_multiple_of(shape.batch_layers(dead).unwrap())) {
            let repair = Repair::new(&archive, dead);
            assert!(repair.whole() == repair.by_steps(), "{shape:?}, {dead} dead");
        }
    }
}

/// A list of 8 MB, whose losses ask for fifteen layers.
#[test]
fn layers_chosen() {
    let losses: Vec<usize> = [1, 2, 3, 4, 5, 7, 9, 11].into_iter().cycle().take(1_000_000).collect();
    let shape = with_little_stack("layers", || Shape::for_losses(14, 1, &losses));
    assert_eq!(shape, Shape { nodes: 14, data: 1, layers: 15 });
}

/// The longest plan and those with many helpers, each also over and over in a list of 8 MB.
#[test]
fn orders_judged() {
    for (k, h, layers) in [(1, 12, 13), (2, 11, 15), (6, 7, 15), (12, 1, 15)] {
        let shape = naive::Shape { n: 14, k, layers };
        let lists = Lists { shape, dead: (0..h).collect(), helpers: (h..h + k + 1).collect() };
        let shape = Shape { nodes: 14, data: k, layers };
        let repair = hmsr::Repair { shape, dead: &lists.dead, helpers: &lists.helpers };
        let plan = naive::order::numbers(&lists.transfers());
        assert_eq!(plan.len(), 2 * h * (k + h));
        with_little_stack("may_run", || repair.may_run(&plan));
        let long: Vec<usize> = plan.iter().copied().cycle().take(1_000_000).collect();
        let answer = with_little_stack("may_run", || Ok(repair.may_run(&long)));
        assert_eq!(answer, Err(Refusal::BadOrder));
    }
}
