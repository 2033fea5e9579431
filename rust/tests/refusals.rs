//! Every cause of every call, alone and with each other cause: the number of the one that document 01 judges first, and
//! every lent buffer as it was. The numbers here are written out from document 01, and from document 02, §2 for
//! stretches, §6 for lists of losses, §8 for messages in the order they arrive, §9 for hearing numbers, §10 for corrections
//! and §12 for orders of transfers.

mod naive;
mod raw;

use hmsr::{Checked, Header, Refusal, Repair, Shape};
use naive::lent::Lent;
use naive::random::{codeword_of, Random};

const N: usize = 192;
/// N/(h+1) of the two dead nodes below.
const MESSAGE: usize = 64;
const CAPACITY: usize = 2 * N;

/// What the calls are given; `lent` and `lent_too` are the lengths of buffers to be filled.
#[derive(Clone, PartialEq)]
struct Input {
    shape: Shape,
    list: Vec<usize>,
    dead: Vec<usize>,
    helpers: Vec<usize>,
    helper: usize,
    new: usize,
    node: usize,
    length: usize,
    hearing: usize,
    byte: usize,
    change: i64,
    transcript: Vec<u8>,
    symbols: Vec<u16>,
    received: Vec<u16>,
    pairs: Vec<usize>,
    lent: usize,
    lent_too: usize,
}

impl Input {
    fn repair(&self) -> Repair<'_> {
        Repair { shape: self.shape, dead: &self.dead, helpers: &self.helpers }
    }
}

/// Accepted by each call once its symbols and lent lengths are put in. Node 3 neither is dead nor helps.
fn accepted(symbols: Vec<u16>, lent: usize) -> Input {
    Input {
        shape: Shape { nodes: 6, data: 2, layers: 3 },
        list: vec![0, 3],
        dead: vec![1, 4],
        helpers: vec![0, 2, 5],
        helper: 2,
        new: 4,
        node: 5,
        length: 5,
        hearing: 0,
        byte: 4,
        change: -2,
        transcript: vec![7; 5],
        symbols,
        received: Vec::new(),
        pairs: vec![0, 1, 2, 1, 5, 1, 0, 4, 2, 4, 5, 4, 4, 1, 1, 4],
        lent,
        lent_too: 0,
    }
}

/// A cause's name, its number, and how it is brought about.
type Cause<T = Input> = (&'static str, usize, fn(&mut T));

const SHAPE: &[Cause] = &[
    ("n is 2", 1, |i| i.shape.nodes = 2),
    ("n is 15", 1, |i| i.shape.nodes = 15),
    ("n is 64", 1, |i| i.shape.nodes = 64),
    ("n is 2^32 + 6", 1, |i| i.shape.nodes = (1 << 32) + 6),
    ("n is 2^63", 1, |i| i.shape.nodes = 1 << 63),
    ("n is the largest number", 1, |i| i.shape.nodes = usize::MAX),
    ("k is 0", 1, |i| i.shape.data = 0),
    ("k is n - 1", 1, |i| i.shape.data = 5),
    ("k is 2^32 + 2", 1, |i| i.shape.data = (1 << 32) + 2),
    ("k is the largest number", 1, |i| i.shape.data = usize::MAX),
    ("L is 0", 1, |i| i.shape.layers = 0),
    ("L is 16", 1, |i| i.shape.layers = 16),
    ("L is 2^58 + 3", 1, |i| i.shape.layers = (1 << 58) + 3),
    ("L is the largest number", 1, |i| i.shape.layers = usize::MAX),
];

/// The list of restore and open.
const LIST: &[Cause] = &[
    ("no node listed", 2, |i| i.list = vec![]),
    ("too few nodes listed", 2, |i| i.list = vec![0]),
    ("too many nodes listed", 2, |i| i.list = vec![0, 3, 4]),
    ("list falling", 2, |i| i.list = vec![3, 0]),
    ("node listed twice", 2, |i| i.list = vec![3, 3]),
    ("node n listed", 2, |i| i.list = vec![0, 6]),
    ("node 2^32 + 3 listed", 2, |i| i.list = vec![0, (1 << 32) + 3]),
    ("largest number listed", 2, |i| i.list = vec![0, usize::MAX]),
];

const DEAD_AND_HELPERS: &[Cause] = &[
    ("none dead", 2, |i| i.dead = vec![]),
    ("n - k dead", 2, |i| i.dead = vec![0, 1, 3, 4]),
    ("dead falling", 2, |i| i.dead = vec![4, 1]),
    ("dead twice", 2, |i| i.dead = vec![4, 4]),
    ("node n dead", 2, |i| i.dead = vec![4, 6]),
    ("node 2^32 + 4 dead", 2, |i| i.dead = vec![4, (1 << 32) + 4]),
    ("largest number dead", 2, |i| i.dead = vec![4, usize::MAX]),
    ("no helper", 2, |i| i.helpers = vec![]),
    ("k helpers", 2, |i| i.helpers = vec![0, 2]),
    ("k + 2 helpers", 2, |i| i.helpers = vec![0, 2, 3, 5]),
    ("helpers falling", 2, |i| i.helpers = vec![0, 5, 2]),
    ("helper twice", 2, |i| i.helpers = vec![0, 2, 2]),
    ("node n helps", 2, |i| i.helpers = vec![0, 2, 6]),
    ("node 2^32 + 5 helps", 2, |i| i.helpers = vec![0, 2, (1 << 32) + 5]),
    ("largest number helps", 2, |i| i.helpers = vec![0, 2, usize::MAX]),
    ("the dead node 4 helps", 2, |i| i.helpers = vec![0, 2, 4]),
    ("the dead node 1 helps", 2, |i| i.helpers = vec![1, 2, 5]),
];

const NEW_NODE: &[Cause] = &[
    ("new node neither dead nor helper", 2, |i| i.new = 3),
    ("new node is a helper", 2, |i| i.new = 2),
    ("new node is n", 2, |i| i.new = 6),
    ("new node is 2^32 + 4", 2, |i| i.new = (1 << 32) + 4),
    ("new node is the largest number", 2, |i| i.new = usize::MAX),
];

const HELPER: &[Cause] = &[
    ("helper neither dead nor listed", 2, |i| i.helper = 3),
    ("helper is dead", 2, |i| i.helper = 1),
    ("helper is n", 2, |i| i.helper = 6),
    ("helper is 2^32 + 2", 2, |i| i.helper = (1 << 32) + 2),
    ("helper is the largest number", 2, |i| i.helper = usize::MAX),
];

/// h + 1 is 3, and so is s.
const LAYERS: &[Cause] = &[("L is 1", 3, |i| i.shape.layers = 1), ("L is 4", 3, |i| i.shape.layers = 4)];

const TRANSCRIPT: &[Cause] = &[("transcript longer than k × N", 4, |i| i.transcript = vec![0; CAPACITY + 1])];

const SYMBOLS_LENGTH: &[Cause] = &[
    ("symbols one short", 4, |i| shrink(&mut i.symbols)),
    ("symbols one long", 4, |i| grow(&mut i.symbols)),
    ("no symbols", 4, |i| i.symbols = vec![]),
];

const RECEIVED_LENGTH: &[Cause] = &[
    ("received one short", 4, |i| shrink(&mut i.received)),
    ("received one long", 4, |i| grow(&mut i.received)),
    ("nothing received", 4, |i| i.received = vec![]),
];

const LENT_LENGTH: &[Cause] = &[
    ("lent buffer one short", 4, |i| i.lent = i.lent.wrapping_sub(1)),
    ("lent buffer one long", 4, |i| i.lent = i.lent.wrapping_add(1)),
    ("nothing lent", 4, |i| i.lent = 0),
];

const LENT_TOO_LENGTH: &[Cause] = &[
    ("second lent buffer one short", 4, |i| i.lent_too = i.lent_too.wrapping_sub(1)),
    ("second lent buffer one long", 4, |i| i.lent_too = i.lent_too.wrapping_add(1)),
    ("no second lent buffer", 4, |i| i.lent_too = 0),
];

const LENGTH: &[Cause] = &[
    ("length above k × N", 4, |i| (i.length, i.lent) = (CAPACITY + 1, CAPACITY + 1)),
    ("length the largest number", 4, |i| i.length = usize::MAX),
    ("length of another buffer", 4, |i| i.length = 9),
];

const SYMBOLS: &[Cause] = &[
    ("second symbol 257", 5, |i| put(&mut i.symbols, 1, 257)),
    ("a symbol 512", 5, |i| put(&mut i.symbols, 40, 512)),
    ("last symbol 65535", 5, |i| put_last(&mut i.symbols, 65535)),
];

const RECEIVED: &[Cause] = &[
    ("first received 257", 5, |i| put(&mut i.received, 0, 257)),
    ("last received 65535", 5, |i| put_last(&mut i.received, 65535)),
];

fn put<T>(elements: &mut [T], index: usize, element: T) {
    if let Some(place) = elements.get_mut(index) {
        *place = element;
    }
}

fn put_last(symbols: &mut [u16], symbol: u16) {
    if let Some(place) = symbols.last_mut() {
        *place = symbol;
    }
}

fn shrink<T>(elements: &mut Vec<T>) {
    elements.pop();
}

/// One element more, like the last.
fn grow<T: Copy + Default>(elements: &mut Vec<T>) {
    elements.push(elements.last().copied().unwrap_or_default());
}

/// Tries each cause alone and with each other one. The causes stand in the order in which they are judged.
fn try_causes<T: Clone + PartialEq>(input: T, causes: &[Cause<T>], call: fn(&T) -> usize) {
    assert_eq!(call(&input), 0, "the input is accepted");
    let mut pairs = 0;
    for (index, (name, number, spoil)) in causes.iter().enumerate() {
        let spoiled = changed(&input, &[*spoil]);
        assert_eq!(call(&spoiled), *number, "{name}");
        for (later_name, _, spoil_too) in &causes[index + 1..] {
            let spoiled = changed(&input, &[*spoil, *spoil_too]);
            // Causes that undo or replace one another are not there together.
            if spoiled != input && spoiled == changed(&input, &[*spoil_too, *spoil]) {
                assert_eq!(call(&spoiled), *number, "{name}, {later_name}");
                pairs += 1;
            }
        }
    }
    println!("{} causes alone, {pairs} pairs of them", causes.len());
    assert!(3 * pairs > causes.len() * (causes.len() - 1), "most pairs are tried");
}

fn changed<T: Clone>(input: &T, changes: &[fn(&mut T)]) -> T {
    let mut changed = input.clone();
    changes.iter().for_each(|change| change(&mut changed));
    changed
}

/// "Elsewhere than in cards and the plan program, several causes yield the first by 1, 2, 3, 4, 5, .., 7" (8 between
/// them is dropped by document 02 §11); 11 is "judged after 2" (document 02 §6), 9 "judged after 4 and before 5" (§2), 13
/// "judged after 4" (§12) and 12 "judged after 5" (§10).
fn in_order<T>(causes: &[&[Cause<T>]]) -> Vec<Cause<T>> {
    let causes = causes.concat();
    let order = [1, 2, 11, 3, 4, 9, 13, 5, 12, 7];
    let ranks: Vec<_> = causes.iter().map(|cause| order.iter().position(|number| *number == cause.1)).collect();
    assert!(ranks.iter().all(Option::is_some) && ranks.is_sorted());
    causes
}

/// The number of an answer; the buffers are as they were if it is not 0.
fn judged<const BUFFERS: usize>(answer: Result<(), Refusal>, lent: [Lent<u16>; BUFFERS]) -> usize {
    if answer.is_err() {
        lent.into_iter().for_each(|buffer| buffer.assert_holds(&[]));
    }
    answer.err().map_or(0, Refusal::number)
}

fn garbage(length: usize) -> Lent<u16> {
    Lent::symbols(&mut Random::new(1), length)
}

#[test]
fn write() {
    let input = accepted(vec![], 6 * N);
    try_causes(input, &in_order(&[SHAPE, TRANSCRIPT, LENT_LENGTH]), |i| {
        let mut nodes = garbage(i.lent);
        judged(i.shape.write(&i.transcript, nodes.slice()), [nodes])
    });
}

/// The check answers "unmet", here 9, only where nothing is refused, and names a data symbol, here 10 and 11, only where
/// every equation is met: node 0's before node 1's, though its place is behind.
#[test]
fn check() {
    let faults: &[Cause] = &[
        ("equations of the last place unmet", 9, |i| put_last(&mut i.symbols, 1)),
        ("256 at the last place but one of node 0", 10, |i| put_256(i, 0, N - 2)),
        ("256 at the first place of node 1", 11, |i| put_256(i, 1, 0)),
    ];
    let input = accepted(vec![0; 6 * N], 0);
    let causes = [SHAPE, SYMBOLS_LENGTH, SYMBOLS, faults].concat();
    try_causes(input, &causes, |i| match i.shape.check(&i.symbols) {
        Ok(Checked::Sound) => 0,
        Ok(Checked::Unmet { layer, a, t }) => {
            assert_eq!((layer, a, t), (2, 63, 0));
            9
        }
        Ok(Checked::HighData { node, place }) => {
            assert_eq!(place, [N - 2, 0][node]);
            10 + node
        }
        Err(refusal) => refusal.number(),
    });
}

/// Puts 256 at a place of a data node, and on the check nodes what the equations then ask for.
fn put_256(i: &mut Input, node: usize, place: usize) {
    let mut data = vec![0; CAPACITY];
    data[node * N + place] = 256;
    let nodes = codeword_of(naive::Shape { n: 6, k: 2, layers: 3 }, &data);
    for index in (place..nodes.len()).step_by(N).filter(|&index| nodes[index] != 0) {
        put(&mut i.symbols, index, nodes[index]);
    }
}

#[test]
fn restore() {
    let input = accepted(vec![3; CAPACITY], 6 * N);
    try_causes(input, &in_order(&[SHAPE, LIST, SYMBOLS_LENGTH, LENT_LENGTH, SYMBOLS]), |i| {
        let mut nodes = garbage(i.lent);
        judged(i.shape.restore(&i.list, &i.symbols, nodes.slice()), [nodes])
    });
}

/// Nodes 0 and 3 of the archive of five bytes 7: node 0 is handed in as it is, node 1 is worked out.
#[test]
fn open() {
    let transcript: &[Cause] = &[
        // 256 is 7 × 110: so node 1, which is worked out, stays 0.
        ("a symbol within the length is 256", 7, |i| {
            put(&mut i.symbols, 3, 256);
            let scaled = i.symbols.get(N + 3).map_or(0, |symbol| symbol * 110 % 257);
            put(&mut i.symbols, N + 3, scaled);
        }),
        ("the first symbol beyond the length is 1", 7, |i| put(&mut i.symbols, 5, 1)),
        ("the last symbol of node 0 is 256", 7, |i| put(&mut i.symbols, N - 1, 256)),
        ("the node worked out is not 0", 7, |i| put(&mut i.symbols, N + 9, 5)),
    ];
    let written = accepted(vec![], 0).shape.write_to_nodes(&[7; 5]).unwrap();
    let input = accepted([&written[..N], &written[3 * N..4 * N]].concat(), 5);
    let causes = [SHAPE, LIST, SYMBOLS_LENGTH, LENT_LENGTH, LENGTH, SYMBOLS, transcript];
    try_causes(input, &in_order(&causes), |i| {
        let mut lent = Lent::bytes(&mut Random::new(1), i.lent);
        let answer = i.shape.open(&i.list, &i.symbols, i.length, lent.slice());
        lent.assert_holds(if answer.is_ok() { &[7; 5] } else { &[] });
        answer.err().map_or(0, Refusal::number)
    });
}

/// Against k × N.
const CORRECTED_LENGTH: &[Cause] = &[
    ("length k × N + 1", 4, |i| i.length = CAPACITY + 1),
    ("length 2^32 + 300", 4, |i| i.length = (1 << 32) + 300),
    ("length 2^63 + 300", 4, |i| i.length = (1 << 63) + 300),
    ("length the largest number", 4, |i| i.length = usize::MAX),
];

/// The byte's number is 200 of 300.
const PAST_END: &[Cause] = &[
    ("length 0", 9, |i| i.length = 0),
    ("length is the byte's number", 9, |i| i.length = 200),
    ("byte number 300", 9, |i| i.byte = 300),
    ("byte number k × N", 9, |i| i.byte = CAPACITY),
    ("byte number n × N", 9, |i| i.byte = 6 * N),
    ("byte number 2^32 + 200", 9, |i| i.byte = (1 << 32) + 200),
    ("byte number 2^63 + 200", 9, |i| i.byte = (1 << 63) + 200),
    ("byte number the largest number", 9, |i| i.byte = usize::MAX),
];

/// Byte 200 stands on node 1 at place 8. "Number 5 here looks only at the byte's place in the n nodes."
const PLACE: &[Cause] = &[
    ("257 at the place of node 0", 5, |i| put(&mut i.symbols, 8, 257)),
    ("512 in the byte's own symbol", 5, |i| put(&mut i.symbols, N + 8, 512)),
    ("513 at the place of check node 2", 5, |i| put(&mut i.symbols, 2 * N + 8, 513)),
    ("32768 at the place of check node 3", 5, |i| put(&mut i.symbols, 3 * N + 8, 32768)),
    ("65535 at the place of the last node", 5, |i| put(&mut i.symbols, 5 * N + 8, 65535)),
];

/// The byte is 7. "The change is outside its range or the data symbol plus the change leaves 0 to 255."
const CHANGE: &[Cause] = &[
    ("change 256", 12, |i| i.change = 256),
    ("change -256", 12, |i| i.change = -256),
    ("change -8", 12, |i| i.change = -8),
    ("change 249", 12, |i| i.change = 249),
    ("change 2^16 - 2", 12, |i| i.change = (1 << 16) - 2),
    ("change 2^32 - 2", 12, |i| i.change = (1 << 32) - 2),
    ("change -2^32", 12, |i| i.change = -(1 << 32)),
    ("change the largest number", 12, |i| i.change = i64::MAX),
    ("change the least number", 12, |i| i.change = i64::MIN),
    ("256 changed by 0", 12, |i| put_byte(i, 256, 0)),
    ("256 changed by -256", 12, |i| put_byte(i, 256, -256)),
    ("255 changed by 1", 12, |i| put_byte(i, 255, 1)),
    ("0 changed by -1", 12, |i| put_byte(i, 0, -1)),
];

/// Another symbol in place of the byte's own, and another change.
fn put_byte(i: &mut Input, symbol: u16, change: i64) {
    put(&mut i.symbols, N + 8, symbol);
    i.change = change;
}

/// All symbols are 65535 but those of the byte's place, and are not looked at.
#[test]
fn correct() {
    let mut symbols = vec![65535; 6 * N];
    (0..6).for_each(|node| symbols[node * N + 8] = [256, 7, 256, 0, 255, 256][node]);
    let input = Input { length: 300, byte: 200, ..accepted(symbols, 0) };
    let lengths = [SYMBOLS_LENGTH, CORRECTED_LENGTH].concat();
    try_causes(input, &in_order(&[SHAPE, &lengths, PAST_END, PLACE, CHANGE]), |i| {
        let mut nodes = Lent::around(&i.symbols);
        judged(i.shape.correct(nodes.slice(), i.length, i.byte, i.change), [nodes])
    });
}

/// Bytes 3 and 4, 190 to 193, of which the last two stand on node 1, the last byte, 299, and none behind it.
const STRETCHES: [usize; 8] = [3, 2, 190, 4, 299, 1, 300, 0];
const STRETCH_BYTES: usize = 7;
/// The touched columns, and what data nodes 0 and 1 have there: the wanted byte 7 and, not looked at, 256.
const TOUCHED: [(usize, [u16; 2]); 7] =
    [(0, [256, 7]), (1, [256, 7]), (3, [7, 256]), (4, [7, 256]), (107, [256, 7]), (190, [7, 256]), (191, [7, 256])];

/// Numbers of stretches: most have places of their own, so that they can be there together. The buffer for the bytes,
/// one longer or shorter, fits none of these.
const STRETCHES_LENGTH: &[Cause] = &[
    ("one number short", 4, |i| shrink(&mut i.pairs)),
    ("one number more", 4, |i| grow(&mut i.pairs)),
    ("one number alone", 4, |i| i.pairs = vec![0]),
    ("65 stretches", 4, |i| i.pairs.resize(2 * 65, 0)),
    ("66 stretches", 4, |i| i.pairs.resize(2 * 66, 0)),
    ("2^32 bytes more", 4, |i| put(&mut i.pairs, 1, (1 << 32) + 2)),
    ("three bytes more", 4, |i| put(&mut i.pairs, 3, 7)),
    ("the largest number of bytes behind the end", 4, |i| put(&mut i.pairs, 7, usize::MAX)),
    ("lengths of which the sum wraps to the buffer's", 4, |i| {
        put(&mut i.pairs, 1, (1 << 63) + 2);
        put(&mut i.pairs, 3, (1 << 63) + 4);
    }),
    ("a length of -1, and two bytes more", 4, |i| {
        put(&mut i.pairs, 5, usize::MAX);
        put(&mut i.pairs, 7, 2);
    }),
];

/// "9, a stretch ends past the transcript": as many bytes are wanted as before.
const STRETCH_PAST_END: &[Cause] = &[
    ("length one less", 9, |i| i.length = 299),
    ("length 0", 9, |i| i.length = 0),
    ("a stretch starts two bytes before the end", 9, |i| put(&mut i.pairs, 2, 298)),
    ("a stretch starts at the end", 9, |i| put(&mut i.pairs, 4, 300)),
    ("an empty stretch starts behind the end", 9, |i| put(&mut i.pairs, 6, 301)),
    ("a byte more at the end, and one less before", 9, |i| {
        put(&mut i.pairs, 1, 1);
        put(&mut i.pairs, 5, 2);
    }),
    ("the start k × N", 9, |i| put(&mut i.pairs, 4, CAPACITY)),
    ("the start 2^32 + 3", 9, |i| put(&mut i.pairs, 0, (1 << 32) + 3)),
    ("the start 2^63 + 190", 9, |i| put(&mut i.pairs, 2, (1 << 63) + 190)),
    ("the end wraps to 0", 9, |i| put(&mut i.pairs, 0, usize::MAX - 1)),
    ("the end wraps to 3", 9, |i| put(&mut i.pairs, 2, usize::MAX)),
    ("an empty stretch starts at the largest number", 9, |i| put(&mut i.pairs, 6, usize::MAX)),
];

/// "Number 5 here looks only at touched columns", but at all k symbols there, whichever node the byte stands on.
const TOUCHED_SYMBOLS: &[Cause] = &[
    ("257 in the first touched column of node 0", 5, |i| put(&mut i.symbols, 0, 257)),
    ("512 in the first touched column of node 3", 5, |i| put(&mut i.symbols, N, 512)),
    ("513 at the last byte's place of node 0", 5, |i| put(&mut i.symbols, 107, 513)),
    ("32768 at place 4 of node 3", 5, |i| put(&mut i.symbols, N + 4, 32768)),
    ("65535 in the last touched column of node 3", 5, |i| put(&mut i.symbols, N + 191, 65535)),
];

/// "And 7 only at wanted bytes": node 0 is handed in, node 1 worked out.
const WANTED_BYTES: &[Cause] = &[
    ("byte 3 is 256", 7, |i| put_data(i, 3, [256, 0])),
    ("byte 190 is 256", 7, |i| put_data(i, 190, [256, 256])),
    ("byte 193, on node 1, is 256", 7, |i| put_data(i, 1, [0, 256])),
    ("the last byte, on node 1, is 256", 7, |i| put_data(i, 107, [7, 256])),
];

/// Puts symbols on data nodes 0 and 1 at a place, by those that nodes 0 and 3 then have there.
fn put_data(i: &mut Input, place: usize, symbols: [u16; 2]) {
    let shape = naive::Shape { n: 6, k: 2, layers: 3 };
    let mut data = vec![0; CAPACITY];
    (data[place], data[N + place]) = (symbols[0], symbols[1]);
    let column = naive::stretches::column(shape, &[0, 1], &data, place);
    put(&mut i.symbols, place, column[0]);
    put(&mut i.symbols, N + place, column[3]);
}

/// All symbols are 65535 but those of the touched columns.
fn accepted_stretches() -> Input {
    let mut input = accepted(vec![65535; CAPACITY], STRETCH_BYTES);
    TOUCHED.into_iter().for_each(|(place, symbols)| put_data(&mut input, place, symbols));
    Input { length: 300, pairs: STRETCHES.to_vec(), lent_too: N, ..input }
}

/// What the C call returns, 0 for what is accepted.
fn stretches_number(i: &Input) -> usize {
    let (mut bytes, mut columns) = (Lent::bytes(&mut Random::new(1), i.lent), Lent::numbers(i.lent_too));
    let lent = (bytes.slice(), columns.slice());
    let number = raw::open_stretches(i.shape, &i.list, &i.symbols, i.length, &i.pairs, lent.0, lent.1);
    if number < 256 {
        bytes.assert_holds(&[]);
        columns.assert_holds(&[]);
        return number;
    }
    assert_eq!(number, 256 + 2 * TOUCHED.len());
    bytes.assert_holds(&[7; STRETCH_BYTES]);
    columns.assert_holds(&[&TOUCHED.map(|(place, _)| place)[..], &[0; N - TOUCHED.len()]].concat());
    0
}

#[test]
fn open_stretches() {
    let lengths = [SYMBOLS_LENGTH, LENT_LENGTH, LENT_TOO_LENGTH, CORRECTED_LENGTH, STRETCHES_LENGTH].concat();
    let causes = [SHAPE, LIST, &lengths, STRETCH_PAST_END, TOUCHED_SYMBOLS, WANTED_BYTES];
    try_causes(accepted_stretches(), &in_order(&causes), stretches_number);
}

#[test]
fn helper_message() {
    let input = accepted(vec![256; N], MESSAGE);
    let causes = [SHAPE, DEAD_AND_HELPERS, NEW_NODE, HELPER, LAYERS, SYMBOLS_LENGTH, LENT_LENGTH, SYMBOLS];
    try_causes(input, &in_order(&causes), |i| {
        let mut message = garbage(i.lent);
        let answer = i.repair().helper_message(i.helper, i.new, &i.symbols, message.slice());
        judged(answer, [message])
    });
}

#[test]
fn first_step() {
    let mut input = accepted(vec![256; 3 * MESSAGE], 2 * MESSAGE);
    input.lent_too = MESSAGE;
    let lengths = [SYMBOLS_LENGTH, LENT_LENGTH, LENT_TOO_LENGTH].concat();
    let causes = [SHAPE, DEAD_AND_HELPERS, NEW_NODE, LAYERS, &lengths, SYMBOLS];
    try_causes(input, &in_order(&causes), |i| {
        let (mut pairs, mut sums) = (garbage(i.lent), garbage(i.lent_too));
        let answer = i.repair().first_step(i.new, &i.symbols, pairs.slice(), sums.slice());
        judged(answer, [pairs, sums])
    });
}

/// How many the record counts: more than k + 1.
const HEARD_COUNT: &[Cause] = &[
    ("k + 2 heard", 2, |i| put(&mut i.pairs, 0, 4)),
    ("256 + 2 heard", 2, |i| put(&mut i.pairs, 0, 256 + 2)),
    ("2^32 + 2 heard", 2, |i| put(&mut i.pairs, 0, (1 << 32) + 2)),
    ("2^63 heard", 2, |i| put(&mut i.pairs, 0, 1 << 63)),
    ("the largest number heard", 2, |i| put(&mut i.pairs, 0, usize::MAX)),
];

/// The first two nodes of the record, which counts two or three: "a helper heard a second time, or one not in the list, in
/// the kept record too, is 2" (document 02 §8).
const HEARD_NODES: &[Cause] = &[
    ("a node heard neither dead nor listed", 2, |i| put(&mut i.pairs, 1, 3)),
    ("the new node heard", 2, |i| put(&mut i.pairs, 1, 4)),
    ("node n heard", 2, |i| put(&mut i.pairs, 1, 6)),
    ("node 2^32 + 5 heard", 2, |i| put(&mut i.pairs, 1, (1 << 32) + 5)),
    ("the dead node 1 heard", 2, |i| put(&mut i.pairs, 2, 1)),
    ("node 5 heard twice", 2, |i| put(&mut i.pairs, 2, 5)),
    ("the largest number heard second", 2, |i| put(&mut i.pairs, 2, usize::MAX)),
];

/// The helper is 2, and nodes 5 and 0 are heard.
const HEARD_ALREADY: &[Cause] = &[
    ("the helper heard already", 2, |i| i.helper = 5),
    ("the helper in the record already", 2, |i| put(&mut i.pairs, 2, 2)),
];

/// Leaves the count and two nodes, so that it can be there together with what is wrong about them.
const RECORD_LENGTH: &[Cause] =
    &[("record one short", 4, |i| shrink(&mut i.pairs)), ("record one long", 4, |i| grow(&mut i.pairs))];

/// Takes away what may be wrong about the record, and is tried without that.
const RECORD_CUT: &[Cause] = &[
    ("no record", 4, |i| i.pairs = vec![]),
    ("the count alone", 4, |i| i.pairs.truncate(1)),
    ("the count and one node", 4, |i| i.pairs.truncate(2)),
];

/// The number of hearing, whose sums are `received` and whose record is `pairs`.
fn hear_number(i: &Input) -> usize {
    let (mut sums, mut record) = (Lent::around(&i.received), Lent::around(&i.pairs));
    let answer = i.repair().hear(i.new, i.helper, &i.symbols, sums.slice(), record.slice());
    if answer.is_err() {
        record.assert_holds(&[]);
    }
    judged(answer, [sums])
}

fn accepted_hearing(record: [usize; 4]) -> Input {
    Input { received: vec![256; 4 * MESSAGE], pairs: record.to_vec(), ..accepted(vec![256; MESSAGE], 0) }
}

/// Two are heard. Behind them stands the helper that is heard now.
#[test]
fn hear() {
    let names = [DEAD_AND_HELPERS, NEW_NODE, HELPER, HEARD_COUNT, HEARD_NODES, HEARD_ALREADY].concat();
    let lengths = [SYMBOLS_LENGTH, RECEIVED_LENGTH, RECORD_LENGTH].concat();
    let causes = [SHAPE, &names, LAYERS, &lengths, SYMBOLS, RECEIVED];
    try_causes(accepted_hearing([2, 5, 0, 2]), &in_order(&causes), hear_number);
}

#[test]
fn hear_with_a_cut_record() {
    let lengths = [SYMBOLS_LENGTH, RECEIVED_LENGTH, RECORD_CUT].concat();
    let causes = [SHAPE, DEAD_AND_HELPERS, NEW_NODE, HELPER, LAYERS, &lengths, SYMBOLS, RECEIVED];
    for record in [[0, 2, 2, usize::MAX], [1, 5, 2, 2], [2, 5, 0, 2]] {
        try_causes(accepted_hearing(record), &in_order(&causes), hear_number);
    }
}

/// "Finishing before all k+1 are heard is 4" (document 02 §8).
const NOT_ALL_HEARD: &[Cause] = &[("two of three heard", 4, |i| put(&mut i.pairs, 0, 2))];
/// Leaves out of the count what may be wrong about two nodes, and is tried without that.
const FEWER_HEARD: &[Cause] =
    &[("nobody heard", 4, |i| put(&mut i.pairs, 0, 0)), ("one of three heard", 4, |i| put(&mut i.pairs, 0, 1))];

/// The number of finishing, whose sums are `symbols` and whose record is `pairs`.
fn finish_number(i: &Input) -> usize {
    let (mut pairs, mut exchanges) = (garbage(i.lent), garbage(i.lent_too));
    let answer = i.repair().finish(i.new, &i.symbols, &i.pairs, pairs.slice(), exchanges.slice());
    judged(answer, [pairs, exchanges])
}

fn accepted_finishing() -> Input {
    let input = accepted(vec![256; 4 * MESSAGE], 2 * MESSAGE);
    Input { pairs: vec![3, 5, 0, 2], lent_too: MESSAGE, ..input }
}

#[test]
fn finish() {
    let names = [DEAD_AND_HELPERS, NEW_NODE, HEARD_COUNT, HEARD_NODES].concat();
    let lengths = [SYMBOLS_LENGTH, LENT_LENGTH, LENT_TOO_LENGTH, RECORD_LENGTH, NOT_ALL_HEARD].concat();
    let causes = [SHAPE, &names, LAYERS, &lengths, SYMBOLS];
    try_causes(accepted_finishing(), &in_order(&causes), finish_number);
}

#[test]
fn finish_with_a_cut_record() {
    let lengths = [SYMBOLS_LENGTH, LENT_LENGTH, LENT_TOO_LENGTH, RECORD_CUT, FEWER_HEARD].concat();
    let causes = [SHAPE, DEAD_AND_HELPERS, NEW_NODE, LAYERS, &lengths, SYMBOLS];
    try_causes(accepted_finishing(), &in_order(&causes), finish_number);
}

#[test]
fn second_step() {
    let mut input = accepted(vec![256; 2 * MESSAGE], N);
    input.received = vec![256; MESSAGE];
    let lengths = [SYMBOLS_LENGTH, RECEIVED_LENGTH, LENT_LENGTH].concat();
    let causes = [SHAPE, DEAD_AND_HELPERS, NEW_NODE, LAYERS, &lengths, SYMBOLS, RECEIVED];
    try_causes(input, &in_order(&causes), |i| {
        let mut symbols = garbage(i.lent);
        let answer = i.repair().second_step(i.new, &i.symbols, &i.received, symbols.slice());
        judged(answer, [symbols])
    });
}

/// The dead nodes and node 3 hold 65535 all the time, and are not looked at. Nodes 0 and 5, the ends of the buffer, help.
#[test]
fn repair() {
    let mut nodes = vec![256; 6 * N];
    for node in [1, 3, 4] {
        nodes[node * N..(node + 1) * N].fill(65535);
    }
    let input = accepted(nodes, 2 * 4 * MESSAGE);
    let causes = [SHAPE, DEAD_AND_HELPERS, LAYERS, SYMBOLS_LENGTH, LENT_LENGTH, SYMBOLS];
    try_causes(input, &in_order(&causes), |i| {
        let (mut nodes, mut wire) = (Lent::around(&i.symbols), garbage(i.lent));
        let answer = i.repair().repair(nodes.slice(), wire.slice());
        judged(answer, [nodes, wire])
    });
}

/// "An odd count of them is 4" (document 02 §12).
const ODD: &[Cause] = &[
    ("one number short", 4, |i| shrink(&mut i.pairs)),
    ("one number more", 4, |i| grow(&mut i.pairs)),
    ("one number alone", 4, |i| i.pairs = vec![0]),
    ("the largest number alone", 4, |i| i.pairs = vec![usize::MAX]),
];

/// Most have places of their own, so that they can be there together.
const ORDER: &[Cause] = &[
    ("no transfer", 13, |i| drop(i.pairs.drain(..i.pairs.len() / 2 * 2))),
    ("the last transfer left out", 13, |i| i.pairs.truncate(14)),
    ("a transfer doubled", 13, |i| i.pairs.extend([2, 1])),
    ("a message doubled in place of another", 13, |i| put(&mut i.pairs, 2, 0)),
    ("an exchange doubled in place of another", 13, |i| {
        put(&mut i.pairs, 14, 4);
        put(&mut i.pairs, 15, 1);
    }),
    ("an exchange before all messages to its sender", 13, |i| swap(&mut i.pairs, 0, 7)),
    ("an exchange before the last message to its sender", 13, |i| swap(&mut i.pairs, 5, 6)),
    ("the sender neither dead nor a helper", 13, |i| put(&mut i.pairs, 6, 3)),
    ("the receiver a helper", 13, |i| put(&mut i.pairs, 5, 2)),
    ("the receiver neither dead nor a helper", 13, |i| put(&mut i.pairs, 7, 3)),
    ("the sender n", 13, |i| put(&mut i.pairs, 4, 6)),
    ("a helper 2^32 + 2", 13, |i| put(&mut i.pairs, 8, (1 << 32) + 2)),
    ("a helper's receiver 2^63 + 1", 13, |i| put(&mut i.pairs, 3, (1 << 63) + 1)),
    ("the sender of an exchange 256 + 4", 13, |i| put(&mut i.pairs, 12, 256 + 4)),
    ("the receiver of an exchange 2^32 + 4", 13, |i| put(&mut i.pairs, 15, (1 << 32) + 4)),
    ("the largest numbers behind", 13, |i| i.pairs.extend([usize::MAX; 2])),
];

/// Swaps two pairs, if both are there.
fn swap(pairs: &mut [usize], first: usize, second: usize) {
    let (pairs, _) = pairs.as_chunks_mut::<2>();
    if pairs.len() > second {
        pairs.swap(first, second);
    }
}

#[test]
fn may_run() {
    let causes = in_order(&[SHAPE, DEAD_AND_HELPERS, LAYERS, ODD, ORDER]);
    try_causes(accepted(vec![], 0), &causes, |i| judged(i.repair().may_run(&i.pairs), []));
}

/// "Packing judges shape, node, length against k × N (6), buffer sizes, symbols"; a hearing number above 999,999 is 6,
/// "judged after the length" (document 02 §9).
fn pack_causes() -> Vec<Cause> {
    let header: &[Cause] = &[
        ("node is n", 2, |i| i.node = 6),
        ("node is 2^32 + 5", 2, |i| i.node = (1 << 32) + 5),
        ("node is the largest number", 2, |i| i.node = usize::MAX),
        ("length above k × N", 6, |i| i.length = CAPACITY + 1),
        ("length is 2^32 + 5", 6, |i| i.length = (1 << 32) + 5),
        ("length is the largest number", 6, |i| i.length = usize::MAX),
        ("hearing is 1 000 000", 6, |i| i.hearing = 1_000_000),
        ("hearing is 2^32 + 7", 6, |i| i.hearing = (1 << 32) + 7),
        ("hearing is the largest number", 6, |i| i.hearing = usize::MAX),
    ];
    [SHAPE, header, SYMBOLS_LENGTH, LENT_LENGTH, SYMBOLS].concat()
}

#[test]
fn pack() {
    for hearing in [0, 1, 999_999] {
        let input = Input { hearing, ..accepted(vec![256; N], 15 + 2 * N) };
        try_causes(input, &pack_causes(), |i| {
            let mut card = Lent::bytes(&mut Random::new(1), i.lent);
            let header = Header { shape: i.shape, node: i.node, length: i.length, hearing: i.hearing };
            let answer = header.pack(&i.symbols, card.slice());
            if answer.is_err() {
                card.assert_holds(&[]);
            }
            answer.err().map_or(0, Refusal::number)
        });
    }
}

/// A card: the bytes of each number, and bytes behind them; the lengths of the lent buffers.
#[derive(Clone, PartialEq)]
struct Card {
    /// The leading 1 and the hearing number, or nothing.
    leading: Vec<u8>,
    hearing: Vec<u8>,
    /// n, k, L, node, length.
    header: [Vec<u8>; 5],
    symbols: Vec<Vec<u8>>,
    behind: Vec<u8>,
    symbols_length: usize,
    header_length: usize,
}

impl Card {
    fn bytes(&self) -> Vec<u8> {
        let header = self.header.concat();
        [&self.leading[..], &header, &self.hearing, &self.symbols.concat(), &self.behind].concat()
    }
}

const NOT_SHORTEST: &[u8] = &[128, 0];
const NOT_SHORTEST_OF_THREE: &[u8] = &[129, 129, 0];
/// 2^21, in the most groups that are read (document 02 §7).
const FOUR_GROUPS: &[u8] = &[128, 128, 128, 1];
const FIVE_GROUPS: &[u8] = &[129, 129, 129, 129, 1];

/// "Unpacking judges in this order: the five numbers' form (6), .."
const HEADER_FORM: &[Cause<Card>] = &[
    ("n not in shortest form", 6, |c| c.header[0] = NOT_SHORTEST.to_vec()),
    ("k of five groups", 6, |c| c.header[1] = FIVE_GROUPS.to_vec()),
    ("L not in shortest form", 6, |c| c.header[2] = NOT_SHORTEST_OF_THREE.to_vec()),
    ("node of five groups", 6, |c| c.header[3] = FIVE_GROUPS.to_vec()),
    ("length not in shortest form", 6, |c| c.header[4] = NOT_SHORTEST.to_vec()),
];

/// "The form of all header numbers, the hearing number's too, is judged first" (document 02 §9).
const LEADING_AND_HEARING_FORM: &[Cause<Card>] = &[
    ("leading 1 not in shortest form", 6, |c| c.leading = vec![129, 0]),
    ("leading number of five groups", 6, |c| c.leading = FIVE_GROUPS.to_vec()),
    ("hearing not in shortest form", 6, |c| c.hearing = NOT_SHORTEST.to_vec()),
    ("hearing not in shortest form of three groups", 6, |c| c.hearing = NOT_SHORTEST_OF_THREE.to_vec()),
    ("hearing of five groups", 6, |c| c.hearing = FIVE_GROUPS.to_vec()),
];

/// ".. the shape, the node, the length against k × N (6), .."
const HEADER_VALUES: &[Cause<Card>] = &[
    ("n is 2", 1, |c| c.header[0] = vec![2]),
    ("n is 15", 1, |c| c.header[0] = vec![15]),
    ("n is 2^21 - 1", 1, |c| c.header[0] = vec![255, 255, 127]),
    ("k is 0", 1, |c| c.header[1] = vec![0]),
    ("k is n - 1", 1, |c| c.header[1] = vec![2]),
    ("k of four groups", 1, |c| c.header[1] = FOUR_GROUPS.to_vec()),
    ("L is 0", 1, |c| c.header[2] = vec![0]),
    ("L is 16", 1, |c| c.header[2] = vec![16]),
    ("node is n", 2, |c| c.header[3] = vec![3]),
    ("node is 256", 2, |c| c.header[3] = vec![128, 2]),
    ("node of four groups", 2, |c| c.header[3] = FOUR_GROUPS.to_vec()),
    ("length is k × N + 1", 6, |c| c.header[4] = vec![9]),
    ("length is 2^21 - 1", 6, |c| c.header[4] = vec![255, 255, 127]),
    ("length of four groups", 6, |c| c.header[4] = FOUR_GROUPS.to_vec()),
];

/// "A leading 1 followed later by hearing 0, or a value above 999,999 in either direction, is 6, judged after the length"
/// (document 02 §9). Both are 6, so that the length comes first cannot be seen.
const HEARING: &[Cause<Card>] = &[
    ("hearing is 0", 6, |c| c.hearing = vec![0]),
    ("hearing is 1 000 000", 6, |c| c.hearing = vec![192, 132, 61]),
    ("hearing is 2^21 - 1", 6, |c| c.hearing = vec![255, 255, 127]),
    ("hearing of four groups", 6, |c| c.hearing = FOUR_GROUPS.to_vec()),
    ("hearing is 2^28 - 1", 6, |c| c.hearing = vec![255, 255, 255, 127]),
];

/// ".. the size of the lent buffer, each symbol's form (6) then value (5) in turn, bytes left over (6)."
const BUFFERS_AND_SYMBOLS: &[Cause<Card>] = &[
    ("symbols' buffer one short", 4, |c| c.symbols_length = 7),
    ("symbols' buffer one long", 4, |c| c.symbols_length = 9),
    ("header's buffer one short", 4, |c| c.header_length = 5),
    ("header's buffer one long", 4, |c| c.header_length = 7),
    ("symbol 0 not in shortest form", 6, |c| c.symbols[0] = NOT_SHORTEST.to_vec()),
    ("symbol 1 is 257", 5, |c| c.symbols[1] = vec![129, 2]),
    ("symbol 2 of five groups", 6, |c| c.symbols[2] = FIVE_GROUPS.to_vec()),
    ("symbol 3 is 65536", 5, |c| c.symbols[3] = vec![128, 128, 4]),
    ("symbol 4 of four groups", 5, |c| c.symbols[4] = FOUR_GROUPS.to_vec()),
    ("symbol 5 not in shortest form", 6, |c| c.symbols[5] = NOT_SHORTEST_OF_THREE.to_vec()),
    ("symbol 6 is 16384", 5, |c| c.symbols[6] = vec![128, 128, 1]),
    ("symbol 7 cut short", 6, |c| c.symbols[7] = vec![128]),
    ("a byte left over", 6, |c| c.behind = vec![0]),
];

fn unpack_number(bytes: &[u8], symbols_length: usize, header_length: usize) -> usize {
    let mut symbols = garbage(symbols_length);
    let mut header = Lent::numbers(header_length);
    let answer = hmsr::unpack_into(bytes, symbols.slice(), header.slice());
    if answer.is_err() {
        header.assert_holds(&[]);
    }
    judged(answer, [symbols])
}

fn card_number(card: &Card) -> usize {
    unpack_number(&card.bytes(), card.symbols_length, card.header_length)
}

/// Document 01's card for node 1 of its first archive.
fn sample_card() -> Card {
    let symbols = [vec![253, 1], vec![247, 1]].into_iter().chain(vec![vec![0]; 6]).collect();
    Card {
        leading: vec![],
        hearing: vec![],
        header: [3, 1, 1, 1, 2].map(|number| vec![number]),
        symbols,
        behind: vec![],
        symbols_length: 8,
        header_length: 6,
    }
}

/// The same with hearing number 700.
fn hearing_card() -> Card {
    Card { leading: vec![1], hearing: vec![188, 5], ..sample_card() }
}

#[test]
fn unpack() {
    let causes = [HEADER_FORM, HEADER_VALUES, BUFFERS_AND_SYMBOLS].concat();
    try_causes(sample_card(), &causes, card_number);
}

#[test]
fn unpack_with_a_hearing_number() {
    let forms = [LEADING_AND_HEARING_FORM, HEADER_FORM].concat();
    let causes = [&forms, HEADER_VALUES, HEARING, BUFFERS_AND_SYMBOLS].concat();
    try_causes(hearing_card(), &causes, card_number);
}

#[test]
fn every_cut_card_is_refused() {
    for whole in [sample_card().bytes(), hearing_card().bytes()] {
        assert_eq!(unpack_number(&whole, 8, 6), 0);
        for length in 0..whole.len() {
            assert_eq!(unpack_number(&whole[..length], 8, 6), 6, "cut to {length} bytes");
        }
    }
}

/// The plan's input: each number's bytes, and bytes behind them.
#[derive(Clone, PartialEq)]
struct Numbers {
    numbers: Vec<Vec<u8>>,
    behind: Vec<u8>,
}

impl Numbers {
    fn bytes(&self) -> Vec<u8> {
        [self.numbers.concat(), self.behind.clone()].concat()
    }
}

/// Judged in turn: "the form of the first four numbers (6), the shape (1), h outside 1 to n−k−1 (2), the form of the
/// lists (6), input left over (6), the lists (2), the layers (3)."
const PLAN: &[Cause<Numbers>] = &[
    ("n not in shortest form", 6, |p| p.numbers[0] = NOT_SHORTEST.to_vec()),
    ("k of five groups", 6, |p| p.numbers[1] = FIVE_GROUPS.to_vec()),
    ("L not in shortest form", 6, |p| p.numbers[2] = NOT_SHORTEST_OF_THREE.to_vec()),
    ("h of five groups", 6, |p| p.numbers[3] = FIVE_GROUPS.to_vec()),
    ("n is 2", 1, |p| p.numbers[0] = vec![2]),
    ("n is 15", 1, |p| p.numbers[0] = vec![15]),
    ("n is 2^21 - 1", 1, |p| p.numbers[0] = vec![255, 255, 127]),
    ("k is 0", 1, |p| p.numbers[1] = vec![0]),
    ("k is n - 1", 1, |p| p.numbers[1] = vec![5]),
    ("L is 0", 1, |p| p.numbers[2] = vec![0]),
    ("L is 16", 1, |p| p.numbers[2] = vec![16]),
    ("L of four groups", 1, |p| p.numbers[2] = FOUR_GROUPS.to_vec()),
    ("h is 0", 2, |p| p.numbers[3] = vec![0]),
    ("h is n - k", 2, |p| p.numbers[3] = vec![4]),
    ("h is 2^21 - 1", 2, |p| p.numbers[3] = vec![255, 255, 127]),
    ("h of four groups", 2, |p| p.numbers[3] = FOUR_GROUPS.to_vec()),
    ("a dead node not in shortest form", 6, |p| p.numbers[4] = NOT_SHORTEST.to_vec()),
    ("a helper of five groups", 6, |p| p.numbers[7] = FIVE_GROUPS.to_vec()),
    ("the last helper cut short", 6, |p| p.numbers[8] = vec![128]),
    ("a byte left over", 6, |p| p.behind = vec![0]),
    ("dead falling", 2, |p| (p.numbers[4], p.numbers[5]) = (vec![4], vec![1])),
    ("dead twice", 2, |p| p.numbers[5] = vec![1]),
    ("node n dead", 2, |p| p.numbers[5] = vec![6]),
    ("node 260 dead", 2, |p| p.numbers[5] = vec![132, 2]),
    ("a dead node of four groups", 2, |p| p.numbers[5] = FOUR_GROUPS.to_vec()),
    ("helpers falling", 2, |p| (p.numbers[7], p.numbers[8]) = (vec![5], vec![2])),
    ("helper twice", 2, |p| p.numbers[7] = vec![0]),
    ("node n helps", 2, |p| p.numbers[8] = vec![6]),
    ("the dead node 1 helps", 2, |p| p.numbers[7] = vec![1]),
    ("L is 1", 3, |p| p.numbers[2] = vec![1]),
    ("L is 4", 3, |p| p.numbers[2] = vec![4]),
];

/// n = 6, k = 2, L = 3, nodes 1 and 4 dead, helpers 0, 2 and 5.
fn accepted_plan() -> Numbers {
    let numbers = [6, 2, 3, 2, 1, 4, 0, 2, 5].map(|number| vec![number]).to_vec();
    Numbers { numbers, behind: vec![] }
}

/// The number that is the plan's only line; 0 where there are more.
fn plan_number(input: &Numbers) -> usize {
    let text = String::from_utf8(hmsr::plan_text(&input.bytes())).unwrap();
    match text.lines().collect::<Vec<_>>()[..] {
        [line] => line.parse().unwrap(),
        _ => 0,
    }
}

#[test]
fn plan() {
    try_causes(accepted_plan(), PLAN, plan_number);
}

#[test]
fn every_cut_plan_is_refused() {
    let whole = accepted_plan().bytes();
    for length in 0..whole.len() {
        let cut = Numbers { numbers: vec![whole[..length].to_vec()], ..accepted_plan() };
        assert_eq!(plan_number(&cut), 6, "cut to {length} bytes");
    }
}

#[test]
fn a_short_text_buffer_is_not_touched() {
    for length in [0, 1, hmsr::PLAN_TEXT - 1] {
        let mut text = Lent::bytes(&mut Random::new(1), length);
        assert_eq!(hmsr::plan(&accepted_plan().bytes(), text.slice()), Err(hmsr::Refusal::WrongLength));
        text.assert_holds(&[]);
    }
}

/// What layers are chosen from.
#[derive(Clone, PartialEq)]
struct Losses {
    nodes: usize,
    data: usize,
    losses: [usize; 16],
}

/// Each bad loss has a place of its own: in front of, between and behind those that the causes of 11 put there.
const LOSSES: &[Cause<Losses>] = &[
    ("n is 2", 1, |l| l.nodes = 2),
    ("n is 15", 1, |l| l.nodes = 15),
    ("n is 2^32 + 14", 1, |l| l.nodes = (1 << 32) + 14),
    ("n is 2^63", 1, |l| l.nodes = 1 << 63),
    ("n is the largest number", 1, |l| l.nodes = usize::MAX),
    ("k is 0", 1, |l| l.data = 0),
    ("k is n - 1", 1, |l| l.data = 13),
    ("k is 2^32 + 4", 1, |l| l.data = (1 << 32) + 4),
    ("k is the largest number", 1, |l| l.data = usize::MAX),
    ("the first loss is n - k", 2, |l| l.losses[0] = 10),
    ("a loss is 0", 2, |l| l.losses[1] = 0),
    ("a loss is 14", 2, |l| l.losses[4] = 14),
    ("a loss is 2^32 + 1", 2, |l| l.losses[5] = (1 << 32) + 1),
    ("a loss is 256 + 3", 2, |l| l.losses[8] = 256 + 3),
    ("a loss is 2^63", 2, |l| l.losses[9] = 1 << 63),
    ("a loss is 2^63 + 7", 2, |l| l.losses[12] = (1 << 63) + 7),
    ("a loss is the largest number", 2, |l| l.losses[13] = usize::MAX),
    ("a loss is n - k", 2, |l| l.losses[14] = 10),
    ("the last loss is 0", 2, |l| l.losses[15] = 0),
    ("2 and 6 need 21", 11, |l| (l.losses[2], l.losses[10]) = (2, 6)),
    ("4 and 6 need 35", 11, |l| (l.losses[3], l.losses[11]) = (4, 6)),
    ("8 and 4 need 45", 11, |l| (l.losses[6], l.losses[7]) = (8, 4)),
];

fn layers_number(input: &Losses) -> usize {
    let chosen = Shape::for_losses(input.nodes, input.data, &input.losses);
    chosen.err().map_or(0, Refusal::number)
}

/// n = 14, k = 4: losses of 1 to 9 nodes are allowed, and for 1, 3 and 7 one layer does.
#[test]
fn layers() {
    let losses = [1, 3, 7, 1, 3, 7, 1, 3, 7, 1, 3, 7, 1, 3, 7, 1];
    try_causes(Losses { nodes: 14, data: 4, losses }, &in_order(&[LOSSES]), layers_number);
}

/// A loss outside 1 to n−k−1 at each place of a list that no layers serve, and n or k out of range besides.
#[test]
fn a_bad_loss_comes_before_no_layers_wherever_it_stands() {
    for at in 0..=2 {
        for bad in [0, 7, 8, 14, (1 << 32) + 2, (1 << 32) + 6, 1 << 63, usize::MAX] {
            let mut losses = vec![2, 6];
            assert_eq!(Shape::for_losses(12, 5, &losses), Err(Refusal::NoLayers));
            losses.insert(at, bad);
            assert_eq!(Shape::for_losses(12, 5, &losses), Err(Refusal::BadNodes), "{losses:?}");
            for (nodes, data) in [(2, 5), (15, 5), (12, 0), (12, 11), (usize::MAX, 5), (12, usize::MAX)] {
                assert_eq!(Shape::for_losses(nodes, data, &losses), Err(Refusal::BadShape), "{losses:?}");
            }
        }
    }
}
