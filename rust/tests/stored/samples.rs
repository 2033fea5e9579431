//! The samples of document 01, and a card with a hearing number (document 02 §9): each call's answer and what it left in
//! its buffers, a line for each; then the answers for lists of losses and orders of transfers (document 02 §6, §12), which
//! fill no buffer; then corrections (§10), stretches (§2) and messages in the order they arrive (§8).

use super::digest::{line, number};
use crate::raw::open_stretches;
use hmsr::{unpack, Header, Refusal, Repair, Shape};

/// "n=3, k=1, L=1".
const TINY: Shape = Shape { nodes: 3, data: 1, layers: 1 };

/// An answer, and behind it a buffer that the call had.
fn shown<T: Copy + Into<u64>>(answer: usize, buffer: &[T]) -> String {
    let mut numbers = vec![answer as u64];
    numbers.extend(buffer.iter().map(|&element| element.into()));
    line(&numbers)
}

/// What a call found, or the number of the cause.
fn found(answer: Result<usize, Refusal>) -> usize {
    answer.unwrap_or_else(Refusal::number)
}

/// The archive of some bytes, and what opens from its node 2.
fn written(bytes: &[u8]) -> String {
    let mut nodes = [9; 24];
    let write = number(TINY.write(bytes, &mut nodes));
    let mut opened = vec![9; bytes.len()];
    let open = number(TINY.open(&[2], &nodes[16..], bytes.len(), &mut opened));
    shown(write, &nodes) + &shown(open, &opened)
}

/// The archive of the bytes 3 6.
fn first_archive() -> [u16; 24] {
    let mut nodes = [0; 24];
    TINY.write(&[3, 6], &mut nodes).unwrap();
    nodes
}

/// The first archive with node 0 dead, repaired by nodes 1 and 2: the wire, and the nodes.
fn repaired() -> String {
    let mut nodes = first_archive();
    nodes[..8].fill(65535);
    let mut wire = [9; 8];
    let answer = number(Repair { shape: TINY, dead: &[0], helpers: &[1, 2] }.repair(&mut nodes, &mut wire));
    shown(answer, &wire) + &line(&nodes.map(u64::from))
}

/// The first archive's card for node 1, with a hearing number, or 0 for none.
fn packed(hearing: usize) -> String {
    let mut card = [9; 31];
    let header = Header { shape: TINY, node: 1, length: 2, hearing };
    shown(found(header.pack(&first_archive()[8..16], &mut card)), &card)
}

/// The hearing number that such a card is unpacked with, which has these bytes for it, and the symbols.
fn unpacked_hearing(hearing: &[u8]) -> String {
    let card = [&[1, 3, 1, 1, 1, 2], hearing, &[253, 1, 247, 1, 0, 0, 0, 0, 0, 0]].concat();
    let mut symbols = [9; 8];
    shown(found(unpack(&card, &mut symbols).map(|header| header.hearing)), &symbols)
}

/// What a card of node 1 is unpacked as, whose first symbol has these two bytes and whose others are 0.
fn unpacked(first: u8, second: u8) -> String {
    let card = [3, 1, 1, 1, 2, first, second, 0, 0, 0, 0, 0, 0, 0];
    let mut symbols = [9; 8];
    shown(found(unpack(&card, &mut symbols).map(|header| header.length)), &symbols)
}

/// Node 1 holds 87 and zeros, and a transcript of one byte is opened.
fn no_transcript() -> String {
    let mut opened = [9u8];
    shown(number(TINY.open(&[1], &[87, 0, 0, 0, 0, 0, 0, 0], 1, &mut opened)), &opened)
}

/// The answer with nodes 0 and 1 dead, in buffers that fit n = 4 and L = 3.
fn two_lost(shape: Shape, helpers: &[usize]) -> u64 {
    number(Repair { shape, dead: &[0, 1], helpers }.repair(&mut [0; 192], &mut [0; 96])) as u64
}

/// 256 + the layers for these losses, as the C call has it, or the number of the cause.
fn layers(nodes: usize, data: usize, losses: &[usize]) -> u64 {
    found(Shape::for_losses(nodes, data, losses).map(|shape| 256 + shape.layers)) as u64
}

/// The lists of document 02 §6.
fn chosen_layers() -> String {
    let served = [layers(12, 6, &[2, 4]), layers(12, 6, &[4, 2, 4, 4, 2]), layers(12, 6, &[]), layers(12, 5, &[2, 6])];
    let refused = [layers(4, 1, &[3]), layers(12, 5, &[2, 6, 7]), layers(2, 1, &[])];
    let eleven = [layers(12, 1, &[10]), layers(12, 1, &[10, 2])];
    line(&served) + &line(&refused) + &line(&eleven)
}

/// The answer for an order of document 01's plan: "for input bytes 4 1 3 2 0 1 2 3".
fn may_run(list: &[usize]) -> u64 {
    let shape = Shape { nodes: 4, data: 1, layers: 3 };
    number(Repair { shape, dead: &[0, 1], helpers: &[2, 3] }.may_run(list)) as u64
}

/// The plan as it stands, in other orders, cut and extended.
fn orders() -> String {
    let plan = [2, 0, 3, 0, 2, 1, 3, 1, 1, 0, 0, 1];
    let with = |behind: &[usize]| may_run(&[&plan, behind].concat());
    let (early, too_early) = ([3, 1, 2, 1, 1, 0, 2, 0, 3, 0, 0, 1], [2, 1, 1, 0, 3, 1, 2, 0, 3, 0, 0, 1]);
    line(&[may_run(&plan), may_run(&early), may_run(&too_early)])
        + &line(&[may_run(&plan[..10]), with(&[2, 0]), with(&[9, 0]), with(&[2]), may_run(&[])])
}

/// The nodes after a correction of one byte of that many.
fn corrected(mut nodes: [u16; 24], length: usize, byte: usize, change: i64) -> (usize, [u16; 24]) {
    let answer = number(TINY.correct(&mut nodes, length, byte, change));
    (answer, nodes)
}

/// Byte 0 of an archive of zeros by 1 and by 255, and that by -255; byte 1 of the first archive; and those that are
/// refused.
fn corrections() -> String {
    let (most, highest) = corrected([0; 24], 1, 0, 255);
    let rows = [
        corrected([0; 24], 1, 0, 1),
        (most, highest),
        corrected(highest, 1, 0, -255),
        corrected(first_archive(), 2, 1, -3),
    ];
    rows.map(|(answer, nodes)| shown(answer, &nodes)).concat() + &refused_corrections()
}

/// The answers alone, for the first archive, with 257 at place 1, and with 256 in its first byte.
fn refused_corrections() -> String {
    let answer = |nodes, byte, change| corrected(nodes, 2, byte, change).0 as u64;
    let (first, mut high, mut no_byte) = (first_archive(), first_archive(), first_archive());
    (high[9], no_byte[0]) = (257, 256);
    let changes = [-7, 250, -256, 256].map(|change| answer(first, 1, change));
    let others = [answer(high, 1, 256), answer(high, 2, 256)];
    line(&[&[answer(first, 2, 0)], &changes[..], &others].concat())
        + &line(&[-1, 0, -256].map(|change| answer(no_byte, 0, change)))
}

/// What the C call returns for stretches of the first archive, from one of its nodes, with 65535 in the columns of
/// neither byte and a symbol in place of the first; and the bytes and columns.
fn opened(node: usize, first: u16, length: usize, numbers: &[usize], bytes: usize) -> Vec<u64> {
    let mut symbols = [65535; 8];
    symbols[..2].copy_from_slice(&[first, first_archive()[8 * node + 1]]);
    let (mut bytes, mut columns) = (vec![9; bytes], [9; 8]);
    let returned = open_stretches(TINY, &[node], &symbols, length, numbers, &mut bytes, &mut columns);
    let (bytes, columns) = (bytes.into_iter().map(u64::from), columns.into_iter().map(|column| column as u64));
    [returned as u64].into_iter().chain(bytes).chain(columns).collect()
}

fn stretches() -> String {
    let (node_1, node_2) = (first_archive()[8], first_archive()[16]);
    let rows = [
        opened(1, node_1, 2, &[1, 1, 0, 2, 2, 0], 3),
        opened(2, node_2, 2, &[1, 1], 1),
        opened(2, node_2, 2, &[], 0),
        opened(1, 87, 2, &[0, 1], 1),
        opened(1, 87, 2, &[1, 1], 1),
        opened(1, 257, 2, &[0, 1], 1),
        opened(1, 257, 2, &[1, 1], 1),
    ];
    rows.map(|row| line(&row)).concat() + &refused_stretches()
}

/// The answers alone, from node 1.
fn refused_stretches() -> String {
    let answer = |first, length, numbers: &[usize], bytes| opened(1, first, length, numbers, bytes)[0];
    let (none, half) = ([2, 0], 1 << 63);
    let lengths = [
        answer(253, 2, &none.repeat(64), 0),
        answer(253, 2, &none.repeat(65), 0),
        answer(253, 2, &[0, 2, 0], 2),
        answer(253, 2, &[0, 2], 1),
        answer(253, 2, &[0, half, 0, half], 0),
        answer(253, 9, &[9, 1], 1),
    ];
    let ends = [
        answer(253, 2, &[1, 2], 2),
        answer(253, 2, &[3, 0], 0),
        answer(253, 2, &[usize::MAX, 2], 2),
        answer(257, 2, &[0, 1, 2, 1], 2),
    ];
    let lists = [(0, 3), (1, 3), (1, 1)].map(|(layers, node)| {
        let shape = Shape { layers, ..TINY };
        open_stretches(shape, &[node], &[65535; 8], 2, &[0], &mut [], &mut [9; 8]) as u64
    });
    line(&lengths) + &line(&ends) + &line(&lists)
}

/// What a new node keeps of the messages that it hears.
#[derive(Clone)]
struct Kept<'a> {
    repair: Repair<'a>,
    sums: Vec<u16>,
    record: Vec<usize>,
}

impl<'a> Kept<'a> {
    /// Nobody is heard.
    fn new(repair: Repair<'a>, sums: usize) -> Self {
        Kept { repair, sums: vec![0; sums], record: vec![0; 3] }
    }

    /// The answer of node 0 to a message.
    fn hear(&mut self, helper: usize, message: &[u16]) -> u64 {
        number(self.repair.hear(0, helper, message, &mut self.sums, &mut self.record)) as u64
    }

    /// The answer, and all that is kept.
    fn heard(&mut self, helper: usize, message: &[u16]) -> String {
        let answer = self.hear(helper, message);
        let (sums, record) = (self.sums.iter().map(|&sum| sum.into()), self.record.iter().map(|&node| node as u64));
        line(&[answer].into_iter().chain(sums).chain(record).collect::<Vec<u64>>())
    }

    /// The answer to finishing, and the pairs and exchanges.
    fn finish(&self, new_node: usize, pairs: usize, exchanges: usize) -> (usize, Vec<u16>) {
        let (mut pairs, mut exchanges) = (vec![9; pairs], vec![9; exchanges]);
        let answer = self.repair.finish(new_node, &self.sums, &self.record, &mut pairs, &mut exchanges);
        (number(answer), [pairs, exchanges].concat())
    }

    fn finished(&self, new_node: usize, pairs: usize, exchanges: usize) -> String {
        let (answer, made) = self.finish(new_node, pairs, exchanges);
        shown(answer, &made)
    }
}

/// The messages of the first archive to node 0, from node 1 and from node 2.
const FROM_1: [u16; 4] = [243, 0, 0, 0];
const FROM_2: [u16; 4] = [5, 0, 0, 0];

/// Node 0 hears both in each order, and node 2 a second time; then what is refused; then two dead nodes.
fn arrivals() -> String {
    let nobody = Kept::new(Repair { shape: TINY, dead: &[0], helpers: &[1, 2] }, 8);
    let (mut node_2, mut node_1) = (nobody.clone(), nobody);
    let mut lines = node_2.heard(2, &FROM_2);
    let mut both = node_2.clone();
    lines += &[both.heard(1, &FROM_1), both.finished(0, 8, 0)].concat();
    lines += &[node_1.heard(1, &FROM_1), node_1.heard(2, &FROM_2), node_1.finished(0, 8, 0)].concat();
    lines += &[node_2.heard(2, &FROM_2), node_2.finished(0, 8, 0)].concat();
    lines + &refused_hearings(&node_2) + &refused_ends(&both) + &two_new_nodes()
}

/// The answers alone, where node 2 is heard.
fn refused_hearings(kept: &Kept) -> String {
    let answer = |helper, message: &[u16]| kept.clone().hear(helper, message);
    let mut high = kept.clone();
    high.sums[7] = 257;
    let answers = [
        answer(0, &FROM_1),
        answer(3, &FROM_1),
        answer(1, &FROM_1[..3]),
        answer(1, &[243, 0, 0, 257]),
        high.clone().hear(1, &FROM_1),
        high.clone().hear(1, &FROM_1[..3]),
    ];
    let with = |record: &[usize]| Kept { record: record.to_vec(), ..kept.clone() }.hear(1, &FROM_1);
    let counts = [with(&[1, 2, 1]), with(&[3, 2, 0]), with(&[usize::MAX, 2, 0])];
    let nodes = [with(&[1, 0, 0]), with(&[2, 2, 2]), with(&[2, 2]), with(&[2, 1]), with(&[])];
    line(&answers) + &line(&[&counts[..], &nodes].concat())
}

/// The answers alone, where both are.
fn refused_ends(kept: &Kept) -> String {
    let (mut high, mut cut) = (kept.clone(), kept.clone());
    high.sums[6] = 257;
    cut.sums = high.sums[..7].to_vec();
    let answers =
        [high.finish(0, 8, 0), cut.finish(0, 8, 0), kept.finish(0, 7, 0), kept.finish(0, 8, 1), kept.finish(1, 8, 0)];
    line(&answers.map(|(answer, _)| answer as u64))
}

/// Nodes 0 and 1 of four dead: the answers without buffers; what node 0 hears; and what both make of it.
fn two_new_nodes() -> String {
    let repair = |layers| Repair { shape: Shape { nodes: 4, data: 1, layers }, dead: &[0, 1], helpers: &[2, 3] };
    let empty = [0, 1, 3].map(|layers| number(repair(layers).hear(0, 2, &[], &mut [], &mut [])) as u64);
    let mut kept = Kept::new(repair(3), 48);
    let mut message = [0; 16];
    let last = kept.heard(3, &message);
    message[0] = 1;
    line(&empty) + &last + &kept.heard(2, &message) + &kept.finished(0, 32, 16) + &kept.finished(1, 32, 16)
}

pub fn lines() -> String {
    let four = |layers| Shape { nodes: 4, data: 1, layers };
    let losses = [two_lost(TINY, &[2]), two_lost(four(1), &[2, 3]), two_lost(four(3), &[2, 3])];
    [
        written(&[3, 6]),
        written(&[0, 0, 0, 6]),
        written(&[]),
        repaired(),
        packed(0),
        unpacked(129, 2),
        unpacked(128, 0),
        unpacked(128, 2),
        packed(700),
        unpacked_hearing(&[188, 5]),
        unpacked_hearing(&[191, 132, 61]),
        unpacked_hearing(&[192, 132, 61]),
        unpacked_hearing(&[0]),
        no_transcript(),
        line(&losses),
        chosen_layers(),
        orders(),
        corrections(),
        stretches(),
        arrivals(),
    ]
    .concat()
}
