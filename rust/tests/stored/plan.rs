//! The plan's call: groups of inputs, each group's answers and texts in one line, then some plans in full. Whatever the
//! call returns and writes goes into the line's digest, with four bytes behind the text. What is counted is 0 for a
//! plan, 4 for a buffer that is too short, and any other number for the text of a refusal.

use super::digest::{group_line, Tally};
use super::forms::{coded, with_form};
use hmsr::{plan, PLAN_TEXT};

/// "For input bytes 4 1 3 2 0 1 2 3".
const SAMPLE: [u8; 8] = [4, 1, 3, 2, 0, 1, 2, 3];

const LAYERS: [u8; 7] = [0, 1, 2, 3, 13, 15, 16];

/// Plans in full: dead nodes 1 2 4 with helpers 0 3; 3 with the other eleven nodes; 0 to 9 with 10 11; 0 to 11 with
/// 12 13, the most transfers; eleven dead nodes with 3 8 12; 13 with the other thirteen, the longest messages.
const IN_FULL: [&[u8]; 6] = [
    &[5, 1, 4, 3, 1, 2, 4, 0, 3],
    &[12, 10, 15, 1, 3, 0, 1, 2, 4, 5, 6, 7, 8, 9, 10, 11],
    &[12, 1, 11, 10, 0, 1, 2, 3, 4, 5, 6, 7, 8, 9, 10, 11],
    &[14, 1, 13, 12, 0, 1, 2, 3, 4, 5, 6, 7, 8, 9, 10, 11, 12, 13],
    &[14, 2, 3, 11, 0, 1, 2, 4, 5, 6, 7, 9, 10, 11, 13, 3, 8, 12],
    &[14, 12, 15, 1, 13, 0, 1, 2, 3, 4, 5, 6, 7, 8, 9, 10, 11, 12],
];

/// The number of a text: a plan has more than one line.
fn number_in(text: &[u8]) -> usize {
    match text {
        [digit, b'\n'] => usize::from(digit - b'0'),
        _ => 0,
    }
}

/// The text for an input, in the first `room` bytes of a buffer.
fn plan_into_room(tally: &mut Tally, input: &[u8], room: usize) {
    let mut text = [170; PLAN_TEXT + 4];
    match plan(input, &mut text[..room]) {
        Ok(length) => {
            tally.count(number_in(&text[..length]));
            tally.take(length);
            tally.take_all(&text[..length + 4]);
        }
        Err(refusal) => {
            tally.count(refusal.number());
            tally.take_all(&text);
        }
    }
}

// ---- the input of a case of each group, by its index

/// The sample cut behind each byte, from no byte on; whole; and with a byte behind it.
fn cut(i: usize) -> Vec<u8> {
    [&SAMPLE[..], &[0]].concat()[..i].to_vec()
}

/// Every byte of the sample as every byte.
fn changed(i: usize) -> Vec<u8> {
    let mut input = SAMPLE.to_vec();
    input[i / 256] = (i % 256) as u8;
    input
}

/// One to five groups in place of each byte of the sample, and behind it.
fn spliced(i: usize) -> Vec<u8> {
    with_form(&SAMPLE, i % 9, &coded(i / 9 % 5 + 1, i / 45))
}

/// Shapes and h, with the nodes in their order.
fn fronts(i: usize) -> Vec<u8> {
    let (n, k, layers, h) = ((i % 17) as u8, (i / 17 % 15) as u8, LAYERS[i / 255 % 7], (i / 1785) as u8);
    [n, k, layers, h].into_iter().chain(0..h + k + 1).collect()
}

/// n = 6, k = 2: every set of dead nodes before every set of helpers, of any size.
fn lists(i: usize) -> Vec<u8> {
    let layers = (1 + i / 4096) as u8;
    let nodes = |set: usize| (0..6).filter(move |node| set >> node & 1 == 1);
    let h = nodes(i).count() as u8;
    [6, 2, layers, h].into_iter().chain(nodes(i)).chain(nodes(i / 64)).collect()
}

/// n = 5, k = 1, h = 2: any four numbers to 5 as nodes.
fn orders(i: usize) -> Vec<u8> {
    let layers = (1 + i / 1296) as u8;
    let nodes = [1, 6, 36, 216].map(|worth| (i / worth % 6) as u8);
    [5, 1, layers, 2].into_iter().chain(nodes).collect()
}

/// n = 14, k = 1, h = 12, fourteen nodes of four groups that are no nodes, and bytes left over.
fn long(i: usize) -> Vec<u8> {
    let nodes = [129, 129, 129, 1].into_iter().cycle();
    [14, 1, 13, 12].into_iter().chain(nodes).take(i).collect()
}

/// The line of a group of inputs, each with a buffer that is long enough.
fn input_line(name: &str, cases: usize, input: fn(usize) -> Vec<u8>) -> String {
    group_line(name, cases, |tally, i| plan_into_room(tally, &input(i), PLAN_TEXT + i % 5))
}

pub fn lines() -> String {
    let groups = [
        input_line("cut", 10, cut),
        input_line("changed", 2048, changed),
        input_line("spliced", 349_920, spliced),
        input_line("fronts", 28560, fronts),
        input_line("lists", 12288, lists),
        input_line("orders", 3888, orders),
        input_line("long", 80, long),
        group_line("rooms", PLAN_TEXT + 5, |tally, i| plan_into_room(tally, &SAMPLE, i)),
    ];
    groups.concat() + &IN_FULL.map(in_full).concat()
}

fn in_full(input: &[u8]) -> String {
    let mut text = [0; PLAN_TEXT];
    let length = plan(input, &mut text).unwrap();
    String::from_utf8(text[..length].to_vec()).unwrap()
}
