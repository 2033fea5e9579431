//! Cards: groups of cases, each group's answers and buffers in one line. Whatever a call returns, and every element of
//! the buffer lent to it, goes into the line's digest.

use super::digest::{group_line, Tally};
use super::forms::{coded, coded_byte, with_form};
use hmsr::{unpack, Header, Shape};
use std::array::from_fn;

/// "Its card for node 1: 3 1 1 1 2 253 1 247 1 0 0 0 0 0 0."
const SAMPLE: [u8; 15] = [3, 1, 1, 1, 2, 253, 1, 247, 1, 0, 0, 0, 0, 0, 0];
const SAMPLE_HEADER: Header = Header { shape: Shape { nodes: 3, data: 1, layers: 1 }, node: 1, length: 2, hearing: 0 };

/// The same card with hearing number 700 (document 02 §9), and its numbers.
const HEARING_SAMPLE: [u8; 18] = [1, 3, 1, 1, 1, 2, 188, 5, 253, 1, 247, 1, 0, 0, 0, 0, 0, 0];
const HEARING_HEADER: Header = Header { hearing: 700, ..SAMPLE_HEADER };
const HEARING_NUMBERS: [usize; 15] = [1, 3, 1, 1, 1, 2, 700, 253, 247, 0, 0, 0, 0, 0, 0];

const SYMBOLS: [u16; 10] = [0, 1, 127, 128, 255, 256, 257, 16383, 16384, 65535];
const LAYERS: [usize; 5] = [0, 1, 2, 15, 16];
const NODES: [usize; 7] = [0, 1, 2, 3, 13, 14, usize::MAX];
const LENGTHS: [usize; 5] = [0, 8, 9, 127, usize::MAX];

/// Where a number takes the place of a byte of the sample: those of the header, the first and the last symbol, or left
/// over.
const PLACES: [usize; 8] = [0, 1, 2, 3, 4, 5, 14, 15];

/// Where a number takes the place of another on the card with a hearing number: those of the header, the first and the last
/// symbol, or behind them.
const HEARING_PLACES: [usize; 10] = [0, 1, 2, 3, 4, 5, 6, 7, 14, 15];

/// The ends of the range of hearing numbers, and of groups.
const HEARINGS: [usize; 13] =
    [0, 1, 127, 128, 16_383, 16_384, 999_999, 1_000_000, 2_097_151, 2_097_152, 268_435_455, 268_435_456, usize::MAX];

/// The largest header before document 02 §7 ("Cards accepted until now read as before"), and the largest.
const TWELVE: Header =
    Header { shape: Shape { nodes: 12, data: 10, layers: 15 }, node: 11, length: 614_400, hearing: 0 };
const FOURTEEN: Header =
    Header { shape: Shape { nodes: 14, data: 12, layers: 15 }, node: 13, length: 2_949_120, hearing: 0 };

/// The numbers of a header but the hearing number, in their order.
fn numbers(Header { shape, node, length, .. }: Header) -> [usize; 5] {
    [shape.nodes, shape.data, shape.layers, node, length]
}

/// Unpacks into the first `room` symbols of a buffer.
fn unpack_into_room(tally: &mut Tally, card: &[u8], symbols: &mut [u16], room: usize) {
    match unpack(card, &mut symbols[..room]) {
        Ok(header) => {
            tally.count(0);
            tally.take_all(&numbers(header));
            // The hearing number where there is one.
            if header.hearing != 0 {
                tally.take(header.hearing);
            }
        }
        Err(refusal) => tally.count(refusal.number()),
    }
    tally.take_all(symbols);
}

fn unpack_small(tally: &mut Tally, card: &[u8], room: usize) {
    unpack_into_room(tally, card, &mut [7; 24], room);
}

/// Packs into the first `room` bytes of a buffer.
fn pack_small(tally: &mut Tally, header: Header, symbols: &[u16], room: usize) {
    let mut card = [170; 48];
    match header.pack(symbols, &mut card[..room]) {
        Ok(length) => {
            tally.count(0);
            tally.take(length);
        }
        Err(refusal) => tally.count(refusal.number()),
    }
    tally.take_all(&card);
}

// ---- unpacking, one case of each group by its index

/// The sample cut behind each byte, from no byte on.
fn cut(tally: &mut Tally, sample: &[u8], i: usize) {
    unpack_small(tally, &sample[..i], 8);
}

/// Every byte of the sample as every byte.
fn changed(tally: &mut Tally, sample: &[u8], i: usize) {
    let mut card = sample.to_vec();
    card[i / 256] = (i % 256) as u8;
    unpack_small(tally, &card, 8);
}

/// Two of the last six bytes changed: which comes first, a bad form or a bad value.
fn twice(tally: &mut Tally, i: usize) {
    let mut card = SAMPLE;
    card[9 + i % 6] = coded_byte(i, 1);
    card[9 + i / 36 % 6] = coded_byte(i, 3);
    unpack_small(tally, &card, 8);
}

/// The sample into a buffer of each size.
fn rooms(tally: &mut Tally, sample: &[u8], i: usize) {
    unpack_small(tally, sample, i);
}

/// One to five groups, shortest or not, cut short or not, in each place.
fn formed(tally: &mut Tally, i: usize) {
    unpack_small(tally, &with_form(&SAMPLE, PLACES[i % 8], &coded(i / 8 % 5 + 1, i / 40)), 8);
}

/// The smallest and the largest number of one to five groups, in each place: "the card's number reading accepts up to
/// four" (document 02 §7).
fn ends_lines(name: &str, places: &[usize], card: impl Fn(usize, &[u8]) -> Vec<u8>) -> String {
    let mut lines = String::new();
    for groups in 1..=5 {
        let mut tally = Tally::default();
        let least = if groups > 1 { 128usize.pow(groups - 1) } else { 0 };
        for number in [least, 128usize.pow(groups) - 1] {
            for &at in places {
                unpack_small(&mut tally, &card(at, &numeral(number)), 8);
            }
        }
        lines += &tally.line(&format!("{name}-{groups}"));
    }
    lines
}

/// "A number is written in groups of seven bits, least first; every byte but the last has 128 added."
fn numeral(mut number: usize) -> Vec<u8> {
    let mut form = vec![];
    while number > 127 {
        form.push((number % 128 + 128) as u8);
        number /= 128;
    }
    form.push(number as u8);
    form
}

/// Header numbers of each kind but n, by the index.
fn header(n: usize, i: usize) -> Header {
    let shape = Shape { nodes: n, data: i / 17 % 15, layers: LAYERS[i / 255 % 5] };
    Header { shape, node: NODES[i / 1275 % 7], length: LENGTHS[i / 8925 % 5], hearing: 0 }
}

/// The sample with another header, of one byte for each number.
fn headed(tally: &mut Tally, i: usize) {
    let mut card = SAMPLE;
    for (byte, number) in card.iter_mut().zip(numbers(header(i % 17, i))) {
        *byte = (number % 256) as u8;
    }
    unpack_small(tally, &card, 8);
}

/// A header of thirteen or fourteen nodes, its length at the limit or at the ends of the numbers of four groups:
/// "Transcript lengths may now need four groups" (document 02 §7).
fn lengthy(i: usize) -> Header {
    let shape = Shape { nodes: 13 + i % 2, data: 1 + i / 2 % 12, layers: 1 + i / 24 % 15 };
    let most = (shape.data * shape.layers) << shape.nodes;
    let length = [most - 1, most, most + 1, 2_097_151, 2_097_152, 268_435_455][i / 360];
    Header { shape, node: shape.nodes - 1, length, hearing: 0 }
}

/// The sample with such a header.
fn lengths(tally: &mut Tally, i: usize) {
    let header = numbers(lengthy(i)).map(numeral).concat();
    unpack_small(tally, &[&header, &SAMPLE[5..]].concat(), 8);
}

// ---- packing

/// Packing under a header, with a symbol that is none and a buffer that is too short, or not.
fn pack_headed(tally: &mut Tally, i: usize) {
    let n = if i % 17 < 16 { i % 17 } else { usize::MAX };
    let mut symbols = [256; 8];
    symbols[5] += (i / 44625 % 2) as u16;
    pack_small(tally, header(n, i), &symbols, 30 + i / 89250);
}

/// Packing too few symbols under a header of thirteen or fourteen nodes.
fn pack_lengths(tally: &mut Tally, i: usize) {
    pack_small(tally, lengthy(i), &[256; 8], 31);
}

/// One symbol of eight as each of ten.
fn pack_symbols(tally: &mut Tally, header: Header, i: usize) {
    let mut symbols = [256; 8];
    symbols[i % 8] = SYMBOLS[i / 8];
    pack_small(tally, header, &symbols, 31);
}

/// Buffers of each size.
fn pack_rooms(tally: &mut Tally, header: Header, symbol: u16, i: usize) {
    pack_small(tally, header, &[symbol; 10][..i % 11], i / 11);
}

/// A card whose symbols take every value: packed, unpacked, and unpacked again with its last byte cut off.
fn largest_line(name: &str, header: Header) -> String {
    let mut tally = Tally::default();
    let size = header.shape.layers << header.shape.nodes;
    let symbols: Vec<u16> = (0..size).map(|place| (place % 257) as u16).collect();
    let mut card = vec![170; 15 + 2 * size];
    let mut back = vec![7; size];
    let length = header.pack(&symbols, &mut card).unwrap();
    tally.take(length);
    tally.take_all(&card);
    unpack_into_room(&mut tally, &card[..length], &mut back, size);
    unpack_into_room(&mut tally, &card[..length - 1], &mut back, size);
    tally.line(name)
}

// ---- with a hearing number

/// The card with a form in place of one of its numbers, or behind them.
fn with_number(at: usize, form: &[u8]) -> Vec<u8> {
    with_numbers([(at, form)])
}

/// The card with forms in place of some of its numbers, or behind them.
fn with_numbers<const COUNT: usize>(forms: [(usize, &[u8]); COUNT]) -> Vec<u8> {
    let mut numerals: [Vec<u8>; 16] = from_fn(|at| HEARING_NUMBERS.get(at).map_or(vec![], |&number| numeral(number)));
    for (at, form) in forms {
        numerals[at] = form.to_vec();
    }
    numerals.concat()
}

/// The forms of one byte, of two, and so on to five: one of them in each place.
fn hearing_formed(tally: &mut Tally, i: usize) {
    let (mut count, mut code) = (1, i / 10);
    while code >= 6usize.pow(count) {
        code -= 6usize.pow(count);
        count += 1;
    }
    unpack_small(tally, &with_number(HEARING_PLACES[i % 10], &coded(count as usize, code)), 8);
}

/// Two of the header's numbers and the first symbol: which cause comes first.
fn hearing_twice(tally: &mut Tally, i: usize) {
    let good = [0, 3, 9, 257, 1_000_000, 268_435_455].map(numeral);
    let forms: [&[u8]; 8] =
        [&good[0], &good[1], &good[2], &good[3], &good[4], &good[5], &[129, 0], &[188, 133, 128, 128, 1]];
    unpack_small(tally, &with_numbers([(i % 8, forms[i / 64 % 8]), (i / 8 % 8, forms[i / 512])]), 8);
}

/// A header with n, node and length, each good or bad, and a hearing number; what is missing in a buffer; what a symbol has
/// too much.
fn judged(i: usize) -> (Header, usize, u16) {
    let shape = Shape { nodes: 3 - i / 13 % 2, data: 1, layers: 1 };
    let (node, length) = (1 + i / 26 % 2 * 2, 2 + i / 52 % 2 * 7);
    (Header { shape, node, length, hearing: HEARINGS[i % 13] }, i / 104 % 2, (i / 208) as u16)
}

/// "A leading 1 followed later by hearing 0, or a value above 999,999 .., is 6, judged after the length."
fn hearing_values(tally: &mut Tally, i: usize) {
    let (header, missing, more) = judged(i);
    let front = [&[1], &numbers(header)[..], &[header.hearing, 256 + usize::from(more)]].concat();
    let card: Vec<u8> = front.iter().chain(&HEARING_NUMBERS[8..]).flat_map(|&number| numeral(number)).collect();
    unpack_small(tally, &card, 8 - missing);
}

fn pack_hearing_values(tally: &mut Tally, i: usize) {
    let (header, missing, more) = judged(i);
    let mut symbols = [256; 8];
    symbols[0] += more;
    pack_small(tally, header, &symbols, 31 - missing);
}

fn lines_without_hearing() -> String {
    [
        group_line("cut", 16, |tally, i| cut(tally, &SAMPLE, i)),
        group_line("changed", 3840, |tally, i| changed(tally, &SAMPLE, i)),
        group_line("twice", 1296, twice),
        group_line("rooms", 25, |tally, i| rooms(tally, &SAMPLE, i)),
        group_line("formed", 311_040, formed),
        ends_lines("ends", &PLACES, |at, form| with_form(&SAMPLE, at, form)),
        group_line("headed", 44625, headed),
        group_line("lengths", 2160, lengths),
        group_line("pack-headed", 178_500, pack_headed),
        group_line("pack-lengths", 2160, pack_lengths),
        group_line("pack-symbols", 80, |tally, i| pack_symbols(tally, SAMPLE_HEADER, i)),
        // With a symbol that is none, so that only its number can come behind the sizes.
        group_line("pack-rooms", 539, |tally, i| pack_rooms(tally, SAMPLE_HEADER, 257, i)),
        largest_line("twelve", TWELVE),
        largest_line("fourteen", FOURTEEN),
    ]
    .concat()
}

fn lines_with_hearing() -> String {
    [
        group_line("hearing-cut", 19, |tally, i| cut(tally, &HEARING_SAMPLE, i)),
        group_line("hearing-changed", 4608, |tally, i| changed(tally, &HEARING_SAMPLE, i)),
        group_line("hearing-rooms", 25, |tally, i| rooms(tally, &HEARING_SAMPLE, i)),
        group_line("hearing-formed", 93_300, hearing_formed),
        group_line("hearing-twice", 4096, hearing_twice),
        ends_lines("hearing-ends", &HEARING_PLACES, with_number),
        group_line("hearing-values", 416, hearing_values),
        group_line("pack-hearing-values", 416, pack_hearing_values),
        group_line("pack-hearing-symbols", 80, |tally, i| pack_symbols(tally, HEARING_HEADER, i)),
        group_line("pack-hearing-rooms", 539, |tally, i| pack_rooms(tally, HEARING_HEADER, 256, i)),
        largest_line("hearing-fourteen", Header { hearing: 999_999, ..FOURTEEN }),
    ]
    .concat()
}

pub fn lines() -> String {
    lines_without_hearing() + &lines_with_hearing()
}
