//! One call of the library beside the naive one: the same number or result, and every lent buffer, which held garbage
//! before, is afterwards exactly what it has to be. Each function returns the number, 0 where the call did its work.
#![allow(dead_code)] // each test program uses a part of it

use super::naive::lent::Lent;
use super::naive::plan::Transfer;
use super::naive::random::Random;
use super::naive::{
    self, Arrival, Correction, Fault, Finished, Header, Heard, Kept, Lists, Number, Opened, Shape, Wanted,
};
use hmsr::{Checked, FirstStep, Hearing, Refusal, Stretches};
use std::ops::Range;

#[path = "../raw/mod.rs"]
pub mod raw;

pub fn library(shape: Shape) -> hmsr::Shape {
    hmsr::Shape { nodes: shape.n, data: shape.k, layers: shape.layers }
}

pub fn library_header(header: Header) -> hmsr::Header {
    let Header { shape, node, length, hearing } = header;
    hmsr::Header { shape: library(shape), node, length, hearing }
}

/// Asserts that both did their work or turned back with the same number. Gives the number and what was made.
fn agreed<T, U: Default>(answer: Result<T, Refusal>, expected: Result<U, Number>) -> (Number, U) {
    let number = answer.err().map_or(0, Refusal::number);
    match expected {
        Ok(made) => {
            assert_eq!(number, 0, "the library refuses what is to be accepted");
            (0, made)
        }
        Err(refusal) => {
            assert_eq!(number, refusal, "the library's number");
            (refusal, U::default())
        }
    }
}

pub fn write(random: &mut Random, shape: Shape, transcript: &[u8], nodes_length: usize) -> Number {
    let mut nodes = Lent::symbols(random, nodes_length);
    let answer = library(shape).write(transcript, nodes.slice());
    let (number, made) = agreed(answer, naive::write(shape, transcript, nodes_length));
    nodes.assert_holds(&made);
    number
}

/// 9 where an equation is unmet, 10 where a data symbol is above 255.
pub fn check(shape: Shape, nodes: &[u16]) -> Number {
    let answer = library(shape).check(nodes).map(|checked| match checked {
        Checked::Sound => None,
        Checked::Unmet { layer, a, t } => Some(Fault::Equation { layer, a, t }),
        Checked::HighData { node, place } => Some(Fault::Symbol { node, place }),
    });
    assert_eq!(answer.map_err(Refusal::number), naive::check(shape, nodes));
    match answer {
        Ok(None) => 0,
        Ok(Some(Fault::Equation { .. })) => 9,
        Ok(Some(Fault::Symbol { .. })) => 10,
        Err(refusal) => refusal.number(),
    }
}

pub fn restore(random: &mut Random, shape: Shape, list: &[usize], symbols: &[u16], nodes_length: usize) -> Number {
    let mut nodes = Lent::symbols(random, nodes_length);
    let answer = library(shape).restore(list, symbols, nodes.slice());
    let (number, made) = agreed(answer, naive::restore(shape, list, symbols, nodes_length));
    nodes.assert_holds(&made);
    number
}

pub fn open(
    random: &mut Random, shape: Shape, list: &[usize], symbols: &[u16], length: usize, transcript_length: usize,
) -> Number {
    let mut transcript = Lent::bytes(random, transcript_length);
    let answer = library(shape).open(list, symbols, length, transcript.slice());
    let (number, made) = agreed(answer, naive::open(shape, list, symbols, length, transcript_length));
    transcript.assert_holds(&made);
    number
}

/// The stretches as the package takes them, where they are pairs and no end wraps.
pub fn ranges(numbers: &[usize]) -> Option<Vec<Range<usize>>> {
    let (pairs, left_over) = numbers.as_chunks();
    let range = |&[start, count]: &[usize; 2]| start.checked_add(count).map(|end| start..end);
    left_over.is_empty().then(|| pairs.iter().map(range).collect())?
}

/// By the C call, and by the package in lent buffers and in new ones.
pub fn open_stretches(random: &mut Random, wanted: &Wanted) -> Number {
    let Wanted { shape, list, symbols, length, numbers, bytes_length, columns_length } = wanted;
    let expected = naive::open_stretches(wanted);
    let number = expected.as_ref().map_or_else(|&number| number, |opened| 256 + opened.number);
    let made = expected.clone().unwrap_or_default();
    let mut judged = |call: &dyn Fn(&mut [u8], &mut [usize]) -> usize| {
        let (mut bytes, mut columns) = (Lent::bytes(random, *bytes_length), Lent::numbers(*columns_length));
        assert_eq!(call(bytes.slice(), columns.slice()), number);
        bytes.assert_holds(&made.bytes);
        columns.assert_holds(&made.columns);
    };
    let library = library(*shape);
    judged(&|bytes, columns| raw::open_stretches(library, list, symbols, *length, numbers, bytes, columns));
    if let Some(ranges) = ranges(numbers) {
        judged(&|bytes, columns| {
            let answer = library.open_stretches(list, symbols, *length, &ranges, bytes, columns);
            answer.map_or_else(Refusal::number, |read| 256 + read)
        });
        assert_opened_anew(wanted, &ranges);
    }
    expected.err().unwrap_or(0)
}

fn assert_opened_anew(wanted: &Wanted, ranges: &[Range<usize>]) {
    let Wanted { shape, list, symbols, length, .. } = wanted;
    let made = library(*shape).open_stretches_to_vec(list, symbols, *length, ranges).map_err(Refusal::number);
    let as_made = |opened: Opened| {
        let columns = opened.columns[..opened.number / shape.k].to_vec();
        Stretches { bytes: opened.bytes, columns, symbols: opened.number }
    };
    assert!(made == naive::open_stretches_anew(wanted).map(as_made), "the stretches in new buffers");
}

/// In place and in a new buffer.
pub fn correct(correction: &Correction) -> Number {
    let Correction { shape, nodes: before, length, byte, change } = correction;
    let mut nodes = Lent::around(before);
    let answer = library(*shape).correct(nodes.slice(), *length, *byte, *change);
    let corrected = library(*shape).correct_to_nodes(before, *length, *byte, *change);
    assert!(corrected == answer.map(|()| nodes.slice().to_vec()), "the corrected nodes in a new buffer");
    let (number, made) = agreed(answer, naive::correct(correction));
    nodes.assert_holds(&made);
    number
}

pub fn library_repair(lists: &Lists) -> hmsr::Repair<'_> {
    hmsr::Repair { shape: library(lists.shape), dead: &lists.dead, helpers: &lists.helpers }
}

pub fn helper_message(
    random: &mut Random, lists: &Lists, helper: usize, new: usize, symbols: &[u16], message_length: usize,
) -> Number {
    let Lists { shape, dead, helpers } = lists;
    let mut message = Lent::symbols(random, message_length);
    let answer = library_repair(lists).helper_message(helper, new, symbols, message.slice());
    let expected = naive::helper_message(*shape, dead, helpers, helper, new, symbols, message_length);
    let (number, made) = agreed(answer, expected);
    message.assert_holds(&made);
    number
}

pub fn first_step(
    random: &mut Random, lists: &Lists, new: usize, messages: &[u16], pairs_length: usize, sums_length: usize,
) -> Number {
    let Lists { shape, dead, helpers } = lists;
    let mut pairs = Lent::symbols(random, pairs_length);
    let mut sums = Lent::symbols(random, sums_length);
    let answer = library_repair(lists).first_step(new, messages, pairs.slice(), sums.slice());
    let expected = naive::first_step(*shape, dead, helpers, new, messages, pairs_length, sums_length);
    let (number, made) = agreed(answer, expected);
    pairs.assert_holds(&made.0);
    sums.assert_holds(&made.1);
    number
}

/// What is kept stands in lent buffers. As with finishing, the package hands all of it to the C call as it is.
pub fn hear(call: &Heard) -> Number {
    let Heard { lists, new, helper, message, kept } = call;
    let (mut sums, mut record) = (Lent::around(&kept.sums), Lent::around(&kept.record));
    let answer = library_repair(lists).hear(*new, *helper, message, sums.slice(), record.slice());
    let (number, made) = agreed(answer, naive::hear(call));
    sums.assert_holds(&made.sums);
    record.assert_holds(&made.record);
    number
}

pub fn finish(random: &mut Random, call: &Finished) -> Number {
    let Finished { lists, new, kept, pairs_length, exchanges_length } = call;
    let mut pairs = Lent::symbols(random, *pairs_length);
    let mut exchanges = Lent::symbols(random, *exchanges_length);
    let answer = library_repair(lists).finish(*new, &kept.sums, &kept.record, pairs.slice(), exchanges.slice());
    let (number, made) = agreed(answer, naive::finish(call));
    pairs.assert_holds(&made.0);
    exchanges.assert_holds(&made.1);
    number
}

/// What is kept stands in the package's own buffers: after each message the answer, the helpers heard, and what finishing
/// gives. The number is that of finishing behind the last.
pub fn arrive(random: &mut Random, arrival: &Arrival) -> Number {
    let Arrival { lists, new, messages } = arrival;
    let mut hearing = Hearing::new(library_repair(lists), *new);
    let mut call = Heard { lists: lists.clone(), new: *new, helper: 0, message: vec![], kept: Kept::begun(lists) };
    let mut number = finish_hearing(random, &call, &hearing);
    for (helper, message) in messages {
        (call.helper, call.message) = (*helper, message.clone());
        let expected = naive::hear(&call);
        agreed(hearing.hear(*helper, message), expected.clone());
        call.kept = expected.unwrap_or(call.kept);
        assert_eq!(hearing.heard(), call.kept.heard());
        number = finish_hearing(random, &call, &hearing);
    }
    number
}

/// What was heard finished, in lent buffers of the exact lengths and in new ones.
fn finish_hearing(random: &mut Random, heard: &Heard, hearing: &Hearing) -> Number {
    let Heard { lists, new, kept, .. } = heard;
    // Where nothing can be kept, there is no such length.
    let length = if kept.sums.is_empty() { 0 } else { lists.message_length() };
    let (pairs_length, exchanges_length) = (2 * length, lists.dead.len().saturating_sub(1) * length);
    let call = Finished { lists: lists.clone(), new: *new, kept: kept.clone(), pairs_length, exchanges_length };
    let (mut pairs, mut exchanges) = (Lent::symbols(random, pairs_length), Lent::symbols(random, exchanges_length));
    let answer = hearing.finish(pairs.slice(), exchanges.slice());
    let made = hearing.finish_to_vec().map(|FirstStep { pairs, sums }| (pairs, sums));
    let (number, expected) = agreed(answer, naive::finish(&call));
    assert!(made == answer.map(|()| expected.clone()), "the first step in new buffers");
    pairs.assert_holds(&expected.0);
    exchanges.assert_holds(&expected.1);
    number
}

pub fn second_step(
    random: &mut Random, lists: &Lists, new: usize, pairs: &[u16], received: &[u16], symbols_length: usize,
) -> Number {
    let Lists { shape, dead, helpers } = lists;
    let mut symbols = Lent::symbols(random, symbols_length);
    let answer = library_repair(lists).second_step(new, pairs, received, symbols.slice());
    let expected = naive::second_step(*shape, dead, helpers, new, pairs, received, symbols_length);
    let (number, made) = agreed(answer, expected);
    symbols.assert_holds(&made);
    number
}

pub fn repair(random: &mut Random, lists: &Lists, before: &[u16], wire_length: usize) -> Number {
    let Lists { shape, dead, helpers } = lists;
    let mut nodes = Lent::around(before);
    let mut wire = Lent::symbols(random, wire_length);
    let answer = library_repair(lists).repair(nodes.slice(), wire.slice());
    let (number, made) = agreed(answer, naive::repair(*shape, dead, helpers, before, wire_length));
    nodes.assert_holds(&made.0);
    wire.assert_holds(&made.1);
    number
}

pub fn pack(random: &mut Random, header: Header, symbols: &[u16], card_length: usize) -> Number {
    let mut card = Lent::bytes(random, card_length);
    let answer = library_header(header).pack(symbols, card.slice());
    let (number, made) = agreed(answer, naive::pack(header, symbols, card_length));
    assert_eq!(answer.unwrap_or(0), made.len());
    card.assert_holds(&made);
    number
}

/// The library's header buffer has six numbers and is judged with the symbols' buffer: in document 01's terms, a wrong
/// one is a lent buffer not of the exact length.
pub fn unpack(random: &mut Random, card: &[u8], symbols_length: usize, header_length: usize) -> Number {
    let mut symbols = Lent::symbols(random, symbols_length);
    let mut header = Lent::numbers(header_length);
    let answer = hmsr::unpack_into(card, symbols.slice(), header.slice());
    let exact = if header_length == 6 { symbols_length } else { usize::MAX };
    let expected = naive::unpack(card, exact).map(|(header, symbols)| {
        let Header { shape, node, length, hearing } = header;
        (vec![shape.n, shape.k, shape.layers, node, length, hearing], symbols)
    });
    let (number, made) = agreed(answer, expected);
    header.assert_holds(&made.0);
    symbols.assert_holds(&made.1);
    number
}

/// The layers that the library chooses for a list of losses are the naive ones.
pub fn layers(n: usize, k: usize, losses: &[usize]) -> Number {
    let expected = naive::layers(n, k, losses).map(|layers| library(Shape { n, k, layers }));
    let answer = hmsr::Shape::for_losses(n, k, losses);
    assert_eq!(answer.map_err(Refusal::number), expected);
    answer.err().map_or(0, Refusal::number)
}

/// The library's answer to a list of numbers is the naive one, and so is that to the same list as pairs.
pub fn may_run(lists: &Lists, numbers: &[usize]) -> Number {
    let answer = library_repair(lists).may_run(numbers);
    let (pairs, left_over) = numbers.as_chunks();
    if left_over.is_empty() {
        let pairs: Vec<Transfer> = pairs.iter().map(|&[sender, receiver]| (sender, receiver)).collect();
        assert_eq!(library_repair(lists).may_run_pairs(&pairs), answer);
    }
    agreed(answer, naive::may_run(lists, numbers)).0
}

/// The number that the plan's text is, and 0 for a plan; 4 where the text buffer is too short.
pub fn plan(random: &mut Random, input: &[u8], text_length: usize) -> Number {
    let mut text = Lent::bytes(random, text_length);
    let answer = hmsr::plan(input, text.slice());
    let printed = naive::plan(input);
    assert!(printed.len() <= hmsr::PLAN_TEXT);
    let expected = if text_length < hmsr::PLAN_TEXT { None } else { Some(printed.as_str()) };
    assert_eq!(answer, expected.map(str::len).ok_or(hmsr::Refusal::WrongLength));
    text.assert_holds(expected.unwrap_or("").as_bytes());
    match expected {
        None => 4,
        Some(line) if line.len() == 2 => line[..1].parse().unwrap(),
        Some(_) => 0,
    }
}
