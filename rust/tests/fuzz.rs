//! Random and mutated cards, what is packed into them, plan inputs, lists of losses, orders of transfers, corrections,
//! stretches, and messages in the order they arrive, library beside naive implementation, for as many seconds each as the
//! environment's HMSR_FUZZ_SECONDS says (3 if it says nothing). HMSR_SEED=.. makes another series of inputs.

#[path = "naive/compare.rs"]
mod compare;
mod naive;

use naive::card::starts_with_1;
use naive::random::Random;
use naive::{Correction, Finished, Header, Heard, Kept, Lists, Shape, Wanted};
use std::fmt::Debug;
use std::time::{Duration, Instant};

fn from_environment(name: &str, otherwise: u64) -> u64 {
    std::env::var(name).map_or(otherwise, |value| value.parse().expect("a number"))
}

/// Tries inputs made by `make` until the time is over; prints how many, and the input of a failure.
fn fuzz<T: Debug>(make: fn(&mut Random) -> T, compare: impl Fn(&mut Random, &T) -> usize) -> [usize; 14] {
    let mut random = Random::new(from_environment("HMSR_SEED", 1));
    let time = Duration::from_secs(from_environment("HMSR_FUZZ_SECONDS", 3));
    let start = Instant::now();
    let mut tally = [0; 14];
    while start.elapsed() < time {
        for _ in 0..100 {
            let input = Shown(make(&mut random));
            tally[compare(&mut random, &input.0)] += 1;
        }
    }
    println!("numbers 0 to 13 came up {tally:?}");
    tally
}

/// Prints the input if the test panics while it holds this.
struct Shown<T: Debug>(T);

impl<T: Debug> Drop for Shown<T> {
    fn drop(&mut self) {
        if std::thread::panicking() {
            eprintln!("input {:?}", self.0);
        }
    }
}

/// A byte of the kind that matters: small, at an edge of the seven-bit form, or any.
fn byte(random: &mut Random) -> u8 {
    let any = random.next() as u8;
    let small = random.below(16) as u8;
    random.choose(&[any, small, small, 0, 1, 127, 128, 129, 255])
}

/// Changes, cuts, extends, doubles or drops bytes.
fn mutate(random: &mut Random, bytes: &mut Vec<u8>) {
    let at = random.below(bytes.len() + 1);
    match random.below(7) {
        0 | 1 if at < bytes.len() => bytes[at] = byte(random),
        2 => bytes.insert(at, byte(random)),
        3 if at < bytes.len() => drop(bytes.drain(at..at + 1)),
        4 => bytes.truncate(at),
        5 => bytes.push(byte(random)),
        6 if at < bytes.len() => bytes[at] ^= 1 << random.below(8),
        _ => {}
    }
}

fn mutated(random: &mut Random, mut bytes: Vec<u8>) -> Vec<u8> {
    for _ in 0..random.choose(&[0, 1, 1, 1, 2, 3, 8]) {
        mutate(random, &mut bytes);
    }
    bytes
}

fn random_bytes(random: &mut Random) -> Vec<u8> {
    let count = random.below(60);
    (0..count).map(|_| byte(random)).collect()
}

/// A card of either form, mutated; now and then one form's front before the other's symbols.
fn card(random: &mut Random) -> Vec<u8> {
    if random.once_in(8) {
        return random_bytes(random);
    }
    let header = random.small_header();
    let symbols = random.symbols(header.shape.symbols());
    let mut card = naive::pack(header, &symbols, 15 + 2 * symbols.len()).unwrap();
    if random.once_in(10) {
        match header.hearing {
            0 => card.insert(0, 1),
            _ => drop(card.remove(0)),
        }
    }
    mutated(random, card)
}

/// Unpacks into a buffer of the length that the card announces, if it does, or another. 9 where a card with a hearing
/// number is accepted.
fn unpack(random: &mut Random, card: &[u8]) -> usize {
    let leading = usize::from(starts_with_1(card));
    let length = match naive::card::take_shape(&mut &card[leading..]) {
        Ok(shape) if shape.n <= 14 && shape.layers <= 15 && !random.once_in(20) => shape.symbols(),
        _ => random.below(100),
    };
    let number = compare::unpack(random, card, length, 6);
    if number == 0 {
        assert_packs_again(card, length);
        return 9 * leading;
    }
    number
}

/// An accepted card packed again gives the same bytes.
fn assert_packs_again(card: &[u8], length: usize) {
    let mut symbols = vec![0; length];
    let header = hmsr::unpack(card, &mut symbols).unwrap();
    assert_eq!(header.pack_to_vec(&symbols).unwrap(), card);
}

#[test]
fn cards() {
    let tally = fuzz(card, |random, card| unpack(random, card));
    for number in [0, 1, 2, 4, 5, 6, 9] {
        assert!(tally[number] > 0, "number {number} never came up");
    }
}

/// What a card is packed from, and the length of its buffer.
#[derive(Debug)]
struct Contents {
    header: Header,
    symbols: Vec<u16>,
    card_length: usize,
}

fn contents(random: &mut Random) -> Contents {
    let mut header = random.small_header();
    let mut symbols = random.symbols(header.shape.symbols());
    let mut card_length = 15 + 2 * symbols.len();
    match random.below(12) {
        0 => random.spoil_shape(&mut header.shape),
        1 => header.node = random.hostile(header.node),
        2 => header.length = random.hostile(header.length),
        3 => header.hearing = random.hostile(header.hearing),
        4 => header.hearing = random.no_hearing(),
        5 => random.spoil_length(&mut card_length),
        6 => random.spoil_symbols(&mut symbols),
        _ => {}
    }
    Contents { header, symbols, card_length }
}

/// What was packed unpacks to header and symbols again. 9 where a card with a hearing number is made.
fn pack(random: &mut Random, contents: &Contents) -> usize {
    let Contents { header, symbols, card_length } = contents;
    let number = compare::pack(random, *header, symbols, *card_length);
    if number == 0 {
        let header = compare::library_header(*header);
        let card = header.pack_to_vec(symbols).unwrap();
        assert_eq!(hmsr::unpack_to_vec(&card), Ok((header, symbols.clone())));
        return 9 * header.hearing.min(1);
    }
    number
}

#[test]
fn packed() {
    let tally = fuzz(contents, pack);
    for number in [0, 1, 2, 4, 5, 6, 9] {
        assert!(tally[number] > 0, "number {number} never came up");
    }
}

fn plan_input(random: &mut Random) -> Vec<u8> {
    if random.once_in(8) {
        return random_bytes(random);
    }
    let Lists { shape, dead, helpers } = random.planned();
    let front = [shape.n, shape.k, shape.layers, dead.len()];
    let mut good = Vec::new();
    for &number in front.iter().chain(&dead).chain(&helpers) {
        naive::card::put_number(&mut good, number);
    }
    mutated(random, good)
}

#[test]
fn plans() {
    let tally = fuzz(plan_input, |random, input| compare::plan(random, input, hmsr::PLAN_TEXT));
    for number in [0, 1, 2, 3, 6] {
        assert!(tally[number] > 0, "number {number} never came up");
    }
}

/// What layers are chosen from.
#[derive(Debug)]
struct Losses {
    n: usize,
    k: usize,
    losses: Vec<usize>,
}

/// A number of the kind that matters: small, small but for one bit, or any.
fn number(random: &mut Random) -> usize {
    let small = random.below(17);
    let flipped = small ^ (1 << random.below(64));
    let any = random.next() as usize;
    random.choose(&[small, small, small, flipped, any, usize::MAX - small])
}

/// Numbers at random, or losses that n and k allow, with some of all numbers changed.
fn losses(random: &mut Random) -> Losses {
    if random.once_in(8) {
        let (n, k, count) = (number(random), number(random), random.below(12));
        return Losses { n, k, losses: (0..count).map(|_| number(random)).collect() };
    }
    let (Shape { n, k, .. }, mut losses) = random.losses();
    losses.truncate(40);
    let mut numbers = [&[n, k], &losses[..]].concat();
    for _ in 0..random.choose(&[0, 0, 1, 1, 2, 3]) {
        let at = random.below(numbers.len());
        numbers[at] = number(random);
    }
    Losses { n: numbers[0], k: numbers[1], losses: numbers.split_off(2) }
}

#[test]
fn lists_of_losses() {
    let tally = fuzz(losses, |_, input| compare::layers(input.n, input.k, &input.losses));
    for number in [0, 1, 2, 11] {
        assert!(tally[number] > 0, "number {number} never came up");
    }
}

/// A repair, and the numbers of a list of transfers.
#[derive(Debug)]
struct Listed {
    lists: Lists,
    numbers: Vec<usize>,
}

/// Changes, flips a bit of, puts in, leaves out or swaps numbers, or cuts them short.
fn mutate_numbers(random: &mut Random, numbers: &mut Vec<usize>) {
    if numbers.is_empty() {
        return numbers.push(number(random));
    }
    let (at, other) = (random.below(numbers.len()), random.below(numbers.len()));
    match random.below(6) {
        0 => numbers[at] = number(random),
        1 => numbers[at] ^= 1 << random.below(64),
        2 => numbers.insert(at, number(random)),
        3 => drop(numbers.remove(at)),
        4 => numbers.swap(at, other),
        _ => numbers.truncate(at),
    }
}

/// Transfers in an order in which they may run, or not, and then up to two changes of all that is given.
fn listed(random: &mut Random) -> Listed {
    let mut lists = random.planned();
    let mut order = random.order(&lists);
    for _ in 0..random.choose(&[0, 0, 1, 2]) {
        random.spoil_order(lists.shape, &mut order);
    }
    let mut numbers = naive::order::numbers(&order);
    for _ in 0..random.choose(&[0, 0, 1, 2]) {
        match random.below(8) {
            0 => mutate_numbers(random, &mut lists.dead),
            1 => mutate_numbers(random, &mut lists.helpers),
            2 => random.spoil_shape(&mut lists.shape),
            _ => mutate_numbers(random, &mut numbers),
        }
    }
    Listed { lists, numbers }
}

#[test]
fn orders() {
    let tally = fuzz(listed, |_, input| compare::may_run(&input.lists, &input.numbers));
    for number in [0, 1, 2, 3, 4, 13] {
        assert!(tally[number] > 0, "number {number} never came up");
    }
}

/// A change of the kind that matters: around the range, one bit away from it, or any.
fn change(random: &mut Random) -> i64 {
    let near = random.between(0, 600) as i64 - 300;
    let flipped = near ^ (1 << random.below(64));
    let any = random.next() as i64;
    random.choose(&[near, near, near, flipped, flipped, any, i64::MIN, i64::MAX])
}

/// Puts another number in place of one that is given.
fn mutate_correction(random: &mut Random, correction: &mut Correction) {
    let Correction { nodes, length, byte, .. } = correction;
    let (at, near) = (random.below(nodes.len().max(1)), random.below(nodes.len() + 2));
    let (far, bit) = (number(random), 1 << random.below(64));
    match random.below(8) {
        0 | 1 => correction.change = change(random),
        2 => *length = random.choose(&[near, near, far, *length ^ bit]),
        3 => *byte = random.choose(&[near, near, far, *byte ^ bit, *length]),
        4 => random.spoil_symbols(nodes),
        5 if at < nodes.len() => nodes[at] ^= 1 << random.below(16),
        6 => nodes.resize(random.choose(&[at, near]), 256),
        _ => correction.shape.k = random.choose(&[near, far]),
    }
}

/// A small archive's correction, wrong or not, and then up to three changes of all that is given.
fn correction(random: &mut Random) -> Correction {
    let shape = random.small_header().shape;
    let mut correction = random.correction(shape);
    if random.once_in(4) {
        random.spoil_correction(shape, &mut correction);
    }
    for _ in 0..random.choose(&[0, 1, 1, 2, 3]) {
        mutate_correction(random, &mut correction);
    }
    correction
}

#[test]
fn corrections() {
    let tally = fuzz(correction, |_, correction| compare::correct(correction));
    for number in [0, 1, 4, 5, 9, 12] {
        assert!(tally[number] > 0, "number {number} never came up");
    }
}

/// Puts other numbers or symbols in place of some that are given.
fn mutate_wanted(random: &mut Random, wanted: &mut Wanted) {
    let Wanted { list, symbols, length, numbers, bytes_length, columns_length, .. } = wanted;
    let (at, near) = (random.below(symbols.len().max(1)), random.below(symbols.len() + 2));
    let (far, bit) = (number(random), 1 << random.below(64));
    match random.below(12) {
        0..=3 => mutate_numbers(random, numbers),
        4 => mutate_numbers(random, list),
        5 => *length = random.choose(&[near, near, far, *length ^ bit]),
        6 => *bytes_length = near,
        7 => *columns_length = near,
        8 => random.spoil_symbols(symbols),
        9 if at < symbols.len() => symbols[at] ^= 1 << random.below(16),
        10 => symbols.resize(random.choose(&[at, near]), 256),
        _ => wanted.shape.k = random.choose(&[near, far]),
    }
}

/// A small archive's stretches, wrong or not, and then up to three changes of all that is given.
fn stretches(random: &mut Random) -> Wanted {
    let shape = random.small_header().shape;
    let mut wanted = random.wanted(shape);
    match random.below(8) {
        0 => random.want_no_byte(&mut wanted),
        1 | 2 => random.spoil_wanted(shape, &mut wanted),
        _ => {}
    }
    for _ in 0..random.choose(&[0, 1, 1, 2, 3]) {
        mutate_wanted(random, &mut wanted);
    }
    wanted
}

#[test]
fn many_stretches() {
    let tally = fuzz(stretches, compare::open_stretches);
    for number in [0, 1, 2, 4, 5, 7, 9] {
        assert!(tally[number] > 0, "number {number} never came up");
    }
}

/// Changes a number or the length of one of these lists, or the shape.
fn mutate_lists(random: &mut Random, lists: &mut Lists) {
    match random.below(4) {
        0 => mutate_numbers(random, &mut lists.dead),
        1 => mutate_numbers(random, &mut lists.helpers),
        2 => random.spoil_shape(&mut lists.shape),
        _ => lists.shape.layers = random.between(1, 15),
    }
}

/// Puts a value above 256 among symbols, changes a bit of one, or their count.
fn mutate_symbols(random: &mut Random, symbols: &mut Vec<u16>) {
    let at = random.below(symbols.len() + 1);
    match random.below(3) {
        0 => random.spoil_symbols(symbols),
        1 if at < symbols.len() => symbols[at] ^= 1 << random.below(16),
        _ => symbols.resize(random.choose(&[at, symbols.len() + 1, 2 * at]), 256),
    }
}

/// Puts others in place of some numbers of the record, or of some sums.
fn mutate_kept(random: &mut Random, kept: &mut Kept) {
    match random.below(3) {
        0 => mutate_symbols(random, &mut kept.sums),
        _ => mutate_numbers(random, &mut kept.record),
    }
}

/// A helper's message to a node that has heard others or not, and then up to three changes of all that is given.
fn heard(random: &mut Random) -> Heard {
    let lists = random.small_repair(6);
    let mut call = random.heard(lists);
    if random.once_in(4) {
        random.spoil_heard(&mut call);
    }
    for _ in 0..random.choose(&[0, 1, 1, 2, 3]) {
        match random.below(8) {
            0 => mutate_lists(random, &mut call.lists),
            1 => call.new = number(random),
            2 => call.helper = number(random),
            3 => mutate_symbols(random, &mut call.message),
            _ => mutate_kept(random, &mut call.kept),
        }
    }
    call
}

#[test]
fn helpers_heard() {
    let tally = fuzz(heard, |_, call| compare::hear(call));
    for number in [0, 1, 2, 3, 4, 5] {
        assert!(tally[number] > 0, "number {number} never came up");
    }
}

/// All helpers heard, and then up to three changes of all that is given.
fn finished(random: &mut Random) -> Finished {
    let lists = random.small_repair(6);
    let mut call = random.finished(lists);
    if random.once_in(4) {
        random.spoil_finished(&mut call);
    }
    for _ in 0..random.choose(&[0, 1, 1, 2, 3]) {
        match random.below(8) {
            0 => mutate_lists(random, &mut call.lists),
            1 => call.new = number(random),
            2 => random.spoil_length(&mut call.pairs_length),
            3 => random.spoil_length(&mut call.exchanges_length),
            _ => mutate_kept(random, &mut call.kept),
        }
    }
    call
}

#[test]
fn first_steps_finished() {
    let tally = fuzz(finished, compare::finish);
    for number in [0, 1, 2, 3, 4, 5] {
        assert!(tally[number] > 0, "number {number} never came up");
    }
}
