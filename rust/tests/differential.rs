//! The library beside the naive implementation on random, damaged and hostile inputs of every call. A failure prints
//! its seed; HMSR_SEED=.. makes that seed the first one tried.

#[path = "naive/alone.rs"]
mod alone;
#[path = "naive/compare.rs"]
mod compare;
mod naive;

use naive::judge::batch_layers;
use naive::random::{codeword_of, Random};
use naive::{Correction, Header, Lists, Number, Shape};

/// n × N of most inputs, but one layer is always allowed.
const MOST_SYMBOLS: usize = 3000;

/// Prints the seed if the test panics while it holds this.
struct Seed(u64);

impl Drop for Seed {
    fn drop(&mut self) {
        if std::thread::panicking() {
            eprintln!("seed {}", self.0);
        }
    }
}

/// Runs so many cases, each with a seed of its own. Asserts that exactly these numbers came up, each in one of two
/// hundred cases at least.
fn try_cases(count: usize, numbers: &[Number], mut case: impl FnMut(&mut Random) -> Number) {
    let first = std::env::var("HMSR_SEED").map_or(1, |seed| seed.parse().expect("a number"));
    let mut tally = [0; 14];
    for seed in first..first + count as u64 {
        let seed = Seed(seed);
        tally[case(&mut Random::new(seed.0))] += 1;
    }
    println!("numbers 0 to 13 came up {tally:?}");
    for (number, &times) in tally.iter().enumerate() {
        assert_eq!(numbers.contains(&number), times > count / 200, "number {number} came up {times} times");
    }
}

fn random_shape(random: &mut Random) -> Shape {
    let bound = if random.once_in(40) { 20 * MOST_SYMBOLS } else { MOST_SYMBOLS };
    random.shape(bound)
}

/// The symbols of the listed nodes.
fn symbols_of(shape: Shape, nodes: &[u16], list: &[usize]) -> Vec<u16> {
    let size = shape.symbols();
    list.iter().flat_map(|&node| nodes[node * size..(node + 1) * size].to_vec()).collect()
}

#[test]
fn write() {
    try_cases(1500, &[0, 1, 4], |random| {
        let mut shape = random_shape(random);
        let length = random.below(shape.capacity() + 1);
        let mut length = random.choose(&[0, 1, shape.capacity(), length]);
        let mut nodes_length = shape.n * shape.symbols();
        match random.below(8) {
            0 => random.spoil_shape(&mut shape),
            1 => length = shape.capacity() + random.between(1, 2),
            2 => random.spoil_length(&mut nodes_length),
            _ => {}
        }
        let transcript = random.bytes(length);
        compare::write(random, shape, &transcript, nodes_length)
    });
}

#[test]
fn check() {
    try_cases(1500, &[0, 1, 4, 5, 9, 10], |random| {
        let mut shape = random_shape(random);
        let mut nodes = match random.below(4) {
            0 => random.codeword(shape),
            1 => {
                let no_bytes = random.between(1, 3);
                random.codeword_of_bytes(shape, no_bytes)
            }
            _ => random.codeword_of_bytes(shape, 0),
        };
        let last = nodes.len() - 1;
        match random.below(10) {
            0 => random.spoil_shape(&mut shape),
            1 => drop(nodes.pop()),
            2 => nodes.push(0),
            3 => random.spoil_symbols(&mut nodes),
            4 => nodes = random.symbols(nodes.len()),
            5 => nodes[last] = random.symbol(),
            6 | 7 => {
                for _ in 0..random.between(1, 3) {
                    nodes[random.below(last + 1)] = random.symbol();
                }
            }
            _ => {}
        }
        compare::check(shape, &nodes)
    });
}

/// For every place, an archive that is wrong there alone, and whose first unmet equation has each t in turn.
#[test]
fn check_finds_every_equation() {
    let mut random = Random::new(1);
    let shape = Shape { n: 7, k: 2, layers: 2 };
    let (size, r) = (shape.symbols(), shape.equations());
    for place in 0..size {
        let t = place % r;
        let mut nodes = random.codeword(shape);
        // Adding a solution of the first t equations leaves t as the first unmet one.
        let points: Vec<u32> = (0..=t).map(|node| naive::code::point(node, place % shape.width())).collect();
        let change = naive::field::solve_parity(&[(points[t], 1)], &points[..t]);
        for (node, value) in change.into_iter().chain([1]).enumerate() {
            let symbol = &mut nodes[node * size + place];
            *symbol = naive::field::add(u32::from(*symbol), value) as u16;
        }
        let unmet = hmsr::Checked::Unmet { layer: place / shape.width(), a: place % shape.width(), t };
        let checked = hmsr::Shape { nodes: 7, data: 2, layers: 2 }.check(&nodes);
        assert_eq!(checked, Ok(unmet));
    }
}

/// For every data symbol, a codeword that has bytes before it, 256 there, and anything behind it. Where an equation of the
/// last place is unmet besides, that comes first.
#[test]
fn check_finds_every_data_symbol() {
    let mut random = Random::new(1);
    let shape = Shape { n: 7, k: 3, layers: 2 };
    let (library, size) = (compare::library(shape), shape.symbols());
    for e in 0..shape.capacity() {
        let mut data = random.symbols(shape.capacity());
        data[..e].iter_mut().for_each(|symbol| *symbol %= 256);
        data[e] = 256;
        let mut nodes = codeword_of(shape, &data);
        assert_eq!(library.check(&nodes), Ok(hmsr::Checked::HighData { node: e / size, place: e % size }));
        let last = nodes.last_mut().unwrap();
        *last = (*last + 1) % 257;
        assert_eq!(library.check(&nodes), Ok(hmsr::Checked::Unmet { layer: 1, a: 127, t: 0 }));
    }
}

/// Of codewords, those are sound that open with all k × N bytes, from any k nodes, and are what writing these bytes gives.
#[test]
fn sound_archives_are_transcripts() {
    let mut tally = [0; 2];
    for seed in (1..=400).map(Seed) {
        let random = &mut Random::new(seed.0);
        let shape = random_shape(random);
        let no_bytes = random.below(3);
        let nodes = random.codeword_of_bytes(shape, no_bytes);
        let list = random.nodes(shape, shape.k);
        let library = compare::library(shape);
        let opened = library.open_to_vec(&list, &symbols_of(shape, &nodes, &list), shape.capacity());
        match library.check(&nodes) {
            Ok(hmsr::Checked::Sound) if no_bytes == 0 => assert!(library.write_to_nodes(&opened.unwrap()) == Ok(nodes)),
            Ok(hmsr::Checked::HighData { .. }) if no_bytes > 0 => assert_eq!(opened, Err(hmsr::Refusal::NoTranscript)),
            other => panic!("{other:?}"),
        }
        tally[no_bytes.min(1)] += 1;
    }
    println!("{tally:?} without and with symbols 256");
    assert!(tally.iter().all(|&count| count > 100));
}

/// "An office was told its drives were sound, and opening them gave 7" (document 02 §5): data nodes full of 256.
#[test]
fn an_archive_of_256s_is_no_transcripts() {
    let mut random = Random::new(1);
    for n in 3..=12 {
        for k in 1..=n - 2 {
            let shape = Shape { n, k, layers: 1 };
            let nodes = codeword_of(shape, &vec![256; shape.capacity()]);
            assert_eq!(naive::check(shape, &nodes), Ok(Some(naive::Fault::Symbol { node: 0, place: 0 })));
            assert_eq!(compare::check(shape, &nodes), 10);
            let list = random.nodes(shape, k);
            let symbols = symbols_of(shape, &nodes, &list);
            for length in [0, 1, shape.capacity()] {
                assert_eq!(compare::open(&mut random, shape, &list, &symbols, length, length), 7);
            }
        }
    }
}

#[test]
fn restore() {
    try_cases(1500, &[0, 1, 2, 4, 5], |random| {
        let mut shape = random_shape(random);
        let mut list = random.nodes(shape, shape.k);
        let mut length = shape.capacity();
        let mut nodes_length = shape.n * shape.symbols();
        let mut n = shape.n;
        let mut symbols = random.symbols(length);
        for _ in 0..random.below(3) {
            match random.below(10) {
                0 => random.spoil_shape(&mut shape),
                1 | 2 if !list.is_empty() => random.spoil_list(n, &mut list),
                3 => random.spoil_length(&mut length),
                4 => random.spoil_length(&mut nodes_length),
                5 => random.spoil_symbols(&mut symbols),
                _ => n = 14,
            }
        }
        symbols.resize(length, 256);
        compare::restore(random, shape, &list, &symbols, nodes_length)
    });
}

/// Data nodes of a transcript of that length, or nearly: what is wrong with them makes the refusal 7.
fn random_data(random: &mut Random, shape: Shape, length: usize) -> Vec<u16> {
    let mut data: Vec<u16> = random.bytes(length).into_iter().map(u16::from).collect();
    data.resize(shape.capacity(), 0);
    match random.below(6) {
        0 if length > 0 => data[random.choose(&[0, length - 1, length / 2])] = 256,
        1 if length < data.len() => data[length] = 1,
        2 if length < data.len() => *data.last_mut().unwrap() = 256,
        3 if length < data.len() => data[random.between(length, shape.capacity() - 1)] = random.symbol(),
        _ => {}
    }
    data
}

#[test]
fn open() {
    try_cases(1500, &[0, 1, 2, 4, 5, 7], |random| {
        let mut shape = random_shape(random);
        let capacity = shape.capacity();
        let between = random.below(capacity + 1);
        let mut length = random.choose(&[0, 1, capacity - 1, capacity, between, between]);
        let data = random_data(random, shape, length);
        let first: Vec<usize> = (0..shape.k).collect();
        let nodes = naive::restore(shape, &first, &data, shape.n * shape.symbols()).unwrap();
        let mut list = random.nodes(shape, shape.k);
        let mut symbols = symbols_of(shape, &nodes, &list);
        let mut transcript_length = length;
        match random.below(16) {
            0 => random.spoil_shape(&mut shape),
            1 => random.spoil_list(shape.n, &mut list),
            2 => random.spoil_symbols(&mut symbols),
            3 => random.spoil_length(&mut transcript_length),
            4 => drop(symbols.pop()),
            5 => length = random.choose(&[capacity + 1, usize::MAX, 1 << 32, transcript_length + 1]),
            6 => symbols[random.below(capacity)] = random.symbol(),
            7 if length > 0 => {
                // One byte shorter than was written: 7, unless that byte is 0.
                length -= 1;
                transcript_length = length;
            }
            8 => symbols = random.symbols(capacity),
            _ => {}
        }
        compare::open(random, shape, &list, &symbols, length, transcript_length)
    });
}

/// Every rising list of k nodes of n, where n is at most 8: with all data nodes among them, some, or none.
fn every_list() -> Vec<(usize, Vec<usize>)> {
    let all = (3..=8).flat_map(|n| (0..1usize << n).map(move |set| (n, set)));
    let lists = all.map(|(n, set)| (n, (0..n).filter(|node| set >> node & 1 == 1).collect::<Vec<usize>>()));
    lists.filter(|(n, list)| (1..=n - 2).contains(&list.len())).collect()
}

#[test]
fn open_from_every_list() {
    let mut tally = [0; 10];
    for (n, list) in every_list() {
        println!("{list:?} of {n} nodes");
        for seed in 1..=3 {
            let seed = Seed(seed);
            let random = &mut Random::new(seed.0);
            let shape = Shape { n, k: list.len(), layers: random.between(1, 3) };
            let length = random.between(0, shape.capacity());
            let data = random_data(random, shape, length);
            let first: Vec<usize> = (0..shape.k).collect();
            let nodes = naive::restore(shape, &first, &data, shape.n * shape.symbols()).unwrap();
            tally[compare::open(random, shape, &list, &symbols_of(shape, &nodes, &list), length, length)] += 1;
        }
    }
    println!("numbers 0 to 9 came up {tally:?}");
    assert!(tally[0] > 100 && tally[7] > 100 && tally[0] + tally[7] == tally.iter().sum::<usize>());
}

/// An accepted choice, but perhaps for the layers.
fn random_lists(random: &mut Random) -> Lists {
    let mut shape = random_shape(random);
    let (dead, helpers) = random.dead_and_helpers(shape);
    let s = batch_layers(dead.len());
    if !random.once_in(8) {
        shape.layers = (shape.layers / s).max(1) * s;
    }
    Lists { shape, dead, helpers }
}

/// Spoils shape or lists.
fn spoil_lists(random: &mut Random, lists: &mut Lists) {
    let n = lists.shape.n;
    match random.below(6) {
        0 => random.spoil_shape(&mut lists.shape),
        1 | 2 if !lists.dead.is_empty() => random.spoil_list(n, &mut lists.dead),
        3 | 4 if !lists.helpers.is_empty() => random.spoil_list(n, &mut lists.helpers),
        _ => {
            // Dead nodes and helpers overlap.
            if let (Some(dead), Some(helper)) = (lists.dead.first_mut(), lists.helpers.first()) {
                *dead = *helper;
            }
        }
    }
}

/// A node named that is not in its list.
fn spoil_name(random: &mut Random, lists: &Lists, name: &mut usize) {
    let helper = lists.helpers[0];
    let dead = lists.dead[0];
    *name = random.choose(&[helper, dead, lists.shape.n, usize::MAX, *name + (1 << 32), *name + 256]);
}

#[test]
fn helper_message() {
    try_cases(3000, &[0, 1, 2, 3, 4, 5], |random| {
        let mut lists = random_lists(random);
        let mut helper = random.choose(&lists.helpers);
        let mut new = random.choose(&lists.dead);
        let mut symbols = random.symbols(lists.shape.symbols());
        let mut length = lists.message_length();
        match random.below(10) {
            0 => spoil_name(random, &lists.clone(), &mut helper),
            1 => spoil_name(random, &lists.clone(), &mut new),
            2 => spoil_lists(random, &mut lists),
            3 => random.spoil_symbols(&mut symbols),
            4 => random.spoil_length(&mut length),
            5 => symbols.push(0),
            _ => {}
        }
        compare::helper_message(random, &lists, helper, new, &symbols, length)
    });
}

#[test]
fn first_step() {
    try_cases(2000, &[0, 1, 2, 3, 4, 5], |random| {
        let mut lists = random_lists(random);
        let mut new = random.choose(&lists.dead);
        let length = lists.message_length();
        let mut messages = random.symbols(lists.helpers.len() * length);
        let mut pairs_length = 2 * length;
        let mut sums_length = (lists.dead.len() - 1) * length;
        match random.below(12) {
            0 => spoil_name(random, &lists.clone(), &mut new),
            1 | 2 => spoil_lists(random, &mut lists),
            3 => random.spoil_symbols(&mut messages),
            4 => random.spoil_length(&mut pairs_length),
            5 => random.spoil_length(&mut sums_length),
            6 => drop(messages.pop()),
            _ => {}
        }
        compare::first_step(random, &lists, new, &messages, pairs_length, sums_length)
    });
}

/// Mostly small archives: what has to be right about a record is who stands in it.
fn arriving_lists(random: &mut Random) -> Lists {
    if random.once_in(8) {
        return random_lists(random);
    }
    let n = random.choose(&[3, 4, 5, 5, 6, 6, 7, 8]);
    let mut shape = Shape { n, k: random.between(1, n - 2), layers: random.between(1, 15) };
    let (dead, helpers) = random.dead_and_helpers(shape);
    if !random.once_in(8) {
        shape.layers = batch_layers(dead.len());
    }
    Lists { shape, dead, helpers }
}

/// A helper heard after any number of others, with any sums; then wrong in up to three ways.
#[test]
fn hear() {
    try_cases(10000, &[0, 1, 2, 3, 4, 5], |random| {
        let lists = arriving_lists(random);
        let mut call = random.heard(lists.clone());
        for _ in 0..random.below(3) {
            random.spoil_heard(&mut call);
        }
        match random.below(12) {
            0 => spoil_name(random, &lists, &mut call.helper),
            1 => spoil_name(random, &lists, &mut call.new),
            2 => spoil_lists(random, &mut call.lists),
            _ => {}
        }
        compare::hear(&call)
    });
}

/// All helpers heard, with any sums; then wrong in up to three ways.
#[test]
fn finish() {
    try_cases(10000, &[0, 1, 2, 3, 4, 5], |random| {
        let lists = arriving_lists(random);
        let mut call = random.finished(lists.clone());
        for _ in 0..random.below(3) {
            random.spoil_finished(&mut call);
        }
        match random.below(12) {
            0 => spoil_name(random, &lists, &mut call.new),
            1 | 2 => spoil_lists(random, &mut call.lists),
            _ => {}
        }
        compare::finish(random, &call)
    });
}

/// Messages of all helpers, in any order, from the first to finishing, with others between them.
#[test]
fn arrive() {
    try_cases(2000, &[0, 1, 2, 3, 4], |random| {
        let lists = arriving_lists(random);
        let mut arrival = random.arrival(lists.clone());
        match random.below(12) {
            0 => spoil_name(random, &lists, &mut arrival.new),
            1 => spoil_lists(random, &mut arrival.lists),
            _ => {}
        }
        compare::arrive(random, &arrival)
    });
}

#[test]
fn second_step() {
    try_cases(3000, &[0, 1, 2, 3, 4, 5], |random| {
        let mut lists = random_lists(random);
        let mut new = random.choose(&lists.dead);
        let length = lists.message_length();
        let mut pairs = random.symbols(2 * length);
        let mut received = random.symbols((lists.dead.len() - 1) * length);
        let mut symbols_length = lists.shape.symbols();
        match random.below(12) {
            0 => spoil_name(random, &lists.clone(), &mut new),
            1 | 2 => spoil_lists(random, &mut lists),
            3 => random.spoil_symbols(&mut pairs),
            4 => random.spoil_symbols(&mut received),
            5 => drop(pairs.pop()),
            6 => received.push(0),
            7 => random.spoil_length(&mut symbols_length),
            _ => {}
        }
        compare::second_step(random, &lists, new, &pairs, &received, symbols_length)
    });
}

#[test]
fn repair() {
    try_cases(1200, &[0, 1, 2, 3, 4, 5], |random| {
        let mut lists = random_lists(random);
        let (shape, h, size) = (lists.shape, lists.dead.len(), lists.shape.symbols());
        let mut nodes = if random.once_in(2) { random.codeword(shape) } else { random.symbols(shape.n * size) };
        // Only the helpers are looked at.
        for node in (0..shape.n).filter(|node| !lists.helpers.contains(node)) {
            nodes[node * size..(node + 1) * size].copy_from_slice(&random.garbage(size));
        }
        let mut wire_length = h * (shape.k + h) * lists.message_length();
        match random.below(10) {
            0 | 1 => spoil_lists(random, &mut lists),
            2 => random.spoil_symbols(&mut nodes[lists.helpers[0] * size..][..size]),
            3 => random.spoil_symbols(&mut nodes[lists.helpers[shape.k] * size..][..size]),
            4 => random.spoil_length(&mut wire_length),
            5 => nodes.push(0),
            _ => {}
        }
        compare::repair(random, &lists, &nodes, wire_length)
    });
}

fn random_header(random: &mut Random) -> Header {
    let shape = random_shape(random);
    let between = random.below(shape.capacity() + 1);
    let length = random.choose(&[0, 127, 128, shape.capacity(), between]);
    Header { shape, node: random.below(shape.n), length, hearing: random.hearing() }
}

#[test]
fn pack() {
    try_cases(4000, &[0, 1, 2, 4, 5, 6], |random| {
        let mut header = random_header(random);
        let size = header.shape.symbols();
        let capacity = header.shape.capacity();
        let mut symbols = random.symbols(size);
        let mut card_length = 15 + 2 * size;
        for _ in 0..random.below(3) {
            match random.below(9) {
                0 => random.spoil_shape(&mut header.shape),
                1 => header.node = random.choose(&[header.shape.n, usize::MAX, 1 << 32, (1 << 32) + 1, 256]),
                2 => header.length = random.choose(&[capacity + 1, usize::MAX, 1 << 32, 1 << 21]),
                3 => random.spoil_length(&mut card_length),
                4 => drop(symbols.pop()),
                5 => random.spoil_symbols(&mut symbols),
                6 => header.hearing = random.no_hearing(),
                _ => {}
            }
        }
        compare::pack(random, header, &symbols, card_length)
    });
}

/// A number written in a form that is not the shortest, or too long, or cut.
fn malformed(random: &mut Random) -> Vec<u8> {
    let forms: [&[u8]; 6] =
        [&[128, 0], &[129, 128, 0], &[129, 128, 128, 0], &[128, 128, 128, 128, 1], &[255, 255, 255, 255, 255], &[128]];
    random.choose(&forms).to_vec()
}

/// A card's numbers, with a leading 1 and hearing 0 now and then.
fn random_numbers(random: &mut Random, header: Header) -> Vec<usize> {
    let mut numbers = naive::card::header_numbers(header);
    if header.hearing == 0 && random.once_in(6) {
        numbers = [&[1], &numbers[..], &[0]].concat();
    }
    numbers.extend(random.symbols(header.shape.symbols()).into_iter().map(usize::from));
    numbers
}

/// A card that is made number by number, so that each can be wrong in its form or its value.
fn random_card(random: &mut Random, header: Header) -> Vec<u8> {
    let mut numbers = random_numbers(random, header);
    let count = numbers.len();
    let spoiled = |random: &mut Random| {
        let index = random.below(count);
        let near_front = random.below(12);
        random.choose(&[index, near_front, count - 1])
    };
    let mut malformed_at = None;
    match random.below(6) {
        0 => malformed_at = Some(spoiled(random)),
        1 => {
            let values =
                [0, 1, 15, 16, 257, 16383, 16384, 999_999, 1_000_000, 1 << 20, (1 << 21) - 1, 1 << 21, (1 << 28) - 1];
            numbers[spoiled(random)] = random.choose(&values);
        }
        2 => {
            malformed_at = Some(spoiled(random));
            numbers[spoiled(random)] = 257;
        }
        _ => {}
    }
    let mut card = Vec::new();
    for (index, &number) in numbers.iter().enumerate() {
        match malformed_at {
            Some(place) if place == index => card.extend(malformed(random)),
            _ => naive::card::put_number(&mut card, number),
        }
    }
    card
}

#[test]
fn unpack() {
    try_cases(4000, &[0, 1, 2, 4, 5, 6], |random| {
        let mut header = random_header(random);
        let mut symbols_length = header.shape.symbols();
        let mut header_length = 6;
        match random.below(12) {
            0 => header.node = header.shape.n,
            1 => header.length = header.shape.capacity() + 1,
            2 | 3 => random.spoil_length(&mut symbols_length),
            4 => header_length = random.choose(&[0, 5, 7]),
            5 => header.hearing = random.choose(&[1_000_000, 1 << 20, (1 << 21) - 1, 1 << 21, (1 << 28) - 1]),
            _ => {}
        }
        let mut card = random_card(random, header);
        match random.below(10) {
            0 => card.truncate(random.below(card.len())),
            1 => card.push(random.choose(&[0, 128])),
            2 => drop(card.pop()),
            _ => {}
        }
        compare::unpack(random, &card, symbols_length, header_length)
    });
}

/// A sample of each form: document 01's card for node 1 of its first archive, and the same with hearing number 700.
fn samples() -> [Vec<usize>; 2] {
    let symbols = [253, 247, 0, 0, 0, 0, 0, 0];
    [[&[3, 1, 1, 1, 2][..], &symbols].concat(), [&[1, 3, 1, 1, 1, 2, 700][..], &symbols].concat()]
}

fn numeral(number: usize) -> Vec<u8> {
    let mut bytes = Vec::new();
    naive::card::put_number(&mut bytes, number);
    bytes
}

/// Numbers at the ends of ranges and groups, and forms that are not read.
fn forms() -> Vec<Vec<u8>> {
    let ends = [0, 1, 2, 3, 4, 7, 8, 9, 14, 15, 16, 127, 128, 256, 257, 700, 16_383, 16_384, 999_999, 1_000_000];
    let groups = [(1 << 21) - 1, 1 << 21, (1 << 28) - 1, 1 << 28];
    let bad: [&[u8]; 7] =
        [&[], &[128], &[128, 0], &[129, 0], &[188, 133, 0], &[188, 133, 128, 0], &[188, 133, 128, 128, 0]];
    ends.into_iter().chain(groups).map(numeral).chain(bad.map(<[u8]>::to_vec)).collect()
}

/// Each number of a card's header, and its first and last symbol, in each form; and every two of the header's.
#[test]
fn header_numbers_replaced() {
    let mut random = Random::new(1);
    let mut tally = [0; 7];
    for sample in samples() {
        let header = sample.len() - 8;
        let pairs = (0..header).flat_map(|first| (first..header).map(move |second| (first, second)));
        for (first, second) in pairs.chain([(0, header), (0, sample.len() - 1), (header - 1, header)]) {
            for (form, form_too) in forms().iter().flat_map(|form| forms().into_iter().map(move |too| (form, too))) {
                let mut numbers: Vec<Vec<u8>> = sample.iter().map(|&number| numeral(number)).collect();
                numbers[first] = form.clone();
                numbers[second] = form_too;
                tally[compare::unpack(&mut random, &numbers.concat(), 8, 6)] += 1;
            }
        }
    }
    println!("numbers 0 to 6 came up {tally:?}");
    assert!([0, 1, 2, 4, 5, 6].iter().all(|&number: &usize| tally[number] > 0) && tally[3] == 0);
}

/// Cards of both forms, cut behind each byte, from none on.
#[test]
fn cards_cut_at_each_byte() {
    let mut tally = [0; 2];
    for seed in (1..=60).map(Seed) {
        let random = &mut Random::new(seed.0);
        let header = random.small_header();
        let size = header.shape.symbols();
        let card = naive::pack(header, &random.symbols(size), 15 + 2 * size).unwrap();
        assert_eq!(compare::unpack(random, &card, size, 6), 0);
        for length in 0..card.len() {
            assert_eq!(compare::unpack(random, &card[..length], size, 6), 6, "cut to {length} bytes");
        }
        tally[header.hearing.min(1)] += 1;
    }
    println!("{tally:?} cards without and with a hearing number");
    assert!(tally.iter().all(|&count| count > 15));
}

#[test]
fn plan() {
    try_cases(20000, &[0, 1, 2, 3, 4, 6], |random| {
        let mut lists = random_lists(random);
        if random.once_in(3) {
            spoil_lists(random, &mut lists);
        }
        let Lists { shape, dead, helpers } = lists;
        let mut input = Vec::new();
        let h = if random.once_in(10) { random.below(14) } else { dead.len() };
        for &number in [shape.n, shape.k, shape.layers, h].iter().chain(&dead).chain(&helpers) {
            naive::card::put_number(&mut input, number);
        }
        match random.below(8) {
            0 => drop(input.pop()),
            1 => input.push(random.choose(&[0, 128])),
            2 => {
                let at = random.below(input.len());
                input.splice(at..at + 1, malformed(random));
            }
            _ => {}
        }
        let text_length = if random.once_in(20) { hmsr::PLAN_TEXT - 1 } else { hmsr::PLAN_TEXT + random.below(9) };
        compare::plan(random, &input, text_length)
    });
}

#[test]
fn layers() {
    try_cases(20000, &[0, 1, 2, 11], |random| {
        let (mut shape, mut losses) = random.losses();
        if random.once_in(4) {
            random.spoil_losses(shape, &mut losses);
        }
        if random.once_in(8) {
            random.spoil_shape(&mut shape);
        }
        compare::layers(shape.n, shape.k, &losses)
    });
}

/// Every n and k, each with every set of the losses that they allow.
#[test]
fn layers_for_every_set_of_losses() {
    let mut tally = [0; 12];
    for (n, k) in (3..=14).flat_map(|n| (1..=n - 2).map(move |k| (n, k))) {
        for set in 0..1usize << (n - k - 1) {
            let losses: Vec<usize> = (1..n - k).filter(|h| set >> (h - 1) & 1 == 1).collect();
            tally[compare::layers(n, k, &losses)] += 1;
        }
    }
    println!("numbers 0 to 11 came up {tally:?}");
    // The sum of 2^(n-k-1) over all n and k; some layers serve each set, or none do.
    assert_eq!(tally[0] + tally[11], 16_356);
    assert!(tally[0] > 1000 && tally[11] > 1000);
}

/// Every n and k around their ranges and far beyond, with every list of up to two such numbers.
#[test]
fn layers_for_every_two_numbers() {
    let numbers = || (0..=16).chain([(1 << 32) + 2, 1 << 63, usize::MAX]);
    let pairs = || numbers().flat_map(|first| numbers().map(move |second| [first, second]));
    let mut tally = [0; 12];
    for [n, k] in pairs() {
        tally[compare::layers(n, k, &[])] += 1;
        for loss in numbers() {
            tally[compare::layers(n, k, &[loss])] += 1;
        }
        for losses in pairs() {
            tally[compare::layers(n, k, &losses)] += 1;
        }
    }
    println!("numbers 0 to 11 came up {tally:?}");
    assert!([0, 1, 2, 11].iter().all(|&number: &usize| tally[number] > 100));
}

/// Orders in which the transfers may run, right or wrong in up to two ways; then the rest of what the call is given.
#[test]
fn may_run() {
    try_cases(20000, &[0, 1, 2, 3, 4, 13], |random| {
        let mut lists = random.planned();
        let mut order = random.order(&lists);
        for _ in 0..random.below(3) {
            random.spoil_order(lists.shape, &mut order);
        }
        let mut numbers = naive::order::numbers(&order);
        match random.below(10) {
            0 => random.spoil_shape(&mut lists.shape),
            1 => spoil_lists(random, &mut lists),
            2 => drop(numbers.pop()),
            3 => numbers.insert(random.below(numbers.len() + 1), random.below(lists.shape.n)),
            _ => {}
        }
        compare::may_run(&lists, &numbers)
    });
}

/// A byte anywhere, in nodes that hold anything but at its place; then wrong in up to two ways.
#[test]
fn correct() {
    try_cases(20000, &[0, 1, 4, 5, 9, 12], |random| {
        let shape = random_shape(random);
        let mut correction = random.correction(shape);
        for _ in 0..random.below(3) {
            random.spoil_correction(shape, &mut correction);
        }
        compare::correct(&correction)
    });
}

/// Mostly small archives: what has to be right about a stretch is where its ends are.
fn stretched_shape(random: &mut Random) -> Shape {
    if random.once_in(6) {
        return random_shape(random);
    }
    let n = random.choose(&[3, 3, 4, 4, 5, 6]);
    Shape { n, k: random.between(1, n - 2), layers: random.choose(&[1, 1, 2, 3, 15]) }
}

/// Stretches that are accepted, or of which a byte is 256; then wrong in up to two ways.
#[test]
fn open_stretches() {
    try_cases(20000, &[0, 1, 2, 4, 5, 7, 9], |random| {
        let shape = stretched_shape(random);
        let mut wanted = random.wanted(shape);
        if random.once_in(8) {
            random.want_no_byte(&mut wanted);
        }
        for _ in 0..random.below(3) {
            random.spoil_wanted(shape, &mut wanted);
        }
        compare::open_stretches(random, &wanted)
    });
}

#[test]
fn open_stretches_from_every_list() {
    let mut tally = [0; 10];
    for (n, list) in every_list() {
        println!("{list:?} of {n} nodes");
        for seed in 1..=3 {
            let seed = Seed(seed);
            let random = &mut Random::new(seed.0);
            let shape = Shape { n, k: list.len(), layers: random.between(1, 3) };
            let mut wanted = random.wanted_from(shape, list.clone());
            if random.once_in(3) {
                random.want_no_byte(&mut wanted);
            }
            tally[compare::open_stretches(random, &wanted)] += 1;
        }
    }
    println!("numbers 0 to 9 came up {tally:?}");
    assert!(tally[0] > 100 && tally[7] > 100 && tally[0] + tally[7] == tally.iter().sum::<usize>());
}

/// The ends of the range of shapes, with fifteen layers: written, checked, restored, opened, whole and in stretches,
/// corrected, repaired, heard and finished, packed.
#[test]
fn largest_shapes() {
    let mut random = Random::new(1);
    for (n, k, dead_count) in [(14, 12, 1), (14, 7, 3), (12, 6, 5), (12, 1, 4), (3, 1, 1)] {
        let shape = Shape { n, k, layers: 15 };
        let (size, all) = (shape.symbols(), n * shape.symbols());
        let transcript = random.bytes(shape.capacity());
        assert_eq!(compare::write(&mut random, shape, &transcript, all), 0);
        let nodes = naive::write(shape, &transcript, all).unwrap();
        assert_eq!(compare::check(shape, &nodes), 0);
        let list = random.nodes(shape, k);
        let symbols = symbols_of(shape, &nodes, &list);
        assert_eq!(compare::restore(&mut random, shape, &list, &symbols, all), 0);
        assert_eq!(compare::open(&mut random, shape, &list, &symbols, transcript.len(), transcript.len()), 0);
        let wanted = random.wanted(shape);
        assert_eq!(compare::open_stretches(&mut random, &wanted), 0);
        for (byte, length) in [(0, 1), (size - 1, size), (shape.capacity() - 1, shape.capacity())] {
            let change = i64::from(random.bytes(1)[0]) - i64::from(transcript[byte]);
            let correction = Correction { shape, nodes: nodes.clone(), length, byte, change };
            assert_eq!(compare::correct(&correction), 0);
        }
        let dead = random.nodes(shape, dead_count);
        let living: Vec<usize> = (0..n).filter(|node| !dead.contains(node)).collect();
        let helpers = random.some_of(&living, k + 1);
        let wire_length = dead_count * (k + dead_count) * size / (dead_count + 1);
        let lists = Lists { shape, dead, helpers };
        assert_eq!(compare::repair(&mut random, &lists, &nodes, wire_length), 0);
        assert_eq!(compare::hear(&random.heard(lists.clone())), 0);
        let call = random.finished(lists);
        assert_eq!(compare::finish(&mut random, &call), 0);
        for hearing in [0, 999_999] {
            let header = Header { shape, node: n - 1, length: transcript.len(), hearing };
            assert_eq!(compare::pack(&mut random, header, &nodes[all - size..], 15 + 2 * size), 0);
            let card = naive::pack(header, &nodes[all - size..], 15 + 2 * size).unwrap();
            assert_eq!(compare::unpack(&mut random, &card, size, 6), 0);
        }
    }
}
