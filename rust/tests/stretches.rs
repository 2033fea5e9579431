//! The laws of document 02 §2, many stretches of a transcript in one reading, a test for each: bytes are held to the
//! transcripts that the naive archive wrote, and columns to the request's sentence, place by place.

#[path = "naive/compare.rs"]
mod compare;
mod naive;

use compare::{library, raw};
use hmsr::Refusal;
use naive::judge::Stretch;
use naive::random::{codeword_of, Random};
use naive::{Shape, Wanted};

/// Every n and k up to so many nodes.
fn sizes(most_nodes: usize) -> impl Iterator<Item = (usize, usize)> + Clone {
    (3..=most_nodes).flat_map(|n| (1..=n - 2).map(move |k| (n, k)))
}

/// Every rising list of k nodes.
fn lists(shape: Shape) -> Vec<Vec<usize>> {
    let sets = (0..1usize << shape.n).map(|set| (0..shape.n).filter(|node| set >> node & 1 == 1).collect::<Vec<_>>());
    sets.filter(|list| list.len() == shape.k).collect()
}

/// The last k nodes, of which as few as can be are data nodes.
fn last_nodes(shape: Shape) -> Vec<usize> {
    (shape.n - shape.k..shape.n).collect()
}

/// Nodes whose data nodes hold anything; the first so many of their symbols are bytes, the transcript.
struct Archive {
    shape: Shape,
    transcript: Vec<u8>,
    nodes: Vec<u16>,
}

impl Archive {
    fn write(random: &mut Random, shape: Shape, length: usize) -> Self {
        let transcript = random.bytes(length);
        let nodes = naive::write(shape, &transcript, shape.n * shape.symbols()).unwrap();
        Archive { shape, transcript, nodes }
    }

    /// Stretches of it, from these nodes, into buffers of the exact lengths.
    fn wanted(&self, list: &[usize], stretches: &[Stretch]) -> Wanted {
        let size = self.shape.symbols();
        let symbols = list.iter().flat_map(|&node| &self.nodes[node * size..(node + 1) * size]).copied().collect();
        Wanted {
            shape: self.shape,
            list: list.to_vec(),
            symbols,
            length: self.transcript.len(),
            numbers: stretches.iter().flat_map(|&(start, count)| [start, count]).collect(),
            bytes_length: stretches.iter().map(|&(_, count)| count).sum(),
            columns_length: size,
        }
    }

    /// "The bytes come out joined in the order given; a lent list of N entries afterwards holds each touched column one
    /// time, rising, then zeros, and the number returned is k times the count of touched columns."
    fn expected(&self, stretches: &[Stretch]) -> Made {
        let (size, is_in) =
            (self.shape.symbols(), |byte: usize, &(start, count): &Stretch| byte >= start && byte - start < count);
        let wanted = |byte: usize| stretches.iter().any(|stretch| is_in(byte, stretch));
        let is_touched = |place: &usize| (0..self.shape.k).any(|node| wanted(node * size + place));
        let mut columns: Vec<usize> = (0..size).filter(is_touched).collect();
        let number = 256 + self.shape.k * columns.len();
        columns.resize(size, 0);
        let bytes = stretches.iter().flat_map(|&(start, count)| &self.transcript[start..start + count]).copied();
        Made { number, bytes: bytes.collect(), columns }
    }

    /// Opens stretches from these nodes, and holds what comes out to the transcript.
    fn assert_opens(&self, list: &[usize], stretches: &[Stretch]) {
        let made = made(&self.wanted(list, stretches));
        assert!(made == self.expected(stretches), "{:?} from {list:?}: {stretches:?}, {made:?}", self.shape);
    }
}

/// What the C call returned, and what then stands in its buffers, where 9 stood before.
#[derive(Debug, PartialEq)]
struct Made {
    number: usize,
    bytes: Vec<u8>,
    columns: Vec<usize>,
}

fn made(wanted: &Wanted) -> Made {
    let Wanted { shape, list, symbols, length, numbers, bytes_length, columns_length } = wanted;
    let (mut bytes, mut columns) = (vec![9; *bytes_length], vec![9; *columns_length]);
    let number = raw::open_stretches(library(*shape), list, symbols, *length, numbers, &mut bytes, &mut columns);
    Made { number, bytes, columns }
}

/// The buffers are as they were.
fn refused(wanted: &Wanted, number: usize) -> Made {
    Made { number, bytes: vec![9; wanted.bytes_length], columns: vec![9; wanted.columns_length] }
}

fn assert_refused(wanted: &Wanted, number: usize) {
    let Wanted { shape, length, numbers, .. } = wanted;
    assert_eq!(made(wanted), refused(wanted, number), "{shape:?}, {length} bytes: {numbers:?}");
}

// ---- bytes and columns

/// Every stretch of a transcript of that length.
fn every_stretch(length: usize) -> Vec<Stretch> {
    (0..=length).flat_map(|start| (0..=length - start).map(move |count| (start, count))).collect()
}

/// Every stretch, from every k nodes, of whole archives and of shorter transcripts: of one node's bytes, across nodes
/// and layers, of more than N bytes, and whole, as opening gives it.
#[test]
fn every_stretch_of_small_archives() {
    let mut random = Random::new(1);
    let mut tried = 0;
    for (n, k, layers) in
        [(3, 1, 1), (3, 1, 3), (4, 1, 1), (4, 1, 2), (4, 2, 1), (4, 2, 2), (5, 1, 1), (5, 2, 1), (5, 3, 1)]
    {
        let shape = Shape { n, k, layers };
        for length in [shape.capacity(), shape.capacity() * 2 / 3] {
            let archive = Archive::write(&mut random, shape, length);
            for list in lists(shape) {
                let opened = library(shape).open_to_vec(&list, &archive.wanted(&list, &[]).symbols, length);
                assert_eq!(opened.as_ref(), Ok(&archive.transcript), "{shape:?} from {list:?}");
                for stretch in every_stretch(length) {
                    archive.assert_opens(&list, &[stretch]);
                    tried += 1;
                }
            }
        }
    }
    println!("{tried} stretches");
    assert!(tried > 100_000);
}

/// Every two stretches: apart, one behind the other, overlapping, within one another, and twice the same.
#[test]
fn every_two_stretches() {
    let mut random = Random::new(2);
    for (n, k, layers, length) in [(3, 1, 1, 8), (3, 1, 2, 10), (4, 2, 1, 18)] {
        let shape = Shape { n, k, layers };
        let archive = Archive::write(&mut random, shape, length);
        for first in every_stretch(length) {
            for second in every_stretch(length) {
                let list = random.nodes(shape, k);
                archive.assert_opens(&list, &[first, second]);
            }
        }
    }
}

/// Many stretches are what each alone gives: the bytes one behind the other, and a column where any has it.
#[test]
fn many_stretches_are_each_alone() {
    let mut random = Random::new(3);
    for (n, k) in sizes(7).cycle().take(300).chain([(12, 8), (14, 1), (14, 12)]) {
        let shape = Shape { n, k, layers: if n < 8 { 2 } else { 1 } };
        let wanted = random.wanted(shape);
        let mut joined = Made { number: 256, bytes: vec![], columns: vec![] };
        let mut touched = vec![false; shape.symbols()];
        for (start, count) in wanted.stretches() {
            let alone = made(&Wanted { numbers: vec![start, count], bytes_length: count, ..wanted.clone() });
            joined.bytes.extend(alone.bytes);
            alone.columns[..(alone.number - 256) / k].iter().for_each(|&column| touched[column] = true);
        }
        joined.columns = (0..touched.len()).filter(|&column| touched[column]).collect();
        joined.number += k * joined.columns.len();
        joined.columns.resize(touched.len(), 0);
        assert_eq!(made(&wanted), joined, "{shape:?}: {:?}", wanted.numbers);
    }
}

/// For every n and k, from check nodes and from data nodes: the whole transcript as one stretch; two bytes across the
/// end of each node and of each layer; and N bytes from anywhere, one less, one more, and twice as many.
#[test]
fn stretches_of_every_size_of_archive() {
    let mut random = Random::new(4);
    for (n, k) in sizes(14) {
        let shape = Shape { n, k, layers: if n < 9 { 3 } else { 1 } };
        let (size, width, length) = (shape.symbols(), shape.width(), shape.capacity() - random.below(2));
        let archive = Archive::write(&mut random, shape, length);
        let layers: Vec<Stretch> = (1..length / width).map(|layer| (layer * width - 1, 2)).collect();
        let nodes: Vec<Stretch> = (1..k).map(|node| (node * size - 1, 2)).collect();
        let counts = [size - 1, size, size + 1, 2 * size].map(|count| count.min(length));
        let around = counts.map(|count| (random.below(length - count + 1), count)).to_vec();
        for stretches in [vec![(0, length)], layers, nodes, around] {
            archive.assert_opens(&last_nodes(shape), &stretches);
            archive.assert_opens(&(0..k).collect::<Vec<_>>(), &stretches);
        }
    }
}

// ---- other columns

/// The handed-in symbols that may have an effect: those of touched columns, and none where nothing is opened.
fn looked_at(wanted: &Wanted, number: usize) -> Vec<usize> {
    match number {
        1 | 2 | 4 | 9 => vec![],
        _ => wanted.touched().into_iter().flat_map(|place| wanted.place_indices(place)).collect(),
    }
}

/// "Symbols in other columns have no effect on the result": whatever stands there, number, bytes and columns are the
/// same, also where the call is refused.
#[test]
fn symbols_in_other_columns_have_no_effect() {
    let mut random = Random::new(5);
    let mut tally = [0; 10];
    for (n, k) in sizes(6).cycle().take(4000) {
        let shape = Shape { n, k, layers: random.between(1, 3) };
        let mut wanted = random.wanted(shape);
        match random.below(4) {
            0 => random.want_no_byte(&mut wanted),
            1 | 2 => random.spoil_wanted(shape, &mut wanted),
            _ => {}
        }
        let before = made(&wanted);
        let number = if before.number < 256 { before.number } else { 0 };
        tally[number] += 1;
        let stay = looked_at(&wanted, number);
        let count = wanted.symbols.len();
        for others in [vec![65535; count], vec![0; count], random.garbage(count), random.symbols(count)] {
            let mut symbols = others;
            stay.iter().for_each(|&index| symbols[index] = wanted.symbols[index]);
            assert_eq!(made(&Wanted { symbols, ..wanted.clone() }), before, "{shape:?}: {:?}", wanted.numbers);
        }
    }
    println!("numbers 0 to 9 came up {tally:?}");
    assert!([0, 1, 2, 4, 5, 7, 9].iter().all(|&number: &usize| tally[number] > 20));
}

/// "Number 5 here looks only at touched columns": at each of the k symbols there, whichever node the byte stands on.
#[test]
fn any_symbol_above_256_in_a_touched_column_is_5() {
    let mut random = Random::new(6);
    let mut tried = 0;
    for (n, k) in sizes(6).cycle().take(100) {
        let shape = Shape { n, k, layers: random.between(1, 2) };
        let mut wanted = random.wanted(shape);
        let accepted = made(&wanted);
        let touched = looked_at(&wanted, 0);
        for index in 0..wanted.symbols.len() {
            let expected = if touched.contains(&index) { &refused(&wanted, 5) } else { &accepted };
            for high in [257, 65535] {
                let before = std::mem::replace(&mut wanted.symbols[index], high);
                assert_eq!(made(&wanted), *expected, "{shape:?}: {high} at {index}, {:?}", wanted.numbers);
                wanted.symbols[index] = before;
            }
        }
        tried += touched.len();
    }
    println!("{tried} symbols of touched columns");
    assert!(tried > 1000);
}

// ---- what is no byte

/// Stretches of an archive: at both ends, across its middle, with an empty one among them.
fn some_stretches(length: usize) -> Vec<Vec<Stretch>> {
    let middle = length / 2;
    vec![
        vec![(0, 1)],
        vec![(length - 1, 1)],
        vec![(middle - 1, 3), (middle, 0), (1, 2)],
        vec![(0, length)],
        vec![(1, 0)],
    ]
}

/// "And 7 only at wanted bytes": each data symbol in turn is 256, and all others are bytes. It is 7 exactly where that
/// one is wanted; not where it stands beside a wanted byte in a touched column, elsewhere, or beyond the length.
#[test]
fn a_data_symbol_256_is_7_where_it_is_wanted() {
    let mut random = Random::new(7);
    let mut tally = [0; 2];
    for (n, k, layers) in [(3, 1, 1), (4, 2, 1), (5, 2, 1), (5, 3, 1)] {
        let shape = Shape { n, k, layers };
        let capacity = shape.capacity();
        let bytes = random.bytes(capacity);
        for (high, length) in (0..capacity).flat_map(|high| [capacity, capacity * 3 / 4].map(|length| (high, length))) {
            let mut data: Vec<u16> = bytes.iter().map(|&byte| byte.into()).collect();
            data[high] = 256;
            let nodes = codeword_of(shape, &data);
            let archive = Archive { shape, transcript: bytes[..length].to_vec(), nodes };
            for (list, stretches) in
                lists(shape).iter().flat_map(|list| some_stretches(length).into_iter().map(move |s| (list, s)))
            {
                let wanted = archive.wanted(list, &stretches);
                let is_wanted = wanted.bytes().contains(&high);
                let expected = if is_wanted { refused(&wanted, 7) } else { archive.expected(&stretches) };
                assert_eq!(made(&wanted), expected, "{shape:?} from {list:?}: {stretches:?}, 256 at {high}");
                tally[usize::from(is_wanted)] += 1;
            }
        }
    }
    println!("{tally:?} symbols 256 were not wanted and were");
    assert!(tally.iter().all(|&count| count > 1000));
}

/// Symbols beyond the length, and 256 there, are not looked at as opening looks at them: it gives 7.
#[test]
fn what_stands_beyond_the_length_is_not_judged() {
    let mut random = Random::new(8);
    for (n, k) in sizes(8) {
        let shape = Shape { n, k, layers: 2 };
        let length = random.between(4, shape.capacity() - 1);
        let mut data = random.symbols(shape.capacity());
        data[..length].iter_mut().for_each(|symbol| *symbol %= 256);
        data[length] = random.choose(&[1, 255, 256]);
        let transcript = data[..length].iter().map(|&symbol| symbol as u8).collect();
        let archive = Archive { shape, transcript, nodes: codeword_of(shape, &data) };
        let list = random.nodes(shape, k);
        let opened = library(shape).open_to_vec(&list, &archive.wanted(&list, &[]).symbols, length);
        assert_eq!(opened, Err(Refusal::NoTranscript));
        some_stretches(length).iter().for_each(|stretches| archive.assert_opens(&list, stretches));
    }
}

// ---- how many, and where they end

/// "More than 64 stretches is 4": of bytes, empty ones, or both. So is an odd count of numbers, whatever the last is.
#[test]
fn sixty_four_stretches_and_no_more() {
    let mut random = Random::new(9);
    let shape = Shape { n: 5, k: 3, layers: 1 };
    let archive = Archive::write(&mut random, shape, 90);
    for count in 0..=70 {
        for most_bytes in [0, 1, 9] {
            let stretches: Vec<Stretch> =
                (0..count).map(|_| (random.below(80), random.below(most_bytes + 1))).collect();
            let list = random.nodes(shape, shape.k);
            let mut wanted = archive.wanted(&list, &stretches);
            if count > 64 {
                assert_refused(&wanted, 4);
            } else {
                archive.assert_opens(&list, &stretches);
            }
            wanted.numbers.push(random.choose(&[0, 1, 90, 91, usize::MAX]));
            assert_refused(&wanted, 4);
        }
    }
}

/// "9, a stretch ends past the transcript": every length, start and count around the ends, and far ones. An empty
/// stretch may start at the end, and no further. A length above k × N is 4, and so is a count for which no buffer is
/// there.
#[test]
fn every_length_start_and_count() {
    let mut random = Random::new(10);
    let far = [1 << 32, 1 << 63, usize::MAX - 1, usize::MAX];
    let mut tally = [0; 10];
    for (n, k, layers) in [(3, 1, 1), (3, 1, 2), (4, 2, 1)] {
        let shape = Shape { n, k, layers };
        let archive = Archive::write(&mut random, shape, shape.capacity());
        let around = || (0..=shape.capacity() + 2).chain(far);
        for (length, start) in around().flat_map(|length| around().map(move |start| (length, start))) {
            for count in [0, 1, 2, 7, shape.capacity()].into_iter().chain(far) {
                let bytes_length = if far.contains(&count) { 0 } else { count };
                let wanted = archive.wanted(&[n - 2, n - 1][..k], &[]);
                let wanted = Wanted { length, numbers: vec![start, count], bytes_length, ..wanted };
                let number = match () {
                    () if length > shape.capacity() || bytes_length != count => 4,
                    () if start as u128 + count as u128 > length as u128 => 9,
                    () => 0,
                };
                let expected = if number > 0 { refused(&wanted, number) } else { archive.expected(&[(start, count)]) };
                assert_eq!(made(&wanted), expected, "{shape:?}, {length} bytes: {count} from {start}");
                tally[number] += 1;
            }
        }
    }
    println!("numbers 0 to 9 came up {tally:?}");
    assert!([0, 4, 9].iter().all(|&number: &usize| tally[number] > 1000));
}

/// A stretch whose end wraps, in 64 bits or in fewer, to a number within the transcript ends past it.
#[test]
fn ends_that_wrap() {
    let mut random = Random::new(11);
    let shape = Shape { n: 4, k: 2, layers: 1 };
    let archive = Archive::write(&mut random, shape, 32);
    for bits in [8, 16, 31, 32, 33, 63, 64] {
        for (count, end) in (1..=32).flat_map(|count| (0..=32).map(move |end| (count, end))) {
            let start = (1u128 << bits).wrapping_add(end).wrapping_sub(count as u128) as usize;
            let mut wanted = archive.wanted(&last_nodes(shape), &[(0, count)]);
            wanted.numbers[0] = start;
            if bits < 64 || end < count as u128 {
                assert_refused(&wanted, 9);
            } else {
                archive.assert_opens(&last_nodes(shape), &[(start, count)]);
            }
        }
    }
}

/// Lengths whose sum wraps, in 64 bits or in fewer, to the buffer's length are 4, though some stretch ends past the
/// end.
#[test]
fn sums_that_wrap() {
    let mut random = Random::new(12);
    let shape = Shape { n: 4, k: 2, layers: 1 };
    let archive = Archive::write(&mut random, shape, 32);
    let equal = |bits| [1, 2, 3, 4, 5, 6].map(|log: u32| vec![1usize << (bits - log); 1 << log]);
    let sums = [8, 16, 31, 32, 33, 63, 64].into_iter().flat_map(equal);
    let others =
        [vec![usize::MAX, 1], vec![1, usize::MAX - 2, 2], [vec![usize::MAX; 63], vec![63]].concat(), vec![1 << 32]];
    for counts in sums.chain(others) {
        for bytes_length in [0, 1, 5, 32] {
            let mut wanted = archive.wanted(&last_nodes(shape), &[]);
            wanted.numbers = counts.iter().flat_map(|&count| [random.below(33), count]).collect();
            *wanted.numbers.last_mut().unwrap() += bytes_length;
            wanted.bytes_length = bytes_length;
            assert_refused(&wanted, 4);
        }
    }
}
