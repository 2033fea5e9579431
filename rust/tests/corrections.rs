//! The laws of document 02 §10, correcting one byte, a test for each: what a correction gives is held to what the naive
//! archive gives where it writes the corrected transcript afresh, and, on symbols that are no codeword, to the parity
//! equations.

#[path = "naive/compare.rs"]
mod compare;
mod naive;

use compare::library;
use hmsr::{Checked, Refusal};
use naive::code::point;
use naive::field::{power, MODULUS};
use naive::random::{codeword_of, Random};
use naive::{Correction, Shape};
use std::collections::BTreeMap;

/// Every n and k up to so many nodes.
fn sizes(most_nodes: usize) -> impl Iterator<Item = (usize, usize)> {
    (3..=most_nodes).flat_map(|n| (1..=n - 2).map(move |k| (n, k)))
}

/// The nodes after the library's correction. Where it is refused, the nodes that it was given are as they were.
fn corrected(correction: &Correction) -> Result<Vec<u16>, Refusal> {
    let Correction { shape, nodes: before, length, byte, change } = correction;
    let mut nodes = before.clone();
    let answer = library(*shape).correct(&mut nodes, *length, *byte, *change);
    assert!(answer.is_ok() || nodes == *before, "a refused correction changed the nodes");
    answer.map(|()| nodes)
}

/// First, middle and last place of the first and of the last data node: the ends of layers too.
fn some_bytes(shape: Shape) -> Vec<usize> {
    let (size, width) = (shape.symbols(), shape.width());
    let places = [0, width - 1, width % size, size / 2 + 1, size - 2, size - 1];
    let mut bytes: Vec<usize> = [0, shape.k - 1].into_iter().flat_map(|node| places.map(|p| node * size + p)).collect();
    bytes.sort_unstable();
    bytes.dedup();
    bytes
}

// ---- writing afresh

/// The archives of a random transcript that has each of these symbols in place of one byte. 256, which is no byte, stands
/// on the codeword that has the other bytes.
fn archives(random: &mut Random, shape: Shape, byte: usize, symbols: &[u16]) -> BTreeMap<i64, Vec<u16>> {
    let transcript = random.bytes(shape.capacity());
    let archive = |&symbol: &u16| {
        let mut data: Vec<u16> = transcript.iter().map(|&other| other.into()).collect();
        data[byte] = symbol;
        let bytes: Option<Vec<u8>> = data.iter().map(|&symbol| u8::try_from(symbol).ok()).collect();
        let written = bytes.map(|bytes| naive::write(shape, &bytes, shape.n * shape.symbols()).unwrap());
        (symbol.into(), written.unwrap_or_else(|| codeword_of(shape, &data)))
    };
    symbols.iter().map(archive).collect()
}

/// Every change from −300 to 300 of each of these archives: what stays within the ranges gives another of them, where that
/// is there, and everything else is 12. Gives how many were corrected and refused.
fn try_changes(shape: Shape, byte: usize, archives: &BTreeMap<i64, Vec<u16>>) -> [usize; 2] {
    let mut tally = [0; 2];
    for (symbol, nodes) in archives {
        let mut correction = Correction { shape, nodes: nodes.clone(), length: shape.capacity(), byte, change: 0 };
        for change in -300..=300 {
            correction.change = change;
            if (-255..=255).contains(&change) && (0..=255).contains(&(symbol + change)) {
                if let Some(afresh) = archives.get(&(symbol + change)) {
                    assert!(
                        corrected(&correction).as_ref() == Ok(afresh),
                        "{shape:?}, byte {byte}: {symbol} {change:+}"
                    );
                    tally[0] += 1;
                }
            } else {
                let answer = corrected(&correction).err();
                assert_eq!(answer, Some(Refusal::BadChange), "{shape:?}, byte {byte}: {symbol} {change:+}");
                tally[1] += 1;
            }
        }
    }
    tally
}

/// "The result equals writing the corrected transcript afresh .. 12, the change is outside its range or the data symbol
/// plus the change leaves 0 to 255": every symbol and every change.
#[test]
fn every_change_of_every_symbol() {
    let mut random = Random::new(1);
    let every: Vec<u16> = (0..=256).collect();
    for (n, k, layers) in [(3, 1, 1), (3, 1, 3), (4, 1, 1), (4, 2, 2), (5, 3, 2), (6, 2, 1)] {
        let shape = Shape { n, k, layers };
        for byte in some_bytes(shape) {
            let tally = try_changes(shape, byte, &archives(&mut random, shape, byte, &every));
            // From each of 256 bytes to each, and from 256 to all but 0; of 601 changes of 257 symbols.
            assert_eq!(tally, [256 * 256 + 255, 601 * 257 - 256 * 256 - 255]);
        }
    }
}

/// Symbols at the ends, in larger archives.
#[test]
fn changes_in_larger_archives() {
    let mut random = Random::new(1);
    let ends = [0, 1, 128, 254, 255, 256];
    for (n, k, layers) in
        [(7, 5, 15), (8, 1, 2), (9, 4, 1), (10, 8, 1), (12, 6, 1), (13, 1, 1), (14, 12, 1), (14, 7, 1)]
    {
        let shape = Shape { n, k, layers };
        let byte = random.choose(&some_bytes(shape));
        let [done, _] = try_changes(shape, byte, &archives(&mut random, shape, byte, &ends));
        assert_eq!(done, 5 * 5 + 4);
    }
}

/// A change that is a small one in its lower bits is 12 like any other, for every symbol; so are the ends of the range of
/// numbers.
#[test]
fn far_changes() {
    let shape = Shape { n: 3, k: 1, layers: 1 };
    let mut correction = Correction { shape, nodes: vec![7; 24], length: 8, byte: 5, change: 0 };
    let bits = [9, 10, 15, 16, 24, 31, 32, 33, 48, 62].map(|bit| 1i64 << bit);
    let middles = bits.into_iter().flat_map(|bit| [bit, -bit]).chain([257 << 8, -257 << 8, 257 << 32, -257 << 32]);
    let around: Vec<i64> = middles.flat_map(|middle| middle - 256..=middle + 256).collect();
    let ends = (i64::MIN..=i64::MIN + 512).chain(i64::MAX - 512..=i64::MAX);
    let far: Vec<i64> = around.into_iter().chain(ends).collect();
    for symbol in 0..=256 {
        correction.nodes[5] = symbol;
        for &change in far.iter().filter(|change| !(-255..=255).contains(*change)) {
            correction.change = change;
            assert_eq!(corrected(&correction), Err(Refusal::BadChange), "{symbol} changed by {change}");
        }
    }
}

/// Every byte of small archives, one after the other: a transcript becomes another, and what is there in between opens as
/// what is written by then.
#[test]
fn every_byte_corrected() {
    let mut random = Random::new(1);
    for (n, k, layers) in [(3, 1, 1), (3, 1, 15), (4, 1, 3), (4, 2, 2), (5, 3, 1), (6, 4, 1), (7, 2, 1)] {
        let shape = Shape { n, k, layers };
        let length = shape.capacity() - random.below(2);
        let (mut transcript, other) = (random.bytes(length), random.bytes(length));
        let mut order: Vec<usize> = (0..length).collect();
        random.shuffle(&mut order);
        let mut nodes = library(shape).write_to_nodes(&transcript).unwrap();
        for (turn, &byte) in order.iter().enumerate() {
            let change = i64::from(other[byte]) - i64::from(transcript[byte]);
            transcript[byte] = other[byte];
            library(shape).correct(&mut nodes, length, byte, change).unwrap();
            if turn % 16 == 0 {
                assert_holds(&mut random, shape, &nodes, &transcript);
            }
        }
        assert!(nodes == naive::write(shape, &other, shape.n * shape.symbols()).unwrap(), "{shape:?}");
    }
}

/// The nodes are sound, and the transcript opens from any k of them.
fn assert_holds(random: &mut Random, shape: Shape, nodes: &[u16], transcript: &[u8]) {
    assert_eq!(library(shape).check(nodes), Ok(Checked::Sound));
    let list = random.nodes(shape, shape.k);
    let symbols: Vec<u16> =
        list.iter().flat_map(|&node| &nodes[node * shape.symbols()..][..shape.symbols()]).copied().collect();
    assert_eq!(library(shape).open_to_vec(&list, &symbols, transcript.len()).as_deref(), Ok(transcript), "{shape:?}");
}

/// "A byte number not below the length is 9", and a length above k × N is 4: every length and byte number around these
/// ends.
#[test]
fn every_length_and_byte_number() {
    for (n, k, layers) in [(3, 1, 1), (3, 1, 2), (4, 2, 1)] {
        let shape = Shape { n, k, layers };
        let (capacity, all) = (shape.capacity(), shape.n * shape.symbols());
        let far = [all, 1 << 32, 1 << 63, usize::MAX];
        let mut tally = [0; 3];
        for length in (0..=capacity + 2).chain(far) {
            for byte in (0..=capacity + 2).chain(far) {
                let correction = Correction { shape, nodes: vec![1; all], length, byte, change: 1 };
                let (kind, expected) = match () {
                    () if length > capacity => (2, Some(Refusal::WrongLength)),
                    () if byte >= length => (1, Some(Refusal::PastEnd)),
                    () => (0, None),
                };
                assert_eq!(corrected(&correction).err(), expected, "{shape:?}, byte {byte} of {length}");
                tally[kind] += 1;
            }
        }
        let (lengths, bytes) = (capacity + 1, capacity + 7);
        assert_eq!(tally, [capacity * lengths / 2, lengths * bytes - capacity * lengths / 2, 6 * bytes]);
    }
}

// ---- any symbols

/// Corrections in nodes that hold no codeword, of every n and k, with some layers.
fn of_any_symbols(random: &mut Random) -> Vec<Correction> {
    let mut corrections = Vec::new();
    for (n, k) in sizes(14) {
        let layers = if n < 10 { random.between(1, 15) } else { 1 };
        for _ in 0..4 {
            corrections.push(random.correction(Shape { n, k, layers }));
        }
    }
    corrections
}

/// "At most r+1 symbols, one a node, differ: the byte's own and one in each check node", at the byte's place; exactly these
/// where the change is not 0, and none where it is.
#[test]
fn one_symbol_of_the_bytes_node_and_of_each_check_node_differs() {
    let mut random = Random::new(1);
    for mut correction in of_any_symbols(&mut random) {
        let Correction { shape, byte, .. } = correction;
        let (node, place) = correction.node_and_place();
        // 256 may be changed, but not by 0.
        correction.nodes[byte] = correction.nodes[byte].min(255);
        for change in [correction.change, 0] {
            correction.change = change;
            let after = corrected(&correction).unwrap();
            let differs = |&index: &usize| after[index] != correction.nodes[index];
            let differing: Vec<usize> = (0..after.len()).filter(differs).collect();
            let holders = [node].into_iter().chain(shape.k..shape.n);
            let expected: Vec<usize> = holders.map(|holder| holder * shape.symbols() + place).collect();
            assert_eq!(differing, if change == 0 { vec![] } else { expected }, "{shape:?}, byte {byte} {change:+}");
        }
    }
}

/// What the left side of each parity equation of the byte's place is, modulo 257, met or not.
fn left_sides(correction: &Correction, nodes: &[u16]) -> Vec<u32> {
    let Correction { shape, byte, .. } = *correction;
    let term = |t, (node, index): (usize, usize)| power(point(node, byte % shape.width()), t) * u32::from(nodes[index]);
    let side = |t| correction.place_indices().into_iter().enumerate().map(|symbol| term(t, symbol)).sum::<u32>();
    (0..shape.equations()).map(|t| side(t as u32) % MODULUS).collect()
}

/// A correction adds a codeword: on any symbols each equation is met afterwards, or off by as much, as it was before.
#[test]
fn the_parity_equations_are_as_far_off_as_before() {
    let mut unmet = 0;
    for correction in of_any_symbols(&mut Random::new(2)) {
        let before = left_sides(&correction, &correction.nodes);
        let after = left_sides(&correction, &corrected(&correction).unwrap());
        assert_eq!(after, before, "{:?}, byte {} {:+}", correction.shape, correction.byte, correction.change);
        unmet += before.iter().filter(|&&side| side != 0).count();
    }
    assert!(unmet > 1000, "{unmet} equations were unmet");
}

/// Correcting and correcting back leaves what was there, but for a data symbol 256, which is not gone back to; and two
/// corrections are one by the sum of their changes.
#[test]
fn corrections_add_up() {
    let mut random = Random::new(3);
    let mut tally = [0; 2];
    for correction in of_any_symbols(&mut random) {
        let before = correction.nodes.clone();
        let symbol = i64::from(before[correction.byte]);
        let by = |nodes: Vec<u16>, change| corrected(&Correction { nodes, change, ..correction.clone() });
        let after = by(before.clone(), correction.change).unwrap();
        let back = by(after.clone(), -correction.change);
        let expected = if symbol == 256 { Err(Refusal::BadChange) } else { Ok(before.clone()) };
        assert!(back == expected, "{:?}, byte {}: {symbol}", correction.shape, correction.byte);
        tally[usize::from(symbol == 256)] += 1;
        // 256 to 0 is out of range in one go.
        let further = random.between(usize::from(symbol == 256), 255) as i64 - symbol;
        let twice = by(after, further - correction.change).unwrap();
        assert!(by(before, further) == Ok(twice), "{:?}, byte {}: {symbol}", correction.shape, correction.byte);
    }
    println!("{tally:?} data symbols were bytes and were not");
    assert!(tally.iter().all(|&symbols| symbols > 10));
}

/// Corrections of two bytes, in either order, give what writing both afresh gives: they share a place, a node, or neither.
#[test]
fn corrections_of_two_bytes_in_either_order() {
    let mut random = Random::new(4);
    for (n, k) in sizes(9) {
        let shape = Shape { n, k, layers: 2 };
        let (size, transcript) = (shape.symbols(), random.bytes(shape.capacity()));
        let nodes = library(shape).write_to_nodes(&transcript).unwrap();
        let byte = random.below(transcript.len());
        let same_place = (byte + size) % transcript.len();
        let same_node = byte / size * size + (byte + 1 + random.below(size - 1)) % size;
        for other in [same_place, same_node, random.below(transcript.len())].into_iter().filter(|&other| other != byte)
        {
            let mut both = transcript.clone();
            [byte, other].into_iter().for_each(|byte| both[byte] = 255 - transcript[byte]);
            let afresh = naive::write(shape, &both, nodes.len()).unwrap();
            for order in [[byte, other], [other, byte]] {
                let mut nodes = nodes.clone();
                for byte in order {
                    let change = 255 - 2 * i64::from(transcript[byte]);
                    library(shape).correct(&mut nodes, transcript.len(), byte, change).unwrap();
                }
                assert!(nodes == afresh, "{shape:?}, bytes {order:?}");
            }
        }
    }
}

/// Symbols elsewhere than at the byte's place may be anything and stay as they are; at its place, one above 256 is 5 on
/// whichever node.
#[test]
fn symbols_elsewhere_are_not_looked_at() {
    let mut random = Random::new(5);
    for (n, k) in sizes(8) {
        let shape = Shape { n, k, layers: 2 };
        let mut correction = random.correction(shape);
        let at_place = correction.place_indices();
        let elsewhere = |index: usize| !at_place.contains(&index);
        (0..correction.nodes.len()).filter(|&i| elsewhere(i)).for_each(|i| correction.nodes[i] = 65535);
        let after = corrected(&correction).unwrap();
        assert!((0..after.len()).all(|index| (after[index] == 65535) == elsewhere(index)), "{shape:?}");
        for (&index, high) in at_place.iter().flat_map(|index| [257, 512, 65535].map(|high| (index, high))) {
            let before = std::mem::replace(&mut correction.nodes[index], high);
            assert_eq!(corrected(&correction), Err(Refusal::BadSymbol), "{shape:?}, {high} at {index}");
            correction.nodes[index] = before;
        }
    }
}

// ---- the factor

/// By how much the check nodes' symbols of the byte's place move, modulo 257.
fn moved(correction: &Correction) -> Vec<u32> {
    let after = corrected(correction).unwrap();
    let by = |index: usize| (u32::from(after[index]) + MODULUS - u32::from(correction.nodes[index])) % MODULUS;
    correction.place_indices()[correction.shape.k..].iter().map(|&index| by(index)).collect()
}

/// "By the change times a factor that depends only on shape, the byte's node and place, and the check node": not on what
/// the nodes hold, on the length, or on the change; nor on the layer. No factor is 0.
#[test]
fn the_factor_depends_on_shape_node_place_and_check_node_alone() {
    let mut random = Random::new(6);
    for (n, k) in sizes(10) {
        let shape = Shape { n, k, layers: 2 };
        let byte = random.below(k) * shape.symbols() + random.below(shape.width());
        let other_layer = byte + shape.width();
        let zeros = vec![0; shape.n * shape.symbols()];
        let factors = moved(&Correction { shape, nodes: zeros, length: byte + 1, byte, change: 1 });
        assert!(factors.iter().all(|&factor| factor != 0), "{shape:?}, byte {byte}");
        for change in [1, 2, 100, 255, -1, -2, -100, -255] {
            let residue = |factor: &u32| (change * i64::from(*factor)).rem_euclid(MODULUS.into()) as u32;
            let expected: Vec<u32> = factors.iter().map(residue).collect();
            for byte in [byte, other_layer] {
                let length = random.between(byte + 1, shape.capacity());
                let mut nodes = random.symbols(shape.n * shape.symbols());
                nodes[byte] = random.between(0.max(-change) as usize, 255.min(255 - change) as usize) as u16;
                let correction = Correction { shape, nodes, length, byte, change };
                assert_eq!(moved(&correction), expected, "{shape:?}, byte {byte} {change:+}");
            }
        }
    }
}

/// The factors of every data node and place of small shapes, and of all n and k at some places, are what the parity
/// equations ask of the check nodes where that data symbol is 1 and the others are 0.
#[test]
fn the_factor_is_what_the_equations_ask_for() {
    let mut random = Random::new(7);
    let small = sizes(7).flat_map(|(n, k)| (0..k << n).map(move |byte| (n, k, byte)));
    let large = sizes(14).flat_map(|(n, k)| [0, 1 << (n - 1), (k << n) - 1].map(|byte| (n, k, byte)));
    for (n, k, byte) in small.chain(large) {
        let shape = Shape { n, k, layers: 1 };
        let nodes = vec![0; n << n];
        let correction = Correction { shape, nodes, length: random.between(byte + 1, k << n), byte, change: 1 };
        let (node, place) = correction.node_and_place();
        assert_eq!(moved(&correction), naive::correct::factors(shape, node, place), "{shape:?}, byte {byte}");
    }
}
