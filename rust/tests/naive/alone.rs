//! The naive implementation checked on its own: the samples of document 01, a card with a hearing number, lists of
//! losses, stretches, messages in the order they arrive, corrections and orders of transfers (document 02), the parity
//! equations by their definition, transcripts opened from any nodes, whole and in stretches, and corrected, and repairs,
//! whole and one transfer after the other.

use super::naive::card::{put_number, take_number};
use super::naive::code::point;
use super::naive::correct::{changes, factors};
use super::naive::field::{power, MODULUS, POINTS};
use super::naive::order::{numbers, run};
use super::naive::random::Random;
use super::naive::repair::Repair;
use super::naive::*;

const SMALL: Shape = Shape { n: 3, k: 1, layers: 1 };

fn first_archive() -> Vec<u16> {
    write(SMALL, &[3, 6], 24).unwrap()
}

#[test]
fn points_are_powers_of_three() {
    for (i, &p) in POINTS.iter().enumerate() {
        assert_eq!(p, power(3, i as u32));
    }
}

#[test]
fn sample_archives() {
    let nodes = first_archive();
    assert_eq!(nodes[8..16], [253, 247, 0, 0, 0, 0, 0, 0]);
    assert_eq!(nodes[16..24], [1, 4, 0, 0, 0, 0, 0, 0]);
    let nodes = write(SMALL, &[0, 0, 0, 6], 24).unwrap();
    assert_eq!((nodes[8 + 3], nodes[16 + 3]), (252, 256));
}

#[test]
fn sample_repair() {
    let nodes = first_archive();
    let (repaired, wire) = repair(SMALL, &[0], &[1, 2], &nodes, 8).unwrap();
    assert_eq!(wire, [243, 0, 0, 0, 5, 0, 0, 0]);
    assert_eq!(repaired, nodes);
}

#[test]
fn sample_classes() {
    let shape = Shape { n: 5, k: 1, layers: 1 };
    let repair = Repair::judged(shape, &[0, 1, 2], &[3, 4]).unwrap();
    let classes: Vec<usize> = (0..8).map(|a| repair.class(a)).collect();
    assert_eq!(classes, [0, 1, 2, 3, 3, 2, 1, 0]);
}

#[test]
fn sample_ranks() {
    let shape = Shape { n: 7, k: 1, layers: 3 };
    let repair = Repair::judged(shape, &[0, 1, 2, 3, 4], &[5, 6]).unwrap();
    let table: Vec<(usize, usize)> = (0..5).map(|rank| repair.class_and_partner(rank)).collect();
    assert_eq!(table, [(0, 0), (0, 1), (0, 2), (1, 1), (1, 2)]);
}

const OLD_CARD: [u8; 15] = [3, 1, 1, 1, 2, 253, 1, 247, 1, 0, 0, 0, 0, 0, 0];

#[test]
fn sample_card() {
    let header = Header { shape: SMALL, node: 1, length: 2, hearing: 0 };
    let symbols = &first_archive()[8..16];
    let card = pack(header, symbols, 31).unwrap();
    assert_eq!(card, OLD_CARD);
    assert_eq!(unpack(&card, 8), Ok((header, symbols.to_vec())));
}

/// The same card with hearing number 700, by hand: 700 is 5 × 128 + 60 (document 02 §9).
#[test]
fn sample_card_with_a_hearing_number() {
    let header = Header { shape: SMALL, node: 1, length: 2, hearing: 700 };
    let symbols = &first_archive()[8..16];
    let card = pack(header, symbols, 31).unwrap();
    assert_eq!(card, [1, 3, 1, 1, 1, 2, 188, 5, 253, 1, 247, 1, 0, 0, 0, 0, 0, 0]);
    assert_eq!(unpack(&card, 8), Ok((header, symbols.to_vec())));
    let with_hearing = |hearing: &[u8]| [&[1], &OLD_CARD[..5], hearing, &OLD_CARD[5..]].concat();
    assert_eq!(unpack(&with_hearing(&[0]), 8), Err(6));
    assert_eq!(unpack(&with_hearing(&[191, 132, 61]), 8).map(|(header, _)| header.hearing), Ok(999_999));
    assert_eq!(unpack(&with_hearing(&[192, 132, 61]), 8), Err(6));
    assert_eq!(pack(Header { hearing: 1_000_000, ..header }, symbols, 31), Err(6));
}

/// The reader and the writer of before document 02 §9.
#[test]
fn sample_cards_before() {
    let header = Header { shape: SMALL, node: 1, length: 2, hearing: 0 };
    let symbols = first_archive()[8..16].to_vec();
    assert_eq!(pack_before(header, &symbols, 31), Ok(OLD_CARD.to_vec()));
    assert_eq!(unpack_before(&OLD_CARD, 8), Ok((header, symbols.clone())));
    let card = pack(Header { hearing: 700, ..header }, &symbols, 31).unwrap();
    assert_eq!(unpack_before(&card, 8), Err(1));
}

#[test]
fn sample_numbers() {
    for (number, bytes) in [(127, vec![127]), (128, vec![128, 1]), (256, vec![128, 2])] {
        let mut written = Vec::new();
        put_number(&mut written, number);
        assert_eq!(written, bytes);
        assert_eq!(take_number(&mut &bytes[..]), Ok(number));
    }
    let card = |symbol: [u8; 2]| [&[3, 1, 1, 1, 2], &symbol[..], &[0; 7]].concat();
    assert_eq!(unpack(&card([129, 2]), 8), Err(5));
    assert_eq!(unpack(&card([128, 0]), 8), Err(6));
}

#[test]
fn sample_plan() {
    let text = "4 1 3 2\n2 0 16\n3 0 16\n2 1 16\n3 1 16\n1 0 16\n0 1 16\n96\n";
    assert_eq!(plan(&[4, 1, 3, 2, 0, 1, 2, 3]), text);
}

#[test]
fn sample_refusals() {
    assert_eq!(repair(SMALL, &[0, 1], &[1, 2], &[], 0), Err(2));
    let (n, k) = (4, 1);
    let one = Shape { n, k, layers: 1 };
    let three = Shape { n, k, layers: 3 };
    assert_eq!(repair(one, &[0, 1], &[2, 3], &[0; 64], 0), Err(3));
    assert!(repair(three, &[0, 1], &[2, 3], &[0; 192], 96).is_ok());
    let mut node = [0; 8];
    node[0] = 87;
    assert_eq!(open(SMALL, &[1], &node, 1, 1), Err(7));
}

/// "2 and 4 give 15, the empty list gives 1, repeats change nothing. A value outside 1 to n−k−1 is 2 .. (2 and 6 need
/// 21)" (document 02 §6).
#[test]
fn sample_losses() {
    assert_eq!(layers(12, 6, &[2, 4]), Ok(15));
    assert_eq!(layers(12, 6, &[4, 2, 2, 4, 4]), Ok(15));
    assert_eq!(layers(12, 6, &[]), Ok(1));
    assert_eq!(layers(12, 5, &[2, 6]), Err(11));
    assert_eq!(layers(4, 1, &[3]), Err(2));
    assert_eq!(layers(12, 6, &[2, 6]), Err(2));
    assert_eq!(layers(2, 1, &[]), Err(1));
    assert_eq!(layers(14, 13, &[0]), Err(1));
    let alone: Vec<usize> = (1..=12).map(|h| layers(14, 1, &[h]).unwrap()).collect();
    assert_eq!(alone, [1, 3, 1, 5, 3, 7, 1, 9, 5, 11, 3, 13]);
}

/// The first archive corrected (document 02 §10). By hand, the factors of place 0, and of a = 0 in another layer, are 170
/// and 86: 1 + 170 + 86 and 1 + 3 × 170 + 9 × 86 are multiples of 257. Those of place 1, where node 0's point is 256, are
/// 84 and 172.
#[test]
fn sample_corrections() {
    assert_eq!((factors(SMALL, 0, 0), factors(SMALL, 0, 1)), (vec![170, 86], vec![84, 172]));
    assert_eq!(factors(Shape { layers: 2, ..SMALL }, 0, 8), [170, 86]);
    let with = |byte, change| Correction { shape: SMALL, nodes: first_archive(), length: 2, byte, change };
    assert_eq!(changes(&with(0, 1)), Ok(vec![(0, 3 + 1), (8, 253 + 170 - 257), (16, 1 + 86)]));
    assert_eq!(changes(&with(1, -1)), Ok(vec![(1, 6 - 1), (9, 247 - 84), (17, 4 + 257 - 172)]));
    assert_eq!(correct(&with(1, -3)), write(SMALL, &[3, 3], 24));
    assert_eq!(correct(&with(1, 0)), Ok(first_archive()));
    for (byte, change, number) in [(2, 0, 9), (usize::MAX, 256, 9), (1, -7, 12), (1, 250, 12), (0, i64::MIN, 12)] {
        assert_eq!(correct(&with(byte, change)), Err(number));
    }
    let mut high = with(1, i64::MAX);
    high.nodes[2..9].fill(65535);
    assert_eq!(correct(&high), Err(12));
    high.nodes[9] = 257;
    assert_eq!(correct(&high), Err(5));
    assert_eq!(correct(&Correction { byte: 2, ..high.clone() }), Err(9));
    assert_eq!(correct(&Correction { length: 9, byte: 9, ..high.clone() }), Err(4));
    assert_eq!(correct(&Correction { shape: Shape { layers: 0, ..SMALL }, length: 9, ..high }), Err(1));
}

/// 256 is no byte, but may be corrected to one, and not by nothing.
#[test]
fn sample_corrections_of_256() {
    let nodes = random::codeword_of(SMALL, &[256, 0, 0, 0, 0, 0, 0, 0]);
    let by = |change| correct(&Correction { shape: SMALL, nodes: nodes.clone(), length: 1, byte: 0, change });
    assert_eq!(by(-1), write(SMALL, &[255], 24));
    assert_eq!(by(-255), write(SMALL, &[1], 24));
    assert_eq!([by(0), by(-256), by(1)], [Err(12), Err(12), Err(12)]);
}

/// Stretches of that length from one node of the first archive.
fn of_first(node: usize, length: usize, numbers: &[usize], bytes_length: usize) -> Wanted {
    let symbols = first_archive()[8 * node..][..8].to_vec();
    let (list, numbers) = (vec![node], numbers.to_vec());
    Wanted { shape: SMALL, list, symbols, length, numbers, bytes_length, columns_length: 8 }
}

/// The first archive's bytes 3 6 in stretches (document 02 §2), by hand.
#[test]
fn sample_stretches() {
    let opened = |bytes: &[u8], columns: [usize; 8], number| {
        Ok(Opened { bytes: bytes.to_vec(), columns: columns.to_vec(), number })
    };
    for node in 0..3 {
        let open = |numbers: &[usize], bytes_length| open_stretches(&of_first(node, 2, numbers, bytes_length));
        assert_eq!(open(&[1, 1, 0, 2, 2, 0], 3), opened(&[6, 3, 6], [0, 1, 0, 0, 0, 0, 0, 0], 2));
        assert_eq!(open(&[1, 1], 1), opened(&[6], [1, 0, 0, 0, 0, 0, 0, 0], 1));
        assert_eq!(open(&[], 0), opened(&[], [0; 8], 0));
        assert_eq!(open(&[2, 0].repeat(64), 0), opened(&[], [0; 8], 0));
        assert_eq!(open(&[2, 0].repeat(65), 0), Err(4));
        for (numbers, bytes_length, number) in [
            (&[0, 2, 0][..], 2, 4),
            (&[0, 2], 1, 4),
            (&[0, 2], 3, 4),
            (&[0, 1 << 63, 0, 1 << 63], 0, 4),
            (&[1, 2], 2, 9),
            (&[3, 0], 0, 9),
            (&[usize::MAX, 2], 2, 9),
        ] {
            assert_eq!(open(numbers, bytes_length), Err(number), "{numbers:?}");
        }
        let far = of_first(node, 2, &[0, 1 << 63, 0, 1 << 63], 0);
        assert_eq!(open_stretches_anew(&far), Err(9));
        assert_eq!(open_stretches(&of_first(node, 9, &[3, 9], 9)), Err(4));
        assert_eq!(open_stretches(&Wanted { list: vec![3], ..of_first(node, 9, &[3, 9], 9) }), Err(2));
        let no_shape = Shape { layers: 0, ..SMALL };
        assert_eq!(open_stretches(&Wanted { shape: no_shape, list: vec![3], ..of_first(node, 9, &[3], 9) }), Err(1));
    }
}

/// What is looked at: "node 1 holding 87" at place 0 is a data symbol 256 there.
#[test]
fn sample_stretches_look_at_touched_columns_and_wanted_bytes() {
    let with = |numbers: &[usize], bytes_length, first| {
        let mut wanted = of_first(1, 2, numbers, bytes_length);
        wanted.symbols[2..].fill(65535);
        wanted.symbols[0] = first;
        open_stretches(&wanted).map(|opened| opened.bytes)
    };
    assert_eq!(with(&[0, 2], 2, 87), Err(7));
    assert_eq!(with(&[1, 1], 1, 87), Ok(vec![6]));
    assert_eq!(with(&[0, 2], 2, 257), Err(5));
    assert_eq!(with(&[1, 1], 1, 257), Ok(vec![6]));
    assert_eq!(with(&[1, 1, 0, 0], 1, 257), Ok(vec![6]));
    assert_eq!(with(&[0, 3], 3, 257), Err(9));
}

/// The first archive, node 0 dead, helpers 1 and 2, which send 243 0 0 0 and 5 0 0 0 (document 02 §8). By hand: at a = 0
/// their points are 3 and 9, so that the sums of the first sum are 5 and 45 with helper 2 alone, and 248 and 3 with both.
/// The new node's points are 1 and 256, so its first pair is 3 6.
#[test]
fn sample_arrivals() {
    let lists = Lists { shape: SMALL, dead: vec![0], helpers: vec![1, 2] };
    let hear = |kept: &Kept, helper, first| {
        let (lists, message, kept) = (lists.clone(), vec![first, 0, 0, 0], kept.clone());
        hear(&Heard { lists, new: 0, helper, message, kept })
    };
    let kept =
        |first: [u16; 2], record: [usize; 3]| Kept { sums: [&first[..], &[0; 6]].concat(), record: record.to_vec() };
    let nobody = Kept::begun(&lists);
    assert_eq!(nobody, kept([0, 0], [0, 0, 0]));
    let after_2 = hear(&nobody, 2, 5).unwrap();
    assert_eq!(after_2, kept([5, 45], [1, 2, 0]));
    let after_1 = hear(&nobody, 1, 243).unwrap();
    assert_eq!(
        (hear(&after_2, 1, 243), hear(&after_1, 2, 5)),
        (Ok(kept([248, 3], [2, 2, 1])), Ok(kept([248, 3], [2, 1, 2])))
    );
    let finish = |kept: &Kept| {
        let (lists, kept) = (lists.clone(), kept.clone());
        finish(&Finished { lists, new: 0, kept, pairs_length: 8, exchanges_length: 0 })
    };
    assert_eq!(finish(&kept([248, 3], [2, 2, 1])), Ok((vec![3, 6, 0, 0, 0, 0, 0, 0], vec![])));
    assert_eq!((finish(&nobody), finish(&after_2)), (Err(4), Err(4)));
    // Heard twice, and not in the list.
    assert_eq!((hear(&after_2, 2, 5), hear(&after_2, 0, 5), hear(&after_2, 3, 5)), (Err(2), Err(2), Err(2)));
    assert_eq!((hear(&after_2, 1, 257), hear(&kept([5, 257], [1, 2, 0]), 1, 243)), (Err(5), Err(5)));
    assert_eq!(finish(&kept([248, 257], [2, 2, 1])), Err(5));
}

/// Records that are not as they should be, in hearing and in finishing; behind the count anything may stand.
#[test]
fn sample_records() {
    let lists = Lists { shape: SMALL, dead: vec![0], helpers: vec![1, 2] };
    for (record, heard, finished) in [
        (vec![0, 1, 1], Ok(()), Err(4)),
        (vec![1, 2, usize::MAX], Ok(()), Err(4)),
        (vec![1, 1, 0], Err(2), Err(4)),
        (vec![2, 2, 1], Err(2), Ok(())),
        (vec![2, 2, 2], Err(2), Err(2)),
        (vec![1, 0, 0], Err(2), Err(2)),
        (vec![1, 3, 0], Err(2), Err(2)),
        (vec![3, 2, 1], Err(2), Err(2)),
        (vec![usize::MAX, 2, 1], Err(2), Err(2)),
        (vec![2, 2], Err(4), Err(4)),
        (vec![2, 1], Err(2), Err(4)),
        (vec![2, 0], Err(2), Err(2)),
        (vec![2], Err(4), Err(4)),
        (vec![3], Err(2), Err(2)),
        (vec![], Err(4), Err(4)),
        (vec![1, 2, 0, 0], Err(4), Err(4)),
        (vec![2, 2, 1, 0], Err(2), Err(4)),
    ] {
        let kept = Kept { sums: vec![256; 8], record };
        let message = vec![256; 4];
        let answer = hear(&Heard { lists: lists.clone(), new: 0, helper: 1, message, kept: kept.clone() });
        assert_eq!(answer.map(drop), heard, "{:?}", kept.record);
        let call = Finished { lists: lists.clone(), new: 0, kept, pairs_length: 8, exchanges_length: 0 };
        assert_eq!(finish(&call).map(drop), finished, "{:?}", call.kept.record);
    }
}

/// Document 01's plan (n = 4, k = 1, L = 3, nodes 0 and 1 dead, helpers 2 and 3) in its own order and in others, by hand
/// (document 02 §12).
#[test]
fn sample_orders() {
    let shape = Shape { n: 4, k: 1, layers: 3 };
    let lists = Lists { shape, dead: vec![0, 1], helpers: vec![2, 3] };
    assert_eq!(lists.transfers(), [(2, 0), (3, 0), (2, 1), (3, 1), (1, 0), (0, 1)]);
    assert_eq!(may_run(&lists, &[2, 0, 3, 0, 2, 1, 3, 1, 1, 0, 0, 1]), Ok(()));
    // Node 1 has both messages when it sends, though node 0 has none.
    assert_eq!(may_run(&lists, &[3, 1, 2, 1, 1, 0, 2, 0, 3, 0, 0, 1]), Ok(()));
    // It sends before helper 3 has.
    assert_eq!(may_run(&lists, &[2, 1, 1, 0, 3, 1, 2, 0, 3, 0, 0, 1]), Err(13));
    // A transfer is missing, doubled, or none of the plan's.
    assert_eq!(may_run(&lists, &[2, 0, 3, 0, 2, 1, 3, 1, 1, 0]), Err(13));
    assert_eq!(may_run(&lists, &[2, 0, 3, 0, 2, 1, 3, 1, 1, 0, 0, 1, 2, 0]), Err(13));
    assert_eq!(may_run(&lists, &[2, 0, 3, 0, 2, 1, 3, 1, 1, 0, 0, 1, 9, 0]), Err(13));
    assert_eq!(may_run(&lists, &[]), Err(13));
    assert_eq!(may_run(&lists, &[2, 0, 3, 0, 2, 1, 3, 1, 1, 0, 0, 1, 2]), Err(4));
    let with_layers = |layers| Lists { shape: Shape { layers, ..shape }, ..lists.clone() };
    assert_eq!(may_run(&with_layers(2), &[2]), Err(3));
    assert_eq!(may_run(&Lists { dead: vec![0, 2], ..with_layers(2) }, &[2]), Err(2));
    assert_eq!(may_run(&Lists { dead: vec![0, 2], ..with_layers(0) }, &[2]), Err(1));
}

#[test]
fn empty_transcript() {
    assert_eq!(write(SMALL, &[], 24), Ok(vec![0; 24]));
    assert_eq!(open(SMALL, &[2], &[0; 8], 0, 0), Ok(vec![]));
}

/// "For every layer, every a and every t from 0 to r−1, the sum over the nodes of point^t × symbol
/// is 0", word by word.
fn is_codeword(shape: Shape, nodes: &[u16]) -> bool {
    (0..shape.symbols()).all(|place| {
        (0..shape.equations()).all(|t| {
            let a = place % shape.width();
            let term = |i| power(point(i, a), t as u32) * u32::from(nodes[i * shape.symbols() + place]);
            (0..shape.n).map(term).sum::<u32>() % MODULUS == 0
        })
    })
}

#[test]
fn written_is_a_codeword_and_opens_from_any_nodes() {
    let mut random = Random::new(1);
    for _ in 0..60 {
        let shape = random.shape(6000);
        let length = random.between(0, shape.capacity());
        let transcript = random.bytes(length);
        let size = shape.symbols();
        let nodes = write(shape, &transcript, shape.n * size).unwrap();
        assert!(is_codeword(shape, &nodes));
        assert_eq!(check(shape, &nodes), Ok(None));
        let list = random.nodes(shape, shape.k);
        let symbols: Vec<u16> =
            (list.iter()).flat_map(|&node| nodes[node * size..(node + 1) * size].to_vec()).collect();
        assert_eq!(restore(shape, &list, &symbols, nodes.len()), Ok(nodes));
        assert_eq!(open(shape, &list, &symbols, length, length).as_ref(), Ok(&transcript));
        let (start, end) = (random.below(length + 1), random.below(length + 1));
        let (start, end) = (start.min(end), start.max(end));
        let numbers = vec![start, end - start, 0, start];
        let wanted = Wanted { shape, list, symbols, length, numbers, bytes_length: end, columns_length: size };
        let opened = open_stretches(&wanted).unwrap();
        assert_eq!(opened.bytes, [&transcript[start..end], &transcript[..start]].concat());
        assert_eq!(opened.number, shape.k * end.min(size));
    }
}

/// "If the archive was written from a transcript of that length, the result equals writing the corrected transcript
/// afresh" (document 02 §10).
#[test]
fn corrected_is_written_afresh() {
    let mut random = Random::new(4);
    for _ in 0..60 {
        let shape = random.shape(6000);
        let length = random.between(1, shape.capacity());
        let mut transcript = random.bytes(length);
        let nodes = write(shape, &transcript, shape.n * shape.symbols()).unwrap();
        let (byte, corrected) = (random.below(length), random.below(256) as u8);
        let change = i64::from(corrected) - i64::from(transcript[byte]);
        transcript[byte] = corrected;
        let afresh = write(shape, &transcript, nodes.len());
        assert_eq!(correct(&Correction { shape, nodes, length, byte, change }), afresh);
    }
}

#[test]
fn repairs_are_exact() {
    let mut random = Random::new(2);
    let mut accepted = 0;
    while accepted < 60 {
        let shape = random.shape(6000);
        let (dead, helpers) = random.dead_and_helpers(shape);
        let (h, size) = (dead.len(), shape.symbols());
        let wire_length = h * (shape.k + h) * size / (h + 1);
        let nodes = random.codeword(shape);
        let mut damaged = nodes.clone();
        for &node in &dead {
            damaged[node * size..(node + 1) * size].fill(65535);
        }
        match repair(shape, &dead, &helpers, &damaged, wire_length) {
            Ok((repaired, wire)) => {
                assert_eq!((repaired, wire.len()), (nodes, wire_length));
                accepted += 1;
            }
            Err(number) => assert_eq!(number, 3),
        }
    }
}

/// "Every order must end in the pairs and outgoing messages of document 01's first step" (document 02 §8).
#[test]
fn arrivals_end_in_the_first_step() {
    let mut random = Random::new(5);
    for _ in 0..200 {
        let lists = random.small_repair(7);
        let (new, length) = (random.choose(&lists.dead), lists.message_length());
        let messages = random.symbols(lists.helpers.len() * length);
        let order = random.shuffled(&(0..lists.helpers.len()).collect::<Vec<_>>());
        let mut kept = Kept::begun(&lists);
        for at in order {
            let (helper, message) = (lists.helpers[at], messages[at * length..(at + 1) * length].to_vec());
            kept = hear(&Heard { lists: lists.clone(), new, helper, message, kept }).unwrap();
        }
        let lengths = (2 * length, (lists.dead.len() - 1) * length);
        let expected = first_step(lists.shape, &lists.dead, &lists.helpers, new, &messages, lengths.0, lengths.1);
        let call = Finished { lists, new, kept, pairs_length: lengths.0, exchanges_length: lengths.1 };
        assert_eq!(finish(&call), expected);
    }
}

/// Codewords and other symbols, in orders in which the transfers may run; in an order that breaks the rule, a message is
/// missing when it is needed.
#[test]
fn transfers_run_one_by_one_are_a_repair() {
    let mut random = Random::new(3);
    let mut refused = 0;
    for _ in 0..200 {
        let lists = random.small_repair(7);
        let shape = lists.shape;
        let nodes = if random.once_in(2) { random.codeword(shape) } else { random.symbols(shape.n * shape.symbols()) };
        let mut order = random.order(&lists);
        let wire_length = order.len() * lists.message_length();
        let whole = repair(shape, &lists.dead, &lists.helpers, &nodes, wire_length);
        assert_eq!(run(&lists, &lists, &nodes, &order).ok_or(13), whole);
        order.reverse();
        let expected = may_run(&lists, &numbers(&order)).and(whole);
        refused += usize::from(expected.is_err());
        assert_eq!(run(&lists, &lists, &nodes, &order).ok_or(13), expected);
    }
    println!("{refused} orders could not be run");
    assert!((50..150).contains(&refused));
}
