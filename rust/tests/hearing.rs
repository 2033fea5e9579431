//! The laws of document 02 §9, a hearing number on each card, a test for each. The reader and the writer of before §9 are
//! the naive ones; what they are given or held to is the library's. A failure prints its seed.

#[path = "naive/compare.rs"]
mod compare;
mod naive;

use compare::library_header;
use hmsr::{unpack_to_vec, Refusal};
use naive::card::{put_number, starts_with_1, take_number};
use naive::random::Random;
use naive::{pack_before, unpack_before, Header, Number, Shape};

/// Prints the seed if the test panics while it holds this.
struct Seed(u64);

impl Drop for Seed {
    fn drop(&mut self) {
        if std::thread::panicking() {
            eprintln!("seed {}", self.0);
        }
    }
}

/// Runs so many cases, each with a seed of its own. A case says of which kind it was, or None where the law says nothing of
/// it. Asserts that each kind came up in one of fifty cases at least.
fn try_cases<const KINDS: usize>(count: u64, mut case: impl FnMut(&mut Random) -> Option<usize>) {
    let mut tally = [0; KINDS];
    for seed in (1..=count).map(Seed) {
        if let Some(kind) = case(&mut Random::new(seed.0)) {
            tally[kind] += 1;
        }
    }
    println!("the kinds came up {tally:?} times in {count} cases");
    assert!(tally.iter().all(|&times| 50 * times > count));
}

/// The kind of a case by its card's form: 0 without a hearing number, 1 with one.
fn form(header: hmsr::Header) -> Option<usize> {
    Some(header.hearing.min(1))
}

/// The kind of a case by an answer: 0 where the call did its work, 1 where it turned back.
fn outcome<T, U>(answer: &Result<T, U>) -> Option<usize> {
    Some(usize::from(answer.is_err()))
}

/// The header of a small card, or now and then of a large one.
fn random_header(random: &mut Random) -> Header {
    let header = random.small_header();
    if !random.once_in(40) {
        return header;
    }
    let shape = random.shape(20_000);
    Header { shape, node: shape.n - 1, length: shape.capacity(), ..header }
}

fn random_card(random: &mut Random) -> Vec<u8> {
    let header = random_header(random);
    let symbols = random.symbols(header.shape.symbols());
    naive::pack(header, &symbols, 15 + 2 * symbols.len()).unwrap()
}

/// A card with up to two bytes changed, put in or taken away, more often in its front.
fn damaged_card(random: &mut Random) -> Vec<u8> {
    let mut card = random_card(random);
    for _ in 0..random.below(3) {
        let anywhere = random.below(card.len());
        let at = random.below(9).min(anywhere);
        let at = random.choose(&[at, at, anywhere]);
        let byte = random.choose(&[0, 1, 2, 3, 14, 127, 128, 129, 188, 255]);
        match random.below(3) {
            0 => card[at] = byte,
            1 => card.insert(at, byte),
            _ => drop(card.remove(at)),
        }
    }
    card
}

/// The N of the shape in a card's front, behind a leading 1 or not; 0 where there is none.
fn announced(card: &[u8]) -> usize {
    let leading = usize::from(starts_with_1(card));
    let shape = naive::card::take_shape(&mut &card[leading..]).ok();
    shape.filter(|&shape| naive::judge::judge_shape(shape).is_ok()).map_or(0, Shape::symbols)
}

/// The library's answer in the naive implementation's terms.
fn unpacked(card: &[u8], room: usize) -> Result<(Header, Vec<u16>), Number> {
    let mut symbols = vec![0; room];
    let header = hmsr::unpack(card, &mut symbols).map_err(Refusal::number)?;
    let hmsr::Header { shape, node, length, hearing } = header;
    let shape = Shape { n: shape.nodes, k: shape.data, layers: shape.layers };
    Ok((Header { shape, node, length, hearing }, symbols))
}

/// Document 01's law, of six numbers now: unpacking what was packed gives header and symbols back.
#[test]
fn unpacking_what_was_packed_gives_header_hearing_and_symbols_back() {
    try_cases::<2>(4000, |random| {
        let header = library_header(random_header(random));
        let symbols = random.symbols(header.shape.node_symbols().unwrap());
        let card = header.pack_to_vec(&symbols).unwrap();
        assert_eq!(unpack_to_vec(&card), Ok((header, symbols)));
        form(header)
    });
}

/// "Unpack then pack restores an accepted card's bytes in both forms."
#[test]
fn an_accepted_card_packed_again_gives_its_bytes_back_in_both_forms() {
    try_cases::<2>(20_000, |random| {
        let card = damaged_card(random);
        let (header, symbols) = unpack_to_vec(&card).ok()?;
        assert_eq!(header.pack_to_vec(&symbols), Ok(card));
        form(header)
    });
}

/// "Otherwise the card starts with the number 1, then n, k, L, node, length, hearing number, symbols": taken apart, that is
/// the card of before with these two numbers put in.
#[test]
fn a_card_with_a_hearing_number_is_that_of_before_with_a_leading_1_and_the_number_behind_the_length() {
    try_cases::<1>(4000, |random| {
        let header = random_header(random);
        if header.hearing == 0 {
            return None;
        }
        let symbols = random.symbols(header.shape.symbols());
        let card = library_header(header).pack_to_vec(&symbols).unwrap();
        let front = card.strip_prefix(&[1]).expect("a leading 1");
        let mut behind = after_numbers(front, 5).expect("five numbers");
        let five = &front[..front.len() - behind.len()];
        assert_eq!(take_number(&mut behind), Ok(header.hearing));
        assert_eq!(pack_before(header, &symbols, 15 + 2 * symbols.len()), Ok([five, behind].concat()));
        Some(0)
    });
}

/// What stands behind so many well-formed numbers.
fn after_numbers(mut bytes: &[u8], count: usize) -> Option<&[u8]> {
    (0..count).all(|_| take_number(&mut bytes).is_ok()).then_some(bytes)
}

/// "With 0 a card is packed as today": the same bytes, or the same refusal, whatever is handed in.
#[test]
fn with_hearing_0_a_card_is_packed_byte_for_byte_as_before() {
    try_cases::<2>(4000, |random| {
        let mut header = Header { hearing: 0, ..random_header(random) };
        let mut symbols = random.symbols(header.shape.symbols());
        let mut room = 15 + 2 * symbols.len();
        match random.below(12) {
            0 => random.spoil_shape(&mut header.shape),
            1 => header.node = random.hostile(header.node),
            2 => header.length = random.hostile(header.length),
            3 => random.spoil_length(&mut room),
            4 => random.spoil_symbols(&mut symbols),
            _ => {}
        }
        let mut card = vec![170; room];
        let packed = library_header(header).pack(&symbols, &mut card).map_err(Refusal::number);
        let before = pack_before(header, &symbols, room);
        assert_eq!(packed.map(|length| card[..length].to_vec()), before);
        outcome(&before)
    });
}

/// Whatever does not start with the number 1, card or not, is read as before, and what is accepted has hearing number 0.
#[test]
fn a_card_of_the_old_form_reads_as_before_with_hearing_0() {
    try_cases::<2>(20_000, |random| {
        let card = damaged_card(random);
        if starts_with_1(&card) {
            return None;
        }
        let room = if random.once_in(20) { random.below(100) } else { announced(&card) };
        let now = unpacked(&card, room);
        assert_eq!(now, unpack_before(&card, room));
        assert!(now.as_ref().map_or(true, |(header, _)| header.hearing == 0));
        outcome(&now)
    });
}

/// "Programs from before §9 meet that leading 1 as a bad n and return 1": wherever the first five numbers are well-formed,
/// whether the card is accepted now or not.
#[test]
fn a_reader_of_before_gives_1_on_every_card_with_a_leading_1_and_a_well_formed_front() {
    try_cases::<2>(20_000, |random| {
        let card = damaged_card(random);
        if !starts_with_1(&card) || after_numbers(&card, 5).is_none() {
            return None;
        }
        for room in [announced(&card), random.below(100)] {
            assert_eq!(unpack_before(&card, room), Err(1));
        }
        outcome(&unpack_to_vec(&card))
    });
}

/// And so of every card that is packed with a hearing number.
#[test]
fn a_reader_of_before_gives_1_on_every_card_packed_with_a_hearing_number() {
    try_cases::<1>(4000, |random| {
        let header = library_header(random_header(random));
        if header.hearing == 0 {
            return None;
        }
        let symbols = random.symbols(header.shape.node_symbols().unwrap());
        let card = header.pack_to_vec(&symbols).unwrap();
        assert_eq!(unpack_before(&card, symbols.len()), Err(1));
        Some(0)
    });
}

/// Every number of up to three groups, packed as hearing number and standing as it on a card: "0 for none, otherwise 1 to
/// 999,999", and 0 behind a leading 1 is 6.
#[test]
fn every_hearing_number_is_packed_and_read_back_and_no_other_is() {
    let shape = hmsr::Shape::new(3, 1, 1).unwrap();
    let symbols = [253, 247, 0, 0, 0, 0, 0, 0];
    let front = [1, 3, 1, 1, 1, 2];
    for hearing in 0..1 << 21 {
        let header = hmsr::Header { shape, node: 1, length: 2, hearing };
        let mut written = front.to_vec();
        put_number(&mut written, hearing);
        written.extend([253, 1, 247, 1, 0, 0, 0, 0, 0, 0]);
        let (mut card, mut back) = ([170; 31], [7; 8]);
        let packed = header.pack(&symbols, &mut card);
        let read = hmsr::unpack(&written, &mut back);
        if (1..=999_999).contains(&hearing) {
            assert_eq!(packed.map(|length| &card[..length]), Ok(&written[..]));
            assert_eq!((read, back), (Ok(header), symbols));
        } else {
            assert_eq!(packed, if hearing == 0 { Ok(15) } else { Err(Refusal::Malformed) });
            assert_eq!((read, back), (Err(Refusal::Malformed), [7; 8]));
        }
    }
}
