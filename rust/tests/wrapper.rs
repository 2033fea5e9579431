//! What the wrapper adds to the library: no length, shape or card from safe code can do harm, and the conveniences answer
//! as the calls they wrap.
use hmsr::{
    plan, plan_text, unpack, unpack_into, unpack_to_vec, Checked, FirstStep, Header, Hearing, Refusal, Repair, Shape,
    Stretches, MOST_STRETCHES, PLAN_TEXT,
};
use std::ops::Range;

/// Document 01's first archive: n = 3, k = 1, L = 1, bytes 3 6.
const SHAPE: Shape = Shape { nodes: 3, data: 1, layers: 1 };
/// Its card for node 1, and the same with hearing number 700 (document 02 §9).
const CARD: [u8; 15] = [3, 1, 1, 1, 2, 253, 1, 247, 1, 0, 0, 0, 0, 0, 0];
const HEARING_CARD: [u8; 18] = [1, 3, 1, 1, 1, 2, 188, 5, 253, 1, 247, 1, 0, 0, 0, 0, 0, 0];
const NODE_1: [u16; 8] = [253, 247, 0, 0, 0, 0, 0, 0];
const HEADER: Header = Header { shape: SHAPE, node: 1, length: 2, hearing: 0 };
const HEARING_HEADER: Header = Header { hearing: 700, ..HEADER };

/// Numbers at and far beyond every range.
const NUMBERS: [usize; 12] = [0, 1, 2, 3, 14, 15, 16, 17, 63, 64, usize::MAX / 2 + 1, usize::MAX];

fn hostile_shapes() -> impl Iterator<Item = Shape> {
    NUMBERS.into_iter().flat_map(|nodes| {
        NUMBERS.into_iter().flat_map(move |data| NUMBERS.into_iter().map(move |layers| Shape { nodes, data, layers }))
    })
}

/// The ranges of document 01.
fn within_ranges(shape: Shape) -> bool {
    (3..=14).contains(&shape.nodes) && (1..=shape.nodes - 2).contains(&shape.data) && (1..=15).contains(&shape.layers)
}

#[test]
fn a_header_buffer_has_six_numbers() {
    for (card, hearing) in [(&CARD[..], 0), (&HEARING_CARD, 700)] {
        for length in 0..12 {
            let mut symbols = [9; 8];
            let mut header = vec![7; length];
            let answer = unpack_into(card, &mut symbols, &mut header);
            if length == 6 {
                assert_eq!(answer, Ok(()));
                assert_eq!((header, symbols), (vec![3, 1, 1, 1, 2, hearing], NODE_1));
            } else {
                assert_eq!(answer, Err(Refusal::WrongLength), "length {length}");
                assert_eq!((header, symbols), (vec![7; length], [9; 8]));
            }
        }
    }
}

#[test]
fn a_bad_header_buffer_comes_after_a_bad_header_and_before_a_bad_symbol() {
    for length in [4, 5] {
        let answers = |card: &[u8]| unpack_into(card, &mut [0; 8], &mut vec![0; length]);
        assert_eq!(answers(&[3, 1, 1, 1]), Err(Refusal::Malformed));
        assert_eq!(answers(&[2, 1, 1, 1, 2]), Err(Refusal::BadShape));
        assert_eq!(answers(&[3, 1, 1, 3, 2]), Err(Refusal::BadNodes));
        assert_eq!(answers(&[3, 1, 1, 1, 9]), Err(Refusal::Malformed));
        assert_eq!(answers(&[3, 1, 1, 1, 2, 129, 2]), Err(Refusal::WrongLength));
        assert_eq!(answers(&[1, 2, 1, 1, 1, 2, 128]), Err(Refusal::Malformed));
        assert_eq!(answers(&[1, 2, 1, 1, 1, 2, 0]), Err(Refusal::BadShape));
        assert_eq!(answers(&[1, 3, 1, 1, 3, 2, 0]), Err(Refusal::BadNodes));
        assert_eq!(answers(&[1, 3, 1, 1, 1, 2, 0]), Err(Refusal::Malformed));
        assert_eq!(answers(&[1, 3, 1, 1, 1, 2, 7, 129, 2]), Err(Refusal::WrongLength));
    }
}

#[test]
fn empty_buffers_are_refused_for_their_length() {
    let wrong = Err(Refusal::WrongLength);
    assert_eq!(SHAPE.write(&[], &mut []), wrong);
    assert_eq!(SHAPE.check(&[]), Err(Refusal::WrongLength));
    assert_eq!(SHAPE.restore(&[0], &[], &mut []), wrong);
    assert_eq!(SHAPE.open(&[0], &[], 0, &mut []), wrong);
    assert_eq!(SHAPE.open_stretches(&[0], &[], 0, &[], &mut [], &mut []), Err(Refusal::WrongLength));
    assert_eq!(SHAPE.open_stretches_to_vec(&[0], &[], 0, &[]), Err(Refusal::WrongLength));
    assert_eq!(SHAPE.correct(&mut [], 0, 0, 0), wrong);
    assert_eq!(SHAPE.correct_to_nodes(&[], 0, 0, 0), Err(Refusal::WrongLength));
    let repair = Repair { shape: SHAPE, dead: &[0], helpers: &[1, 2] };
    assert_eq!(repair.helper_message(1, 0, &[], &mut []), wrong);
    assert_eq!(repair.first_step(0, &[], &mut [], &mut []), wrong);
    assert_eq!(repair.hear(0, 1, &[], &mut [], &mut []), wrong);
    assert_eq!(repair.finish(0, &[], &[], &mut [], &mut []), wrong);
    assert_eq!(Hearing::new(repair, 0).hear(1, &[]), wrong);
    assert_eq!(Hearing::new(repair, 0).finish(&mut [], &mut []), wrong);
    assert_eq!(repair.second_step(0, &[], &[], &mut []), wrong);
    assert_eq!(repair.repair(&mut [], &mut []), wrong);
    assert_eq!(HEADER.pack(&[], &mut []), Err(Refusal::WrongLength));
    assert_eq!(HEARING_HEADER.pack(&[], &mut []), Err(Refusal::WrongLength));
    assert_eq!(unpack(&CARD, &mut []), Err(Refusal::WrongLength));
    assert_eq!(unpack(&HEARING_CARD, &mut []), Err(Refusal::WrongLength));
    assert_eq!(unpack(&[], &mut []), Err(Refusal::Malformed));
    assert_eq!(plan(&[], &mut []), Err(Refusal::WrongLength));
    assert_eq!(plan_text(&[]), b"6\n");
}

#[test]
fn empty_lists_are_refused() {
    let mut nodes = SHAPE.write_to_nodes(&[3, 6]).unwrap();
    assert_eq!(SHAPE.restore_nodes(&[], &[]), Err(Refusal::BadNodes));
    assert_eq!(SHAPE.open_to_vec(&[], &[], 0), Err(Refusal::BadNodes));
    assert_eq!(SHAPE.open_stretches_to_vec(&[], &[], 0, &[]), Err(Refusal::BadNodes));
    for (dead, helpers) in [(&[][..], &[1, 2][..]), (&[0], &[])] {
        let repair = Repair { shape: SHAPE, dead, helpers };
        assert_eq!(repair.repair_nodes(&mut nodes), Err(Refusal::BadNodes));
        assert_eq!(repair.may_run(&[]), Err(Refusal::BadNodes));
        let mut hearing = Hearing::new(repair, 0);
        assert_eq!((hearing.hear(1, &[]), hearing.heard()), (Err(Refusal::BadNodes), &[][..]));
        assert_eq!(hearing.finish_to_vec(), Err(Refusal::BadNodes));
    }
}

#[test]
fn an_empty_transcript_is_written_as_zeros_and_opened() {
    let nodes = SHAPE.write_to_nodes(&[]).unwrap();
    assert_eq!(nodes, [0; 24]);
    assert_eq!(SHAPE.open_to_vec(&[2], &nodes[16..], 0), Ok(Vec::new()));
}

#[test]
fn every_call_judges_every_shape() {
    for shape in hostile_shapes() {
        let good = within_ranges(shape);
        let judged = |answer: Result<(), Refusal>| assert_eq!(answer == Err(Refusal::BadShape), !good, "{shape:?}");
        judged(Shape::new(shape.nodes, shape.data, shape.layers).map(drop));
        judged(shape.write(&[1], &mut [0; 3]));
        judged(shape.check(&[0; 3]).map(drop));
        judged(shape.restore(&[0], &[0; 3], &mut [0; 3]));
        judged(shape.open(&[0], &[0; 3], 1, &mut [0; 1]));
        judged(shape.open_stretches(&[0], &[999; 3], 1, &[range([0, 1])], &mut [0; 1], &mut [0; 3]).map(drop));
        judged(shape.correct(&mut [999; 3], usize::MAX, usize::MAX, i64::MIN));
        let repair = Repair { shape, dead: &[0], helpers: &[1, 2] };
        judged(repair.helper_message(1, 0, &[0; 3], &mut [0; 3]));
        judged(repair.first_step(0, &[0; 3], &mut [0; 3], &mut [0; 3]));
        judged(repair.hear(0, 1, &[999; 3], &mut [999; 3], &mut [usize::MAX; 3]));
        judged(repair.finish(0, &[999; 3], &[usize::MAX; 3], &mut [0; 3], &mut [0; 3]));
        judged(repair.second_step(0, &[0; 3], &[0; 3], &mut [0; 3]));
        judged(repair.repair(&mut [0; 3], &mut [0; 3]));
        judged(repair.may_run(&[usize::MAX; 3]));
        for hearing in [0, 700, usize::MAX] {
            judged(Header { shape, node: 0, length: 0, hearing }.pack(&[0; 3], &mut [0; 3]).map(drop));
        }
    }
}

/// n and k: there are no layers to be judged. Both are judged before a loss that no archive can have.
#[test]
fn choosing_layers_judges_every_n_and_k() {
    for Shape { nodes, data, .. } in hostile_shapes() {
        let shape = Shape { nodes, data, layers: 1 };
        let (no_losses, bad_loss) = if within_ranges(shape) {
            (Ok(shape), Err(Refusal::BadNodes))
        } else {
            (Err(Refusal::BadShape), Err(Refusal::BadShape))
        };
        assert_eq!(Shape::for_losses(nodes, data, &[]), no_losses);
        assert_eq!(Shape::for_losses(nodes, data, &[usize::MAX]), bad_loss);
    }
}

/// What opening stretches from node 1 into new buffers gives, and that the call with lent buffers, of the exact
/// lengths, answers alike and, where it is refused, leaves them as they were.
fn stretches(symbols: &[u16], length: usize, stretches: &[Range<usize>]) -> Result<Stretches, Refusal> {
    let made = SHAPE.open_stretches_to_vec(&[1], symbols, length, stretches);
    // One that is too long to lend its bytes is handed in as an empty one behind the end.
    let lent: Vec<Range<usize>> =
        stretches.iter().map(|stretch| if stretch.len() > 99 { 99..99 } else { stretch.clone() }).collect();
    let (mut bytes, mut columns) = (vec![9; lent.iter().map(Range::len).sum()], [9; 8]);
    let answer = SHAPE.open_stretches(&[1], symbols, length, &lent, &mut bytes, &mut columns);
    if answer.is_err() {
        assert!(bytes.iter().all(|&byte| byte == 9) && columns == [9; 8], "{stretches:?}");
    }
    let opened = answer.map(|symbols| {
        let (touched, behind) = columns.split_at(symbols);
        assert!(behind.iter().all(|&column| column == 0), "{columns:?}");
        Stretches { bytes, columns: touched.to_vec(), symbols }
    });
    assert_eq!(made, opened, "{stretches:?}");
    made
}

/// A range of these numbers, also one whose end is before its start.
fn range([start, end]: [usize; 2]) -> Range<usize> {
    start..end
}

/// Document 02 §2, on document 01's first archive. A range whose end is before its start is an empty stretch at its
/// start.
#[test]
fn stretches_are_opened_or_refused_by_both_forms() {
    let opened = |ranges: &[[usize; 2]]| stretches(&NODE_1, 2, &ranges.iter().copied().map(range).collect::<Vec<_>>());
    let made = |bytes: &[u8], columns: &[usize]| {
        Ok(Stretches { bytes: bytes.to_vec(), columns: columns.to_vec(), symbols: columns.len() })
    };
    assert_eq!(opened(&[[0, 2]]), made(&[3, 6], &[0, 1]));
    assert_eq!(opened(&[[1, 2], [0, 2], [1, 2]]), made(&[6, 3, 6, 6], &[0, 1]));
    assert_eq!(opened(&[[1, 2]]), made(&[6], &[1]));
    assert_eq!(opened(&[]), made(&[], &[]));
    assert_eq!(opened(&[[2, 2], [0, 0], [1, 0], [2, 0]]), made(&[], &[]));
    for past in
        [[0, 3], [1, 3], [2, 3], [3, 3], [3, 0], [0, 100], [0, usize::MAX], [usize::MAX, usize::MAX], [1 << 32, 1]]
    {
        assert_eq!(opened(&[past]), Err(Refusal::PastEnd), "{past:?}");
        assert_eq!(opened(&[[0, 1], past, [1, 2]]), Err(Refusal::PastEnd), "{past:?}");
    }
    let high = [&[257], &NODE_1[1..]].concat();
    assert_eq!(stretches(&high, 2, &[range([1, 2])]), made(&[6], &[1]));
    assert_eq!(stretches(&high, 2, &[1..2, 0..1]), Err(Refusal::BadSymbol));
    assert_eq!(stretches(&high, 2, &[0..1, 2..3]), Err(Refusal::PastEnd));
    assert_eq!(stretches(&high, 9, &[0..1, 9..10]), Err(Refusal::WrongLength));
    assert_eq!(stretches(&high[1..], 2, &[0..1, 2..3]), Err(Refusal::WrongLength));
    // 87 is what node 1 has beside a data symbol 256.
    let no_byte = [&[87], &NODE_1[1..]].concat();
    assert_eq!(stretches(&no_byte, 2, &[range([1, 2])]), made(&[6], &[1]));
    assert_eq!(stretches(&no_byte, 2, &[1..2, 0..1]), Err(Refusal::NoTranscript));
}

#[test]
fn buffers_for_stretches_have_the_exact_lengths() {
    for bytes_length in 0..6 {
        for columns_length in 6..11 {
            let (mut bytes, mut columns) = (vec![9; bytes_length], vec![9; columns_length]);
            let answer = SHAPE.open_stretches(&[1], &NODE_1, 2, &[1..2, 0..2], &mut bytes, &mut columns);
            if (bytes_length, columns_length) == (3, 8) {
                assert_eq!(answer, Ok(2));
                assert_eq!((bytes, columns), (vec![6, 3, 6], vec![0, 1, 0, 0, 0, 0, 0, 0]));
            } else {
                assert_eq!(answer, Err(Refusal::WrongLength));
                assert_eq!((bytes, columns), (vec![9; bytes_length], vec![9; columns_length]));
            }
        }
    }
}

/// More are refused, wherever they start: none is left out to have them accepted.
#[test]
fn sixty_four_stretches_are_opened_together() {
    assert_eq!(MOST_STRETCHES, 64);
    for count in [63, 64, 65, 66, 127, 128, 129, 1000] {
        for (stretch, bytes) in [(1..2, 1), (2..2, 0)] {
            let answer = stretches(&NODE_1, 2, &vec![stretch; count]);
            let expected = if count <= 64 { Ok(vec![6; count * bytes]) } else { Err(Refusal::WrongLength) };
            assert_eq!(answer.map(|opened| opened.bytes), expected, "{count} stretches");
        }
        if count > 64 {
            assert_eq!(stretches(&NODE_1, 2, &vec![0..3; count]), Err(Refusal::WrongLength));
        }
    }
}

/// What correcting in place gives, and that both forms answer alike: the nodes, or the refusal and the nodes as they were.
fn corrected(nodes: &[u16], length: usize, byte: usize, change: i64) -> Result<Vec<u16>, Refusal> {
    let mut in_place = nodes.to_vec();
    let answer = SHAPE.correct(&mut in_place, length, byte, change);
    if answer.is_err() {
        assert_eq!(in_place, nodes);
    }
    let answer = answer.map(|()| in_place);
    assert_eq!(SHAPE.correct_to_nodes(nodes, length, byte, change), answer);
    answer
}

/// Document 02 §10, on document 01's first archive.
#[test]
fn a_byte_is_corrected_or_refused_by_both_forms() {
    let nodes = SHAPE.write_to_nodes(&[3, 6]).unwrap();
    assert_eq!(corrected(&nodes, 2, 1, -3), SHAPE.write_to_nodes(&[3, 3]));
    assert_eq!(corrected(&nodes, 2, 0, 252), SHAPE.write_to_nodes(&[255, 6]));
    assert_eq!(corrected(&nodes, 8, 7, 255), SHAPE.write_to_nodes(&[3, 6, 0, 0, 0, 0, 0, 255]));
    assert_eq!(corrected(&nodes, 2, 1, 0).as_ref(), Ok(&nodes));
    for change in [-7, 250, -256, 256, (1 << 32) - 3, i64::MIN, i64::MAX] {
        assert_eq!(corrected(&nodes, 2, 1, change), Err(Refusal::BadChange), "change {change}");
    }
    for (length, byte) in [(0, 0), (2, 2), (8, 8), (8, 24), (2, 1 << 32), (8, usize::MAX)] {
        assert_eq!(corrected(&nodes, length, byte, 256), Err(Refusal::PastEnd), "byte {byte} of {length}");
    }
    assert_eq!(corrected(&nodes, 9, 9, 256), Err(Refusal::WrongLength));
    assert_eq!(corrected(&nodes[1..], 2, 2, 256), Err(Refusal::WrongLength));
    let high = [&[257], &nodes[1..]].concat();
    assert_eq!(corrected(&high, 2, 0, 256), Err(Refusal::BadSymbol));
    assert!(corrected(&high, 2, 1, 1).is_ok());
}

/// Ten dead nodes need eleven layers, and 11 is also the number of a refusal.
#[test]
fn the_layers_found_are_told_from_a_refusal() {
    assert_eq!(Shape::for_losses(12, 1, &[10]), Ok(Shape { nodes: 12, data: 1, layers: 11 }));
    assert_eq!(Shape::for_losses(12, 1, &[10, 2]), Err(Refusal::NoLayers));
    assert_eq!(Shape::for_losses(12, 1, &[10, 11]), Err(Refusal::BadNodes));
}

/// Document 01's plan as numbers and as pairs: each prefix of it, and it whole in its order and backwards.
#[test]
fn an_order_of_pairs_is_judged_as_its_numbers_are() {
    let repair = Repair { shape: Shape { nodes: 4, data: 1, layers: 3 }, dead: &[0, 1], helpers: &[2, 3] };
    let mut pairs = [(2, 0), (3, 0), (2, 1), (3, 1), (1, 0), (0, 1)];
    let numbers = [2, 0, 3, 0, 2, 1, 3, 1, 1, 0, 0, 1];
    assert_eq!((repair.may_run(&numbers), repair.may_run_pairs(&pairs)), (Ok(()), Ok(())));
    for length in 0..numbers.len() {
        let refusal = if length % 2 == 0 { Refusal::BadOrder } else { Refusal::WrongLength };
        assert_eq!(repair.may_run(&numbers[..length]), Err(refusal), "{length} numbers");
    }
    for length in 0..pairs.len() {
        assert_eq!(repair.may_run_pairs(&pairs[..length]), Err(Refusal::BadOrder), "{length} pairs");
    }
    pairs.reverse();
    assert_eq!(repair.may_run_pairs(&pairs), Err(Refusal::BadOrder));
    let one_dead = Repair { dead: &[1], ..repair };
    assert_eq!((one_dead.may_run(&[3, 1, 2, 1]), one_dead.may_run_pairs(&[(3, 1), (2, 1)])), (Ok(()), Ok(())));
}

/// Refusals are the same for both forms, whatever the list; but pairs are never odd.
#[test]
fn both_forms_of_an_order_are_refused_alike() {
    let shape = |layers| Shape { nodes: 4, data: 1, layers };
    for (layers, dead, helpers, refusal) in [
        (0, &[0, 1][..], &[2, 3][..], Refusal::BadShape),
        (1, &[0, 4], &[2, 3], Refusal::BadNodes),
        (3, &[0, 1], &[1, 2], Refusal::BadNodes),
        (3, &[0], &[usize::MAX], Refusal::BadNodes),
        (1, &[0, 1], &[2, 3], Refusal::PartBatch),
        (14, &[0, 1], &[2, 3], Refusal::PartBatch),
        (3, &[0, 1], &[2, 3], Refusal::BadOrder),
    ] {
        let repair = Repair { shape: shape(layers), dead, helpers };
        for pair in [(0, 0), (2, 0), (1 << 63, usize::MAX)] {
            assert_eq!(repair.may_run(&[pair.0, pair.1]), Err(refusal), "{repair:?}");
            assert_eq!(repair.may_run_pairs(&[pair]), Err(refusal), "{repair:?}");
        }
        let odd = if refusal == Refusal::BadOrder { Refusal::WrongLength } else { refusal };
        assert_eq!(repair.may_run(&[2, 0, 3]), Err(odd), "{repair:?}");
    }
}

#[test]
fn conveniences_and_sizes_judge_every_shape() {
    for shape in hostile_shapes() {
        let good = within_ranges(shape);
        let judged = |answer: Result<(), Refusal>| assert_eq!(answer == Err(Refusal::BadShape), !good, "{shape:?}");
        judged(shape.node_symbols().map(drop));
        judged(shape.archive_symbols().map(drop));
        judged(shape.capacity().map(drop));
        judged(shape.card_room().map(drop));
        judged(shape.write_to_nodes(&[]).map(drop));
        judged(shape.restore_nodes(&[0], &[0; 3]).map(drop));
        judged(shape.open_to_vec(&[0], &[0; 3], usize::MAX).map(drop));
        judged(shape.open_stretches_to_vec(&[0], &[999; 3], usize::MAX, &[range([0, usize::MAX])]).map(drop));
        judged(shape.correct_to_nodes(&[999; 3], usize::MAX, usize::MAX, i64::MAX).map(drop));
        let repair = Repair { shape, dead: &[0], helpers: &[1, 2] };
        judged(repair.helper_message_to_vec(1, 0, &[0; 3]).map(drop));
        judged(repair.first_step_to_vec(0, &[0; 3]).map(drop));
        let mut hearing = Hearing::new(repair, 0);
        judged(hearing.hear(1, &[999; 3]));
        judged(hearing.finish(&mut [0; 3], &mut [0; 3]));
        judged(hearing.finish_to_vec().map(drop));
        judged(repair.second_step_to_vec(0, &[0; 3], &[0; 3]).map(drop));
        judged(repair.repair_nodes(&mut [0; 3]).map(drop));
        judged(repair.may_run_pairs(&[(usize::MAX, 0)]));
        let far = Header { shape, node: usize::MAX, length: usize::MAX, hearing: usize::MAX };
        judged(far.pack_to_vec(&[0; 3]).map(drop));
        for dead_count in NUMBERS {
            judged(shape.batch_layers(dead_count).map(drop));
            judged(shape.message_symbols(dead_count).map(drop));
            judged(shape.kept_symbols(dead_count).map(drop));
            judged(shape.wire_symbols(dead_count).map(drop));
        }
        assert!(plan_text(&Repair { shape, dead: &[0], helpers: &[1, 2] }.plan_input()).ends_with(b"\n"));
    }
}

#[test]
fn a_length_above_the_capacity_takes_no_memory() {
    let nodes = SHAPE.write_to_nodes(&[3, 6]).unwrap();
    assert_eq!(SHAPE.open_to_vec(&[0], &nodes[..8], usize::MAX), Err(Refusal::WrongLength));
    assert_eq!(SHAPE.open_to_vec(&[3], &nodes[..8], usize::MAX), Err(Refusal::BadNodes));
    assert_eq!(SHAPE.open_to_vec(&[0], &nodes[..8], 9), Err(Refusal::WrongLength));
    let far = [0..usize::MAX, 1..usize::MAX];
    assert_eq!(SHAPE.open_stretches_to_vec(&[0], &nodes[..8], 8, &far), Err(Refusal::PastEnd));
    assert_eq!(SHAPE.open_stretches_to_vec(&[0], &nodes[..8], usize::MAX, &far), Err(Refusal::WrongLength));
    assert_eq!(SHAPE.open_stretches_to_vec(&[3], &nodes[..8], usize::MAX, &far), Err(Refusal::BadNodes));
}

/// For all of these together there is no memory: 12 terabytes.
#[test]
fn too_many_stretches_take_no_memory() {
    let shape = Shape::new(14, 12, 15).unwrap();
    let (list, length) = ((0..12).collect::<Vec<_>>(), shape.capacity().unwrap());
    let stretches = vec![0..length; 1 << 22];
    let answer = shape.open_stretches_to_vec(&list, &vec![0; length], length, &stretches);
    assert_eq!(answer, Err(Refusal::WrongLength));
}

/// Symbols of all values.
fn symbols(count: usize) -> Vec<u16> {
    (0..count).map(|place| (place * place % 257) as u16).collect()
}

/// Holds the forms with new buffers to the calls that they wrap, which are lent buffers of the sizes of document 01: the
/// same symbols, or the same refusal. Gives what the whole repair answers.
fn compare_with_lent(repair: Repair) -> Result<(), Refusal> {
    let Repair { shape, dead, helpers } = repair;
    let (size, h) = (shape.layers << shape.nodes, dead.len());
    let (length, others) = (size / (h + 1), h.saturating_sub(1));
    let (helper, new_node) = (helpers.first().copied().unwrap_or(0), dead.first().copied().unwrap_or(0));

    let mut message = vec![9; length];
    let answer = repair.helper_message(helper, new_node, &symbols(size), &mut message);
    assert_eq!(repair.helper_message_to_vec(helper, new_node, &symbols(size)), answer.map(|()| message));

    let told = symbols((shape.data + 1) * length);
    let mut step = FirstStep { pairs: vec![9; 2 * length], sums: vec![9; others * length] };
    let answer = repair.first_step(new_node, &told, &mut step.pairs, &mut step.sums);
    assert_eq!(repair.first_step_to_vec(new_node, &told), answer.map(|()| step.clone()));
    assert_eq!(compare_hearing_with_lent(repair, new_node, &told), answer.map(|()| step));

    let (received, mut own) = (symbols(others * length), vec![9; size]);
    let answer = repair.second_step(new_node, &symbols(2 * length), &received, &mut own);
    assert_eq!(repair.second_step_to_vec(new_node, &symbols(2 * length), &received), answer.map(|()| own));

    let (mut nodes, mut wire) = (symbols(shape.nodes * size), vec![9; h * (shape.data + h) * length]);
    let mut nodes_too = nodes.clone();
    let answer = repair.repair(&mut nodes, &mut wire);
    assert_eq!(repair.repair_nodes(&mut nodes_too), answer.map(|()| wire));
    assert_eq!(nodes, nodes_too);
    answer
}

/// The first step of a new node by the calls with lent buffers, beside what has buffers of its own.
struct Arriving<'a> {
    repair: Repair<'a>,
    new_node: usize,
    hearing: Hearing<'a>,
    sums: Vec<u16>,
    heard: Vec<usize>,
    length: usize,
}

impl<'a> Arriving<'a> {
    /// The sizes are those of document 02 §8.
    fn new(repair: Repair<'a>, new_node: usize, length: usize) -> Self {
        let Shape { nodes, data, .. } = repair.shape;
        let (sums, heard) = (vec![0; (nodes - data) * length], vec![0; data + 2]);
        Arriving { repair, new_node, hearing: Hearing::new(repair, new_node), sums, heard, length }
    }

    /// Hears a helper. Both answer alike, and name the same helpers.
    fn hear(&mut self, helper: usize, message: &[u16]) -> Result<(), Refusal> {
        let answer = self.repair.hear(self.new_node, helper, message, &mut self.sums, &mut self.heard);
        assert_eq!(self.hearing.hear(helper, message), answer);
        assert_eq!(self.hearing.heard(), &self.heard[1..=self.heard[0]]);
        answer
    }

    /// Finishes. Both answer alike, in lent buffers and in new ones.
    fn finish(&self) -> Result<FirstStep, Refusal> {
        let pieces = [2, self.repair.dead.len().saturating_sub(1)];
        let [mut pairs, mut sums] = pieces.map(|pieces| vec![9; pieces * self.length]);
        let [mut pairs_too, mut sums_too] = [pairs.clone(), sums.clone()];
        let answer = self.repair.finish(self.new_node, &self.sums, &self.heard, &mut pairs, &mut sums);
        assert_eq!(self.hearing.finish(&mut pairs_too, &mut sums_too), answer);
        assert_eq!((&pairs, &sums), (&pairs_too, &sums_too));
        let answer = answer.map(|()| FirstStep { pairs, sums });
        assert_eq!(self.hearing.finish_to_vec(), answer);
        answer
    }
}

/// Messages that arrive one by one, the last helper's first, and each once more. Gives what finishing answers in the end.
fn compare_hearing_with_lent(repair: Repair, new_node: usize, told: &[u16]) -> Result<FirstStep, Refusal> {
    let length = told.len() / (repair.shape.data + 1);
    let mut arriving = Arriving::new(repair, new_node, length);
    for (&helper, message) in repair.helpers.iter().zip(told.chunks_exact(length)).rev() {
        let _ = arriving.finish();
        let answers = [arriving.hear(helper, message), arriving.hear(helper, message)];
        assert_eq!(answers[1], answers[0].and(Err(Refusal::BadNodes)), "{repair:?}");
    }
    arriving.finish()
}

/// Document 02 §8, on document 01's first archive: helper 2 comes first.
#[test]
fn helpers_are_heard_or_refused_by_both_forms() {
    let repair = Repair { shape: SHAPE, dead: &[0], helpers: &[1, 2] };
    let mut arriving = Arriving::new(repair, 0, 4);
    assert_eq!(arriving.finish(), Err(Refusal::WrongLength));
    assert_eq!(arriving.hear(2, &[5, 0, 0, 0]), Ok(()));
    for (helper, message, refusal) in [
        (2, &[5, 0, 0, 0][..], Refusal::BadNodes),
        (0, &[5, 0, 0, 0], Refusal::BadNodes),
        (usize::MAX, &[], Refusal::BadNodes),
        (1, &[243, 0, 0], Refusal::WrongLength),
        (1, &[257, 0, 0, 0, 0], Refusal::WrongLength),
        (1, &[243, 0, 0, 257], Refusal::BadSymbol),
    ] {
        assert_eq!(arriving.hear(helper, message), Err(refusal), "{helper}, {message:?}");
        assert_eq!((&arriving.sums[..], &arriving.heard[..]), (&[5, 45, 0, 0, 0, 0, 0, 0][..], &[1, 2, 0][..]));
        assert_eq!(arriving.finish(), Err(Refusal::WrongLength));
    }
    assert_eq!(arriving.hear(1, &[243, 0, 0, 0]), Ok(()));
    assert_eq!((&arriving.sums[..], &arriving.heard[..]), (&[248, 3, 0, 0, 0, 0, 0, 0][..], &[2, 2, 1][..]));
    assert_eq!(arriving.hear(1, &[243, 0, 0, 0]), Err(Refusal::BadNodes));
    let step = FirstStep { pairs: vec![3, 6, 0, 0, 0, 0, 0, 0], sums: vec![] };
    assert_eq!((arriving.finish(), arriving.finish()), (Ok(step.clone()), Ok(step)));
}

/// Buffers of each length around the exact ones, lent to finish what was heard.
#[test]
fn buffers_of_a_first_step_have_the_exact_lengths() {
    let repair = Repair { shape: Shape { nodes: 4, data: 1, layers: 3 }, dead: &[0, 1], helpers: &[2, 3] };
    let mut hearing = Hearing::new(repair, 1);
    for helper in [3, 2] {
        assert_eq!(hearing.hear(helper, &symbols(16)), Ok(()));
    }
    for (pairs_length, sums_length) in [(32, 16), (31, 16), (33, 16), (32, 15), (32, 17), (16, 32), (0, 0)] {
        let (mut pairs, mut sums) = (vec![999; pairs_length], vec![999; sums_length]);
        let answer = hearing.finish(&mut pairs, &mut sums);
        if (pairs_length, sums_length) == (32, 16) {
            assert_eq!(hearing.finish_to_vec(), answer.map(|()| FirstStep { pairs, sums }));
        } else {
            assert_eq!(answer, Err(Refusal::WrongLength));
            assert!(pairs.iter().chain(&sums).all(|&symbol| symbol == 999));
        }
    }
}

/// Where more than one thing is wrong, such as the lists and the layers, too.
#[test]
fn repairs_in_new_buffers_answer_as_the_calls_do() {
    let dead_lists: [&[usize]; 6] = [&[], &[0], &[0, 1], &[1, 0], &[0, 1, 4], &[0, usize::MAX]];
    let helper_lists: [&[usize]; 6] = [&[], &[2], &[2, 3], &[3, 2], &[1, 2], &[2, 3, usize::MAX]];
    let mut answers = [0; 9];
    for (nodes, data, layers) in [(2, 1, 1), (3, 1, 1), (4, 1, 1), (4, 1, 3), (5, 1, 1), (5, 2, 3), (5, 3, 16)] {
        for dead in dead_lists {
            for helpers in helper_lists {
                let answer = compare_with_lent(Repair { shape: Shape { nodes, data, layers }, dead, helpers });
                answers[answer.err().map_or(0, Refusal::number)] += 1;
            }
        }
    }
    // Of 7 shapes 2 are bad. By hand, 1 + 2 + 3 + 3 repairs are good, and two dead nodes need 3 layers: n = 4 and n = 5.
    assert_eq!(answers, [9, 72, 252 - 9 - 72 - 2, 2, 0, 0, 0, 0, 0]);
}

#[test]
fn sizes_are_those_of_document_01() {
    let shape = Shape::new(12, 6, 15).unwrap();
    assert_eq!(shape.node_symbols(), Ok(61_440));
    assert_eq!(shape.archive_symbols(), Ok(737_280));
    assert_eq!(shape.capacity(), Ok(368_640));
    assert_eq!(shape.card_room(), Ok(122_895));
    assert_eq!(shape.message_symbols(4), Ok(12_288));
    assert_eq!(shape.kept_symbols(4), Ok(73_728));
    assert_eq!(shape.wire_symbols(4), Ok(491_520));
    assert_eq!((shape.message_symbols(6), shape.kept_symbols(6)), (Err(Refusal::BadNodes), Err(Refusal::BadNodes)));
    let shape = Shape { layers: 1, ..shape };
    assert_eq!((shape.message_symbols(2), shape.kept_symbols(2)), (Err(Refusal::PartBatch), Err(Refusal::PartBatch)));
    assert_eq!(shape.message_symbols(3), Ok(1024));
    let largest = Shape::new(14, 12, 15).unwrap();
    assert_eq!((largest.archive_symbols(), largest.capacity()), (Ok(3_440_640), Ok(2_949_120)));
    let eleven = Shape::new(13, 1, 3).unwrap();
    assert_eq!((eleven.message_symbols(11), eleven.wire_symbols(11)), (Ok(2048), Ok(270_336)));
}

#[test]
fn the_unmet_equation_is_taken_apart() {
    let shape = Shape::new(5, 2, 3).unwrap();
    for (place, layer, a) in [(0, 0, 0), (31, 0, 31), (32, 1, 0), (95, 2, 31)] {
        let mut nodes = shape.write_to_nodes(b"a record").unwrap();
        nodes[4 * 96 + place] = (nodes[4 * 96 + place] + 1) % 257;
        assert_eq!(shape.check(&nodes), Ok(Checked::Unmet { layer, a, t: 0 }));
    }
    // Two symbols that change by opposite amounts keep the sum, the equation of t = 0.
    let mut nodes = vec![0; 5 * 96];
    nodes[40] = 1;
    nodes[96 + 40] = 256;
    assert_eq!(shape.check(&nodes), Ok(Checked::Unmet { layer: 1, a: 8, t: 1 }));
}

#[test]
fn the_high_data_symbol_is_taken_apart() {
    let shape = Shape::new(5, 2, 3).unwrap();
    for (node, place) in [(0, 0), (0, 31), (0, 95), (1, 0), (1, 95)] {
        let mut data = vec![255; 2 * 96];
        data[node * 96 + place] = 256;
        let nodes = shape.restore_nodes(&[0, 1], &data).unwrap();
        assert_eq!(shape.check(&nodes), Ok(Checked::HighData { node, place }));
    }
    assert_eq!(shape.check(&shape.restore_nodes(&[0, 1], &[255; 2 * 96]).unwrap()), Ok(Checked::Sound));
}

#[test]
fn a_card_is_unpacked_as_it_was_packed() {
    for (header, card) in [(HEADER, &CARD[..]), (HEARING_HEADER, &HEARING_CARD)] {
        assert_eq!(header.pack_to_vec(&NODE_1), Ok(card.to_vec()));
        assert_eq!(unpack_to_vec(card), Ok((header, NODE_1.to_vec())));
    }
    // The largest card that a reader of three groups took, and the largest, whose length has four; without a hearing
    // number and with the largest, a leading 1 and three groups.
    for (n, size, length) in [(12, 122_887, 614_400), (14, 491_528, 2_949_120)] {
        for (hearing, more) in [(0, 0), (999_999, 4)] {
            let largest = Header { shape: Shape::new(n, n - 2, 15).unwrap(), node: n - 1, length, hearing };
            let symbols = vec![256; largest.shape.node_symbols().unwrap()];
            let card = largest.pack_to_vec(&symbols).unwrap();
            assert_eq!(card.len(), size + more);
            assert_eq!(unpack_to_vec(&card), Ok((largest, symbols)));
        }
    }
}

#[test]
fn a_hearing_number_is_at_most_999_999() {
    for hearing in [0, 1, 127, 128, 16_383, 16_384, 999_999] {
        let header = Header { hearing, ..HEADER };
        let card = header.pack_to_vec(&NODE_1).unwrap();
        assert_eq!(unpack_to_vec(&card), Ok((header, NODE_1.to_vec())));
    }
    for hearing in [1_000_000, (1 << 32) + 700, usize::MAX] {
        assert_eq!(Header { hearing, ..HEADER }.pack_to_vec(&NODE_1), Err(Refusal::Malformed));
    }
    // 0 behind a leading 1, 1 000 000, and the largest numbers of three and of four groups.
    for hearing in [&[0][..], &[192, 132, 61], &[255, 255, 127], &[255, 255, 255, 127]] {
        let card = [&[1], &CARD[..5], hearing, &CARD[5..]].concat();
        assert_eq!(unpack_to_vec(&card), Err(Refusal::Malformed), "hearing {hearing:?}");
    }
}

#[test]
fn cut_lengthened_and_huge_cards_are_refused() {
    for card in [&CARD[..], &HEARING_CARD] {
        for cut in 0..card.len() {
            assert_eq!(unpack_to_vec(&card[..cut]), Err(Refusal::Malformed), "cut at {cut}");
        }
        assert_eq!(unpack_to_vec(&[card, &[0]].concat()), Err(Refusal::Malformed));
    }
    // Headers that announce the most symbols, or more than there can be, with none behind them.
    assert_eq!(unpack_to_vec(&[14, 12, 15, 13, 0]), Err(Refusal::Malformed));
    assert_eq!(unpack_to_vec(&[1, 14, 12, 15, 13, 0, 1]), Err(Refusal::Malformed));
    assert_eq!(unpack_to_vec(&[1, 127, 1, 127, 0, 0, 1]), Err(Refusal::BadShape));
    // No archive has 1 node: a second 1 is no shape.
    assert_eq!(unpack_to_vec(&[1, 1, 3, 1, 1, 1, 2]), Err(Refusal::BadShape));
    assert_eq!(unpack_to_vec(&[127, 1, 127, 0, 0]), Err(Refusal::BadShape));
    assert_eq!(unpack_to_vec(&[255, 255, 255, 127, 1, 1, 0, 0]), Err(Refusal::BadShape));
    assert_eq!(unpack_to_vec(&[255, 255, 255, 255, 127, 1, 1, 0, 0]), Err(Refusal::Malformed));
    // A number in more groups than it needs is malformed, also where its value would do.
    assert_eq!(unpack_to_vec(&[131, 0, 1, 1, 1, 2, 253, 1]), Err(Refusal::Malformed));
}

#[test]
fn every_byte_of_a_card_may_be_anything() {
    for sample in [&CARD[..], &HEARING_CARD] {
        let mut accepted = 0;
        for place in 0..sample.len() {
            for byte in 0..=255 {
                let mut card = sample.to_vec();
                card[place] = byte;
                if let Ok((header, symbols)) = unpack_to_vec(&card) {
                    assert_eq!(header.pack_to_vec(&symbols), Ok(card));
                    accepted += 1;
                }
            }
        }
        assert!(accepted > 1000, "{accepted} were accepted");
    }
}

#[test]
fn a_plan_needs_its_room_and_no_more_is_touched() {
    let input = [4, 1, 3, 2, 0, 1, 2, 3];
    let printed = b"4 1 3 2\n2 0 16\n3 0 16\n2 1 16\n3 1 16\n1 0 16\n0 1 16\n96\n";
    for length in [0, 1, 53, PLAN_TEXT - 1] {
        let mut text = vec![b'.'; length];
        assert_eq!(plan(&input, &mut text), Err(Refusal::WrongLength));
        assert_eq!(text, vec![b'.'; length]);
    }
    for length in [PLAN_TEXT, PLAN_TEXT + 1, 5000] {
        let mut text = vec![b'.'; length];
        assert_eq!(plan(&input, &mut text), Ok(printed.len()));
        assert_eq!(text[..printed.len()], *printed);
        assert!(text[printed.len()..].iter().all(|&byte| byte == b'.'));
    }
}

#[test]
fn refusals_have_their_numbers_and_one_sentence() {
    let numbers = [1, 2, 3, 4, 5, 6, 7, 9, 11, 12, 13];
    assert_eq!(Refusal::ALL.map(Refusal::number), numbers);
    for cause in Refusal::ALL {
        assert_eq!(Refusal::from_number(cause.number()), Some(cause));
        assert!(!cause.to_string().is_empty() && !cause.to_string().contains('\n'));
    }
    for number in (0..300).chain([256 + (1 << 32), usize::MAX]).filter(|number| !numbers.contains(number)) {
        assert_eq!(Refusal::from_number(number), None);
    }
}
