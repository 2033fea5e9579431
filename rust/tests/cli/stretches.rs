//! Stretches of the transcript opened together: their bytes in the order given, the symbols that are counted, and what
//! is refused.
#![allow(clippy::single_range_in_vec_init)] // a list of one stretch is meant

use std::collections::BTreeSet;
use std::fs;
use std::ops::Range;

use crate::correct::archive;
use crate::naive::random::Random;
use crate::naive::{self, Shape};
use crate::place::{bytes, Place, IO, LOST, REPAIRABLE, USAGE};

/// The most stretches that may be named.
const MOST: usize = 64;

/// The stretches as options.
fn options(stretches: &[Range<usize>]) -> String {
    stretches.iter().map(|Range { start, end }| format!(" --stretch {start}..{end}")).collect()
}

/// "The bytes come out joined in the order given" (document 02 §2).
fn joined(transcript: &[u8], stretches: &[Range<usize>]) -> Vec<u8> {
    stretches.iter().flat_map(|stretch| &transcript[stretch.clone()]).copied().collect()
}

/// "k times the count of touched columns" (document 02 §2); byte b stands at place b mod N.
fn symbols_read(shape: Shape, stretches: &[Range<usize>]) -> usize {
    let touched: BTreeSet<usize> = stretches.iter().cloned().flatten().map(|byte| byte % shape.symbols()).collect();
    shape.k * touched.len()
}

fn counted(count: usize, one: &str, many: &str) -> String {
    format!("{count} {}", if count == 1 { one } else { many })
}

/// Opens stretches of the archive in `drives`, which must give their bytes and say how many symbols these took. Gives
/// the report.
fn opens(place: &Place, shape: Shape, transcript: &[u8], stretches: &[Range<usize>]) -> String {
    let report = place.does(&format!("open drives part{}", options(stretches)));
    let expected = joined(transcript, stretches);
    assert!(fs::read(place.path("part")).unwrap() == expected, "{shape:?}, {stretches:?}");
    fs::remove_file(place.path("part")).unwrap();
    let [opened, count, read] = [
        counted(expected.len(), "byte", "bytes"),
        counted(stretches.len(), "stretch", "stretches"),
        counted(symbols_read(shape, stretches), "symbol", "symbols"),
    ];
    assert!(report.starts_with(&format!("opened {opened} in {count} into part from node")), "{report}");
    assert!(report.contains(&format!("\n{read} read of {}\n", shape.capacity())), "{stretches:?}: {report}");
    report
}

/// Lists of stretches within a transcript that reaches the last data node: both ends, all, none, in another order,
/// overlapping, repeated, empty, around each end of a node, and in one column of all nodes.
fn lists(shape: Shape, length: usize) -> Vec<Vec<Range<usize>>> {
    let (size, [a, b, c]) = (shape.symbols(), [length / 4, length / 2, length * 3 / 4]);
    let last = length - 1;
    let mut lists = vec![
        vec![0..1],
        vec![last..length],
        vec![0..length],
        vec![0..0],
        vec![length..length],
        vec![b..length, 0..b],
        vec![b..c, a..c, 0..b],
        vec![a..b, a..b, a..b],
        vec![a..a, b..c, c..c, 0..0, length..length, a..b],
        vec![last..length; MOST],
        (0..shape.k).rev().map(|node| node * size..node * size + 1).collect(),
    ];
    lists.extend((1..shape.k).map(|node| vec![node * size - 1..node * size + 1, node * size..node * size]));
    lists
}

/// Up to the most stretches, empty and overlapping ones among them.
fn random_list(random: &mut Random, length: usize) -> Vec<Range<usize>> {
    let stretch = |random: &mut Random| {
        let start = random.between(0, length);
        start..random.between(start, length.min(start + 30))
    };
    (0..random.between(1, MOST)).map(|_| stretch(random)).collect()
}

// ---- the work

/// From the first k cards, and from the last k, among which fewer data nodes are, or none.
#[test]
fn stretches_come_out_joined_in_the_order_given() {
    let mut random = Random::new(2);
    for (n, k, layers) in [(3, 1, 1), (6, 3, 3), (5, 3, 2), (7, 2, 1), (8, 6, 1)] {
        let shape = Shape { n, k, layers };
        let transcript = bytes(shape.capacity() - 3, 5);
        let place = archive("stretches_work", shape, 0, &transcript);
        let mut lists = lists(shape, transcript.len());
        lists.extend((0..10).map(|_| random_list(&mut random, transcript.len())));
        for lost in [vec![], (0..n - k).collect()] {
            place.lose("drives", &lost);
            for stretches in &lists {
                opens(&place, shape, &transcript, stretches);
            }
        }
    }
}

#[test]
fn a_transcript_without_bytes_has_an_empty_stretch() {
    let shape = Shape { n: 4, k: 2, layers: 1 };
    let place = archive("stretches_no_bytes", shape, 0, b"");
    opens(&place, shape, b"", &[0..0]);
    opens(&place, shape, b"", &[0..0, 0..0]);
}

#[test]
fn stretches_are_taken_in_both_forms_and_anywhere() {
    let place = archive("stretches_forms", Shape { n: 4, k: 2, layers: 1 }, 0, b"Q. Were you there? A. I was.");
    place.does("open --stretch 22..27 drives --stretch=3..4 part --quiet --stretch 0..2");
    assert_eq!(fs::read(place.path("part")).unwrap(), b"I wasWQ.");
}

/// Every line, in its order; and without stretches what it was before there were any.
#[test]
fn the_report_says_what_was_read() {
    let place = archive("stretches_report", Shape { n: 6, k: 3, layers: 1 }, 700, &bytes(100, 1));
    // Places 26 to 35, and 0 to 4.
    let line = "open drives part --stretch 90..100 --stretch 0..5";
    assert_eq!(
        place.does(line),
        "opened 15 bytes in 2 stretches into part from nodes 0, 1, 2\n3 further cards agree with them\n\
         45 symbols read of 192\nhearing 700\n"
    );
    let whole = "from nodes 0, 1, 2\n3 further cards agree with them\nhearing 700\n";
    assert_eq!(place.does("open drives opened"), format!("opened 100 bytes into opened {whole}"));
    fs::remove_file(place.path("part")).unwrap();
    place.lose("drives", &[0]);
    place.damage("drives", 4);
    fs::rename(place.card("drives", 5), place.card("drives", 44)).unwrap();
    assert_eq!(
        place.does(line),
        "opened 15 bytes in 2 stretches into part from nodes 1, 2, 3\n1 further card agrees with them\n\
         45 symbols read of 192\nhearing 700\nnot used: node 0 is missing\nnot used: drives/node-04.card does not \
         agree with the others: it is damaged or of another archive\n\
         note: node-44.card is the card of node 5, and read as such\n"
    );
}

#[test]
fn stretches_go_to_standard_output() {
    let place = archive("stretches_output", Shape { n: 6, k: 3, layers: 1 }, 0, &bytes(100, 1));
    let before = place.contents();
    let line = "open drives - --stretch 50..100 --stretch 7..7 --stretch 0..60";
    let expected = joined(&bytes(100, 1), &[50..100, 0..60]);
    let output = place.run(line);
    assert!(output.status.success() && output.stdout == expected);
    assert_eq!(
        String::from_utf8(output.stderr).unwrap(),
        "opened 110 bytes in 3 stretches into standard output from nodes 0, 1, 2\n3 further cards agree with them\n\
         192 symbols read of 192\n"
    );
    let output = place.run(&format!("{line} --quiet"));
    assert!(output.status.success() && output.stdout == expected && output.stderr.is_empty());
    assert!(place.contents() == before);
    assert_eq!(place.does("open drives part --stretch 9..12 --quiet"), "");
    assert_eq!(fs::read(place.path("part")).unwrap(), bytes(100, 1)[9..12]);
}

/// The last symbol of a card is wrong: whether a stretch touches it or not, the card is found out and not used.
#[test]
fn wrong_cards_are_named_wherever_the_stretches_are() {
    let shape = Shape { n: 6, k: 3, layers: 1 };
    let transcript = bytes(shape.capacity(), 1);
    let place = archive("stretches_wrong", shape, 0, &transcript);
    for wrong in 0..6 {
        place.damage("drives", wrong);
        let used = (0..6).filter(|&node| node != wrong).take(3).map(|node| node.to_string()).collect::<Vec<_>>();
        for stretches in [vec![63..64, 127..128, 191..192], vec![0..3], vec![5..5]] {
            let report = opens(&place, shape, &transcript, &stretches);
            assert!(
                report.contains(&format!("part from nodes {}\n2 further cards agree", used.join(", "))),
                "{report}"
            );
            assert!(report.contains(&format!("not used: drives/node-0{wrong}.card does not agree")), "{report}");
        }
        place.damage("drives", wrong);
    }
}

#[test]
fn sixty_four_stretches_are_opened_and_no_more() {
    let shape = Shape { n: 6, k: 3, layers: 1 };
    let transcript = bytes(192, 1);
    let place = archive("stretches_most", shape, 0, &transcript);
    let mut stretches: Vec<_> = (0..MOST).rev().map(|number| 2 * number..3 * number).collect();
    opens(&place, shape, &transcript, &stretches);
    stretches.push(0..0);
    let complaint = "hmsr: --stretch is given 65 times, and may be 64 times at most (see hmsr --help)\n";
    assert_eq!(place.refuses(&format!("open drives part{}", options(&stretches)), USAGE, &[]), complaint);
    // Before anything is looked at.
    assert_eq!(place.refuses(&format!("open nothing part{}", options(&stretches)), USAGE, &[]), complaint);
}

// ---- what is refused

#[test]
fn a_stretch_that_ends_past_the_transcript_is_named() {
    let shape = Shape { n: 6, k: 3, layers: 1 };
    let place = archive("stretches_end", shape, 0, &bytes(100, 1));
    let refusal = "refusal 9 (the byte, or a stretch, is not within the transcript's length)";
    let most = usize::MAX;
    for past in [100..101, 0..101, 0..192, 101..101, 193..193, 0..most, 100..most, most - 1..most, most..most] {
        let Range { start, end } = past;
        let complaint =
            format!("hmsr: stretch {start}..{end} cannot be opened: {refusal}; the transcript has 100 bytes\n");
        // The first such stretch, wherever it stands.
        for list in [vec![past.clone()], vec![0..100, 100..100, past.clone(), 0..102], vec![past.clone(); MOST]] {
            for out in ["part", "-"] {
                let line = format!("open drives {out}{}", options(&list));
                assert_eq!(place.refuses(&line, USAGE, &[]), complaint);
            }
        }
    }
    let place = archive("stretches_end_empty", shape, 0, b"");
    place.refuses("open drives part --stretch 0..1", USAGE, &["stretch 0..1 cannot", "the transcript has 0 bytes"]);
    place.refuses("open drives part --stretch 1..1", USAGE, &["stretch 1..1 cannot", "the transcript has 0 bytes"]);
    let place = archive("stretches_end_one", shape, 0, b"Q");
    place.refuses("open drives part --stretch 1..2", USAGE, &["stretch 1..2 cannot", "the transcript has 1 byte\n"]);
}

/// What is not two numbers with two dots between them, the second not below the first.
const NO_STRETCHES: [&str; 27] = [
    "",
    "1",
    "..",
    "0..",
    "..1",
    "1..0",
    "2..1",
    "0.1",
    "0...1",
    "0..=1",
    "0..1..2",
    "0-1",
    "0,1",
    "0..1,1..2",
    "-1..1",
    "0..-1",
    "0..1.",
    "0 ..1",
    "0.. 1",
    " 0..1",
    "0..1 ",
    "a..b",
    "0..b",
    "0x0..1",
    "0..1e0",
    "\u{661}..2",
    "18446744073709551615..0",
];

#[test]
fn what_is_no_stretch_is_refused() {
    let place = archive("stretches_malformed", Shape { n: 3, k: 1, layers: 1 }, 0, b"no");
    let before = place.contents();
    for given in NO_STRETCHES {
        let complaint = format!(
            "hmsr: --stretch: {given} is not a stretch, which is START..END, with END not below START, for the bytes \
             START to END - 1, counted from 0 (see hmsr --help)\n"
        );
        // Also behind one that is well formed, and before anything is looked at.
        for words in [
            vec!["open", "drives", "part", "--stretch", given],
            vec!["open", "drives", "-", &format!("--stretch={given}")],
            vec!["open", "drives", "part", "--stretch", "0..1", "--stretch", given, "--stretch", "1..2"],
            vec!["open", "nothing", "part", "--stretch", given],
        ] {
            let output = place.command(&words).output().unwrap();
            place.turned_back(given, &output, USAGE, &[&complaint]);
            assert!(place.contents() == before);
        }
    }
    let large = "18446744073709551616";
    for given in [format!("0..{large}"), format!("{large}..0"), format!("{large}..{large}")] {
        let complaint = format!("hmsr: --stretch: {large} is too large (see hmsr --help)\n");
        assert_eq!(place.refuses(&format!("open drives part --stretch {given}"), USAGE, &[]), complaint);
    }
}

#[test]
fn the_option_has_a_value_and_is_of_open() {
    let place = Place::new("stretches_option");
    for (line, complaint) in [
        ("open drives part --stretch", "--stretch needs a value"),
        ("open drives --stretch 0..1", "OUT is missing"),
        ("open drives part more --stretch 0..1 --stretch 0..1", "what is more for?"),
        ("check drives --stretch 0..1", "there is no option --stretch here"),
    ] {
        assert_eq!(place.refuses(line, USAGE, &[]), format!("hmsr: {complaint} (see hmsr --help)\n"), "{line}");
    }
}

#[test]
fn a_file_that_is_there_is_not_opened_into() {
    let place = archive("stretches_out", Shape { n: 4, k: 2, layers: 1 }, 0, b"Q. Were you there?");
    for out in ["transcript", "drives", "drives/node-00.card"] {
        place.refuses(&format!("open drives {out} --stretch 0..1"), IO, &[out, "is there already"]);
    }
    place.refuses("open drives drives/node-09.card --stretch 0..1", USAGE, &["is the name of a card"]);
    place.refuses("open drives no/where --stretch 0..1", IO, &["cannot write no/where"]);
}

/// What `open` says of the cards without stretches.
fn refuses_as_open(place: &Place, status: i32, words: &[&str]) {
    let opened = place.refuses("open drives part", status, words);
    for stretches in [" --stretch 0..1", " --stretch 1..1", " --stretch 1..2 --stretch 0..2"] {
        assert_eq!(place.refuses(&format!("open drives part{stretches}"), status, &[]), opened);
    }
}

#[test]
fn cards_that_are_too_few_or_cannot_be_told_are_refused() {
    let shape = Shape { n: 6, k: 3, layers: 1 };
    let new = |test: &str| archive(&format!("stretches_{test}"), shape, 0, b"no");
    let few = new("few");
    few.lose("drives", &[0, 2, 4]);
    opens(&few, shape, b"no", &[1..2]);
    few.truncate("drives", 3);
    refuses_as_open(&few, LOST, &["2 readable cards (nodes 1, 5) are too few: 3 are needed"]);
    few.lose("drives", &[1, 3, 5]);
    refuses_as_open(&few, LOST, &["drives holds no cards"]);
    // The last symbols are wrong, far behind the stretches.
    let untold = new("untold");
    untold.damage("drives", 3);
    untold.damage("drives", 4);
    refuses_as_open(&untold, LOST, &["do not agree, and it cannot be told which are wrong"]);
    let foreign = new("foreign");
    foreign.does("write transcript others --nodes 6 --data 3 --layers 2");
    fs::copy(foreign.card("others", 3), foreign.card("drives", 20)).unwrap();
    refuses_as_open(&foreign, REPAIRABLE, &["drives/node-20.card is of another archive"]);
}

/// "7 only at wanted bytes" (document 02 §2): a codeword with data symbols 256, and one with a symbol that is not 0
/// behind the end. The byte before and the byte behind open, and so do those in the same columns on other nodes.
#[test]
fn only_wanted_bytes_have_to_be_bytes() {
    let shape = Shape { n: 5, k: 2, layers: 1 };
    let place = Place::new("stretches_no_transcript");
    fs::create_dir(place.path("drives")).unwrap();
    for (at, symbol) in [(10, 256), (40, 256), (60, 256), (63, 1)] {
        let transcript = bytes(60, 1);
        let mut data: Vec<u16> = transcript.iter().copied().map(u16::from).chain([0; 4]).collect();
        data[at] = symbol;
        let nodes = naive::restore(shape, &[0, 1], &data, 5 * 32).unwrap();
        for (node, symbols) in nodes.chunks(32).enumerate() {
            let header = naive::Header { shape, node, length: 60, hearing: 0 };
            fs::write(place.card("drives", node), naive::pack(header, symbols, 79).unwrap()).unwrap();
        }
        let opened = place.refuses("open drives part", LOST, &["the cards do not open: refusal 7"]);
        for lost in [vec![], vec![0], vec![1, 2]] {
            place.lose("drives", &lost);
            if at >= 60 {
                opens(&place, shape, &transcript, &[0..60]);
                continue;
            }
            opens(&place, shape, &transcript, &[at + 1..60, 0..at, at..at]);
            opens(&place, shape, &transcript, &[(at + 32) % 64..(at + 32) % 64 + 1]);
            for stretches in [vec![at..at + 1], vec![0..60], vec![0..at, at + 1..60, at - 1..at + 1]] {
                let line = format!("open drives part{}", options(&stretches));
                assert_eq!(place.refuses(&line, LOST, &[]), opened, "{stretches:?}");
                // 9 is judged before.
                place.refuses(&format!("{line} --stretch 61..61"), USAGE, &["stretch 61..61 cannot be opened"]);
            }
        }
    }
}
