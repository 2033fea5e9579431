//! Corrections of one byte: the cards that the corrected transcript gives, those that stay, and what is refused.
use std::collections::BTreeMap;
use std::fs;
use std::os::unix::fs::{symlink, MetadataExt, PermissionsExt};
use std::path::PathBuf;

use crate::naive;
use crate::place::{bytes, Place, IO, LOST, REPAIRABLE, USAGE};

/// An archive of these bytes in `drives`, written by the program.
pub fn archive(test: &str, shape: naive::Shape, hearing: usize, transcript: &[u8]) -> Place {
    let place = Place::new(test);
    fs::write(place.path("transcript"), transcript).unwrap();
    let naive::Shape { n, k, layers } = shape;
    place
        .does(&format!("write transcript drives --nodes {n} --data {k} --layers {layers} --hearing {hearing} --quiet"));
    place
}

/// The cards of a transcript, by the naive archive.
fn expected(place: &Place, shape: naive::Shape, hearing: usize, transcript: &[u8]) -> BTreeMap<PathBuf, Vec<u8>> {
    let size = shape.symbols();
    let nodes = naive::write(shape, transcript, shape.n * size).unwrap();
    let card = |(node, symbols): (usize, &[u16])| {
        let header = naive::Header { shape, node, length: transcript.len(), hearing };
        (place.card("drives", node), naive::pack(header, symbols, 15 + 2 * size).unwrap())
    };
    nodes.chunks(size).enumerate().map(card).collect()
}

/// The files of `drives` with their bytes.
fn cards(place: &Place) -> BTreeMap<PathBuf, Vec<u8>> {
    let entries = fs::read_dir(place.path("drives")).unwrap().map(|entry| entry.unwrap().path());
    entries.map(|path| (path.clone(), fs::read(path).unwrap())).collect()
}

/// The file that has each card's name, and when it was changed.
fn identities(place: &Place, nodes: usize) -> Vec<[i64; 3]> {
    let identity = |node| {
        let there = fs::symlink_metadata(place.card("drives", node)).unwrap();
        [there.ino() as i64, there.mtime(), there.mtime_nsec()]
    };
    (0..nodes).map(identity).collect()
}

/// "At most r+1 symbols, one a node, differ: the byte's own and one in each check node" (document 02 §10).
fn changed(shape: naive::Shape, byte: usize) -> Vec<usize> {
    std::iter::once(byte / shape.symbols()).chain(shape.k..shape.n).collect()
}

// ---- the work

/// The first byte, the last, and the first and last of a node, in archives of the least and of more check nodes.
#[test]
fn corrected_cards_are_those_of_the_corrected_transcript() {
    for (n, k, layers, hearing) in [(3, 1, 1, 0), (6, 3, 3, 700), (5, 3, 2, 0), (7, 2, 1, 999_999), (8, 6, 1, 1)] {
        let shape = naive::Shape { n, k, layers };
        let mut transcript = bytes(shape.capacity() - 3, 5);
        let place = archive("correct_work", shape, hearing, &transcript);
        let size = shape.symbols();
        for byte in [0, transcript.len() - 1, size * (k - 1), (size * (k - 1)).saturating_sub(1)] {
            let (from, to) = (transcript[byte], transcript[byte].wrapping_mul(7).wrapping_add(1));
            assert!(from != to);
            let before = identities(&place, n);
            place.does(&format!("correct drives --at {byte} --from {from} --to {to}"));
            transcript[byte] = to;
            assert!(cards(&place) == expected(&place, shape, hearing, &transcript), "{shape:?}, byte {byte}");
            let after = identities(&place, n);
            let other: Vec<usize> = (0..n).filter(|&node| before[node] != after[node]).collect();
            assert_eq!(other, changed(shape, byte), "{shape:?}, byte {byte}");
        }
        place.opens("drives", &transcript);
        assert!(place.does("check drives").starts_with("sound"));
    }
}

/// 0 to 255 and back, the largest changes.
#[test]
fn every_byte_can_be_given_by_its_number() {
    let shape = naive::Shape { n: 4, k: 2, layers: 1 };
    let place = archive("correct_numbers", shape, 0, &bytes(32, 1));
    let mut transcript = bytes(32, 1);
    for to in (0..=255).chain([0]) {
        let from = transcript[20];
        transcript[20] = to;
        place.does(&format!("correct drives --at 20 --from {from} --to {to}"));
        assert!(cards(&place) == expected(&place, shape, 0, &transcript), "{from} to {to}");
    }
}

/// Every printable character by itself, but for digits.
#[test]
fn every_printable_character_but_digits_is_a_byte() {
    let shape = naive::Shape { n: 3, k: 1, layers: 1 };
    let place = archive("correct_characters", shape, 0, &[31]);
    let mut there = 31;
    for to in b' '..=b'~' {
        let named = [there, to].map(|byte| match byte {
            b' '..=b'~' if !byte.is_ascii_digit() => char::from(byte).to_string(),
            _ => byte.to_string(),
        });
        let words = ["correct", "drives", "--at", "0", "--from", &named[0], "--to", &named[1]];
        let output = place.command(&words).output().unwrap();
        assert!(output.status.success(), "{words:?}: {}", String::from_utf8_lossy(&output.stderr));
        assert!(cards(&place) == expected(&place, shape, 0, &[to]), "{words:?}");
        there = to;
    }
    // A digit is a number.
    place.does("correct drives --at=0 --from=~ --to=7");
    assert!(cards(&place) == expected(&place, shape, 0, &[7]));
}

/// "Mostly a letter" (document 02 §10); with every line of the report.
#[test]
fn the_report_says_what_was_changed() {
    let shape = naive::Shape { n: 6, k: 3, layers: 1 };
    let transcript = [&[10; 64][..], b"the witness sajd no\n"].concat();
    let place = archive("correct_report", shape, 700, &transcript);
    let line = "correct drives --at 78 --from j --to i";
    let report = |rewrote: &str| {
        format!(
            "correction of byte 78, on node 1 at place 14, from 106 ('j') to 105 ('i')\n{rewrote} \
             drives/node-01.card, drives/node-03.card, drives/node-04.card, drives/node-05.card\nhearing 700\n"
        )
    };
    fs::write(place.path("drives/.hmsr-1-0.tmp"), "a killed command's").unwrap();
    let before = place.contents();
    assert_eq!(place.does(&format!("{line} --dry-run")), report("not rewritten, as this is a dry run:"));
    assert!(place.contents() == before);
    assert_eq!(place.does(line), report("rewrote"));
    assert!(!place.path("drives/.hmsr-1-0.tmp").exists());
    // No character, no hearing number, and a card under another name, which it keeps.
    let place = archive("correct_report_plain", shape, 0, &transcript);
    fs::rename(place.card("drives", 4), place.card("drives", 44)).unwrap();
    assert_eq!(
        place.does("correct drives --at 63 --from 10 --to 32"),
        "correction of byte 63, on node 0 at place 63, from 10 to 32 (' ')\nrewrote drives/node-00.card, \
         drives/node-03.card, drives/node-44.card, drives/node-05.card\n\
         note: node-44.card is the card of node 4, and read as such\n"
    );
    assert!(place.does("check drives").starts_with("sound"));
}

#[test]
fn a_byte_that_is_right_already_is_left() {
    let place = archive("correct_same", naive::Shape { n: 4, k: 1, layers: 1 }, 7, b"no");
    let before = identities(&place, 4);
    assert_eq!(
        place.does("correct drives --at 1 --from o --to 111"),
        "nothing to correct: byte 1 is 111 ('o') already, no card is rewritten (4 nodes, any 1 of them, 1 layer, 2 \
         bytes, hearing 7)\n"
    );
    assert_eq!(identities(&place, 4), before);
    place.refuses("correct drives --at 1 --from p --to p", USAGE, &["byte 1 is 111 ('o'), not 112 ('p')"]);
}

// ---- files

/// Read-only cards too: what is renamed is a name in the directory.
#[test]
fn the_permissions_of_a_corrected_card_are_kept() {
    let place = archive("correct_modes", naive::Shape { n: 4, k: 1, layers: 1 }, 0, b"no");
    let modes = [0o640, 0o444, 0o604, 0o600];
    for (node, mode) in modes.into_iter().enumerate() {
        fs::set_permissions(place.card("drives", node), fs::Permissions::from_mode(mode)).unwrap();
    }
    place.does("correct drives --at 0 --from n --to g");
    for (node, mode) in modes.into_iter().enumerate() {
        assert_eq!(fs::metadata(place.card("drives", node)).unwrap().permissions().mode() & 0o7777, mode);
    }
    place.opens("drives", b"go");
}

/// A second name of a card, elsewhere, keeps the card as it was. A link is not replaced by a file, nor a copy left.
#[test]
fn links_and_copies_are_not_lost() {
    let shape = naive::Shape { n: 4, k: 2, layers: 1 };
    let place = archive("correct_links", shape, 0, b"no");
    let line = "correct drives --at 0 --from n --to g";
    let card = place.card("drives", 3);
    let old = fs::read(&card).unwrap();
    fs::hard_link(&card, place.path("second")).unwrap();
    place.does(line);
    assert!(fs::read(place.path("second")).unwrap() == old && fs::read(&card).unwrap() != old);
    place.does("correct drives --at 0 --from g --to n");
    fs::rename(&card, place.path("elsewhere")).unwrap();
    symlink("../elsewhere", &card).unwrap();
    for line in [line, &format!("{line} --dry-run")] {
        place.refuses(line, IO, &["drives/node-03.card is a link and would be replaced: put the card itself there"]);
    }
    assert!(card.is_symlink());
    fs::rename(place.path("elsewhere"), &card).unwrap();
    fs::copy(&card, place.card("drives", 20)).unwrap();
    let words = ["drives/node-03.card, drives/node-20.card are all cards of node 3: move all but one away"];
    place.refuses(line, REPAIRABLE, &words);
    place.lose("drives", &[3]);
    place.does(line);
    // Node 1 has a link and a copy, and is not rewritten.
    fs::rename(place.card("drives", 20), &card).unwrap();
    fs::rename(place.card("drives", 1), place.path("elsewhere")).unwrap();
    symlink("../elsewhere", place.card("drives", 1)).unwrap();
    fs::copy(place.path("elsewhere"), place.card("drives", 21)).unwrap();
    let report = place.does("correct drives --at 0 --from g --to s");
    assert!(report.ends_with("\nnote: node-21.card is a copy of node-01.card\n"), "{report}");
    place.opens("drives", b"so");
}

// ---- refusals

#[test]
fn a_byte_that_is_another_is_told() {
    let place = archive("correct_another", naive::Shape { n: 6, k: 3, layers: 1 }, 0, b"na 7\n\xff");
    for (at, from, complaint) in [
        (1, "o", "byte 1 is 97 ('a'), not 111 ('o'): nothing is changed"),
        (1, "0", "byte 1 is 97 ('a'), not 0: nothing is changed"),
        (2, "9", "byte 2 is 32 (' '), not 9: nothing is changed"),
        (3, "7", "byte 3 is 55 ('7'), not 7 (the digit is given by its number, 55): nothing is changed"),
        (4, "n", "byte 4 is 10, not 110 ('n'): nothing is changed"),
        (5, "a", "byte 5 is 255, not 97 ('a'): nothing is changed"),
        (0, "a", "byte 0 is 110 ('n') already, not 97 ('a'): nothing is changed"),
    ] {
        let line = format!("correct drives --at {at} --from {from} --to n");
        assert_eq!(place.refuses(&line, USAGE, &[]), format!("hmsr: {complaint}\n"));
        place.refuses(&format!("{line} --dry-run"), USAGE, &[complaint]);
    }
}

#[test]
fn a_byte_past_the_end_is_refused() {
    let shape = naive::Shape { n: 6, k: 3, layers: 1 };
    let place = archive("correct_end", shape, 0, &bytes(100, 1));
    for at in ["100", "191", "192", "18446744073709551615"] {
        let complaint = format!(
            "hmsr: byte {at} cannot be corrected: refusal 9 (the byte, or a stretch, is not within the transcript's length); \
             the transcript's bytes are 0 to 99\n"
        );
        assert_eq!(place.refuses(&format!("correct drives --at {at} --from 0 --to 1"), USAGE, &[]), complaint);
        assert_eq!(place.refuses(&format!("correct drives --at {at} --from 0 --to 0"), USAGE, &[]), complaint);
    }
    let place = archive("correct_empty", shape, 0, b"");
    place.refuses("correct drives --at 0 --from 0 --to 1", USAGE, &["refusal 9", "the transcript has no bytes"]);
}

#[test]
fn what_is_no_byte_is_refused() {
    let place = archive("correct_no_byte", naive::Shape { n: 3, k: 1, layers: 1 }, 0, b"no");
    let before = place.contents();
    let what = "which is a number 0 to 255 or one printable ASCII character";
    for (given, complaint) in [
        ("256", "256 is too large, bytes are 0 to 255".to_string()),
        ("99999999999999999999", "99999999999999999999 is too large, bytes are 0 to 255".to_string()),
        ("", format!(" is not a byte, {what}")),
        ("no", format!("no is not a byte, {what}")),
        ("-1", format!("-1 is not a byte, {what}")),
        ("+1", format!("+1 is not a byte, {what}")),
        ("1.", format!("1. is not a byte, {what}")),
        (" 1", format!(" 1 is not a byte, {what}")),
        ("\u{e9}", format!("\u{e9} is not a byte, {what}")),
        ("\u{7f}", format!("\\u{{7f}} is not a byte, {what}")),
        ("\t", format!("\\t is not a byte, {what}")),
    ] {
        for (option, other) in [("--from", "--to"), ("--to", "--from")] {
            let words = ["correct", "drives", "--at", "0", option, given, other, "n"];
            let output = place.command(&words).output().unwrap();
            place.turned_back(given, &output, USAGE, &[&format!("hmsr: {option}: {complaint} (see hmsr --help)\n")]);
            assert!(place.contents() == before);
        }
    }
    place.refuses("correct drives --at -1 --from n --to g", USAGE, &["--at: -1 is not a whole number"]);
    place.refuses("correct drives --at n --from n --to g", USAGE, &["--at: n is not a whole number"]);
}

/// What `check` says of the cards.
fn refuses_as_check(place: &Place, status: i32, words: &[&str]) {
    let checked = place.refuses("check drives", status, words);
    for line in ["correct drives --at 0 --from n --to g", "correct drives --at 0 --from n --to g --dry-run"] {
        assert_eq!(place.refuses(line, status, &[]), checked);
    }
}

#[test]
fn an_archive_that_is_not_sound_is_not_corrected() {
    let shape = naive::Shape { n: 6, k: 3, layers: 1 };
    let new = |test: &str| archive(&format!("correct_{test}"), shape, 0, b"no");
    let missing = new("missing");
    missing.lose("drives", &[1]);
    refuses_as_check(&missing, REPAIRABLE, &["node 1 is missing; the other 5 agree: run hmsr repair"]);
    missing.lose("drives", &[0, 2, 3]);
    refuses_as_check(&missing, LOST, &["2 readable cards (nodes 4, 5) are too few: 3 are needed"]);
    let unreadable = new("unreadable");
    unreadable.truncate("drives", 5);
    refuses_as_check(&unreadable, REPAIRABLE, &["node 5 cannot be read (refusal 6", "run hmsr repair"]);
    for node in 0..6 {
        let wrong = new("wrong");
        wrong.damage("drives", node);
        let named = format!("drives/node-0{node}.card does not agree with the others");
        refuses_as_check(&wrong, REPAIRABLE, &[&named, "move it away, then repair"]);
        wrong.damage("drives", (node + 1) % 6);
        refuses_as_check(&wrong, LOST, &["it cannot be told which are wrong", "the same correction again"]);
        wrong.lose("drives", &[(node + 2) % 6]);
        refuses_as_check(&wrong, LOST, &["it cannot be told which are wrong", "or other copies of these\n"]);
    }
    let foreign = new("foreign");
    foreign.does("write transcript others --nodes 6 --data 3 --layers 2");
    fs::copy(foreign.card("others", 3), foreign.card("drives", 20)).unwrap();
    refuses_as_check(&foreign, REPAIRABLE, &["drives/node-20.card is of another archive"]);
    let doubt = new("doubt");
    fs::copy(doubt.card("drives", 4), doubt.card("drives", 20)).unwrap();
    doubt.damage("drives", 20);
    refuses_as_check(&doubt, REPAIRABLE, &["node-04.card and node-20.card are its cards and differ"]);
    let directory = new("directory");
    directory.lose("drives", &[4]);
    fs::create_dir(directory.card("drives", 4)).unwrap();
    refuses_as_check(&directory, REPAIRABLE, &["drives/node-04.card is not a file: move it away"]);
}

/// Codewords with a data symbol 256, and with one that is not 0 behind the end.
#[test]
fn cards_that_hold_no_transcript_are_not_corrected() {
    let shape = naive::Shape { n: 5, k: 2, layers: 1 };
    let place = Place::new("correct_no_transcript");
    fs::create_dir(place.path("drives")).unwrap();
    for (at, symbol, words) in [(40, 256, "they hold no transcript"), (63, 1, "refusal 7")] {
        let mut data = vec![0; 64];
        (data[0], data[1], data[at]) = (110, 111, symbol);
        let nodes = naive::restore(shape, &[0, 1], &data, 5 * 32).unwrap();
        for (node, symbols) in nodes.chunks(32).enumerate() {
            let header = naive::Header { shape, node, length: 60, hearing: 0 };
            fs::write(place.card("drives", node), naive::pack(header, symbols, 79).unwrap()).unwrap();
        }
        refuses_as_check(&place, LOST, &[words]);
    }
}
