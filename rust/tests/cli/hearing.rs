//! Hearing numbers: on every card that a write makes, kept by repairs, and told where cards of two hearings are in one
//! directory; and cards of any archives listed by hearing.
use std::fs;

use hmsr::{Header, Refusal, Shape};

use crate::json::Json;
use crate::place::{bytes, Place, IO, LOST, REPAIRABLE, USAGE};

const COMMANDS: [&str; 4] =
    ["check drives", "open drives opened", "repair drives", "correct drives --at 0 --from 0 --to 1"];

/// What to do about cards that differ in the hearing number alone.
const ADVICE: &str = "keep the cards of one hearing in a directory";

/// The same transcript for each of these hearings (0 for none), in a directory that is named by the number; and the
/// first once more in `drives`. n = 6, k = 3, L = 3.
fn archives(test: &str, hearings: &[usize]) -> Place {
    let place = Place::new(test);
    fs::write(place.path("transcript"), bytes(500, 1)).unwrap();
    for hearing in hearings {
        place.does(&format!("write transcript {hearing} --nodes 6 --data 3 --hearing {hearing}"));
    }
    place.does(&format!("write transcript drives --nodes 6 --data 3 --hearing {}", hearings[0]));
    place
}

/// Puts the cards of some nodes from a directory into `drives`.
fn mix(place: &Place, from: &str, nodes: &[usize]) {
    for &node in nodes {
        fs::copy(place.card(from, node), place.card("drives", node)).unwrap();
    }
}

// ---- written and kept

/// 700 is 60 + 5 × 128.
#[test]
fn a_hearing_number_is_written_on_every_card() {
    let place = Place::with_archive("hearing_written");
    let report = place.does("write transcript numbered --nodes 6 --data 3 --hearing 700");
    assert_eq!(
        report,
        "wrote 500 bytes into 6 cards in numbered: any 3 of them give it back\n\
         3 layers, 576 bytes at most: any loss of up to 2 nodes is repaired in one go\n\
         hearing 700\n"
    );
    assert_eq!(fs::read_dir(place.path("numbered")).unwrap().count(), 6);
    for node in 0..6 {
        let without = fs::read(place.card("drives", node)).unwrap();
        let (header, symbols) = without.split_at(6);
        assert_eq!(header, [6, 3, 3, node as u8, 244, 3]);
        let card = [&[1], header, &[188, 5], symbols].concat();
        assert_eq!(fs::read(place.card("numbered", node)).unwrap(), card, "node {node}");
    }
}

#[test]
fn every_command_that_reads_tells_the_hearing_number() {
    let place = archives("hearing_read", &[700]);
    assert_eq!(
        place.does("info drives/node-04.card"),
        "node              4 of 0 to 5\n\
         any               3 nodes give the transcript back\n\
         layers            3\n\
         transcript        500 bytes\n\
         hearing           700\n\
         symbols           192\n"
    );
    assert_eq!(
        place.does("info drives/node-04.card --json"),
        "{\"node\":4,\"nodes\":6,\"data\":3,\"layers\":3,\"bytes\":500,\"symbols\":192,\"hearing\":700,\
         \"file\":\"drives/node-04.card\"}\n"
    );
    let archive = "6 nodes, any 3 of them, 3 layers, 500 bytes, hearing 700";
    let sound = format!("sound: all cards are there, agree and hold a transcript ({archive})\n");
    assert_eq!(place.does("check drives"), sound);
    let checked = place.does("check drives --json");
    assert_eq!(format!("{}\n", Json::read(&checked).get("message").text()), sound);
    let archive_for_programs = "\"archive\":{\"nodes\":6,\"data\":3,\"layers\":3,\"bytes\":500,\"hearing\":700}";
    assert!(checked.contains(archive_for_programs), "{checked}");
    let opened = "opened 500 bytes into opened from nodes 0, 1, 2\n3 further cards agree with them\nhearing 700\n";
    assert_eq!(place.opens("drives", &bytes(500, 1)), opened);
    let nothing = format!("nothing to repair: all cards are there and agree ({archive})\n");
    assert_eq!(place.does("repair drives"), nothing);
}

/// The card of document 01, and what the commands say of its archive, as before there were hearing numbers.
#[test]
fn without_a_hearing_number_cards_and_reports_are_as_before() {
    let place = Place::new("hearing_none");
    fs::write(place.path("transcript"), [3, 6]).unwrap();
    for (directory, option) in [("drives", ""), ("zero", " --hearing 0"), ("zeros", " --hearing=000")] {
        let report = place.does(&format!("write transcript {directory} --nodes 3 --data 1 --layers 1{option}"));
        let wrote = format!("wrote 2 bytes into 3 cards in {directory}: any 1 of them gives it back\n");
        assert_eq!(report, wrote + "1 layer, 8 bytes at most: any loss of up to 1 node is repaired in one go\n");
        let card = [3, 1, 1, 1, 2, 253, 1, 247, 1, 0, 0, 0, 0, 0, 0];
        assert_eq!(fs::read(place.card(directory, 1)).unwrap(), card, "{directory}");
    }
    assert_eq!(
        place.does("check drives"),
        "sound: all cards are there, agree and hold a transcript (3 nodes, any 1 of them, 1 layer, 2 bytes)\n"
    );
    assert_eq!(
        place.opens("drives", &[3, 6]),
        "opened 2 bytes into opened from node 0\n2 further cards agree with them\n"
    );
    assert_eq!(
        place.does("info drives/node-01.card"),
        "node              1 of 0 to 2\n\
         any               1 node gives the transcript back\n\
         layers            1\n\
         transcript        2 bytes\n\
         hearing           none\n\
         symbols           8\n"
    );
}

/// Numbers at the ends of the range and where another group of seven bits begins.
#[test]
fn hearing_numbers_are_1_to_999999() {
    let place = Place::new("hearing_range");
    fs::write(place.path("transcript"), [3, 6]).unwrap();
    let groups: [(usize, &[u8]); 6] = [
        (1, &[1]),
        (127, &[127]),
        (128, &[128, 1]),
        (16_383, &[255, 127]),
        (16_384, &[128, 128, 1]),
        (999_999, &[191, 132, 61]),
    ];
    for (hearing, groups) in groups {
        place.does(&format!("write transcript {hearing} --nodes 3 --data 1 --layers 1 --hearing {hearing}"));
        let card = [&[1, 3, 1, 1, 1, 2], groups, &[253, 1, 247, 1, 0, 0, 0, 0, 0, 0]].concat();
        assert_eq!(fs::read(place.card(&hearing.to_string(), 1)).unwrap(), card, "{hearing}");
        let info = place.does(&format!("info {hearing}/node-01.card"));
        assert!(info.contains(&format!("\nhearing           {hearing}\n")), "{info}");
    }
}

/// The transcript is not there: the number is judged before it is looked for.
#[test]
fn other_hearing_numbers_are_refused() {
    let place = Place::new("hearing_refused");
    for (given, complaint) in [
        ("--hearing 1000000", "--hearing: 1000000 is too large, hearing numbers are 1 to 999999, or 0 for none"),
        (
            "--hearing 18446744073709551615",
            "--hearing: 18446744073709551615 is too large, hearing numbers are 1 to 999999, or 0 for none",
        ),
        ("--hearing 18446744073709551616", "--hearing: 18446744073709551616 is too large"),
        ("--hearing seven", "--hearing: seven is not a whole number"),
        ("--hearing -1", "--hearing: -1 is not a whole number"),
        ("--hearing=", "--hearing:  is not a whole number"),
        ("--hearing 7 --hearing 7", "--hearing is given twice"),
        ("--hearing", "--hearing needs a value"),
    ] {
        let line = format!("write nothing new --nodes 6 --data 3 {given}");
        assert_eq!(place.refuses(&line, USAGE, &[]), format!("hmsr: {complaint} (see hmsr --help)\n"));
    }
    place.refuses("write nothing new --nodes 6 --data 3 --hearing 999999", IO, &["cannot read nothing"]);
    for line in ["check drives --hearing 7", "open drives out --hearing 7", "repair drives --hearing 7"] {
        place.refuses(line, USAGE, &["there is no option --hearing here"]);
    }
}

#[test]
fn a_repair_keeps_the_hearing_number() {
    for hearing in [700, 999_999] {
        let place = archives("hearing_repaired", &[hearing]);
        let written = place.contents();
        place.lose("drives", &[0]);
        place.truncate("drives", 5);
        let report = place.does("repair drives");
        assert!(report.ends_with("\nmade drives/node-00.card, drives/node-05.card\n"), "{report}");
        assert!(place.contents() == written, "{hearing}");
    }
}

#[test]
fn the_same_write_again_finishes_cards_with_a_hearing_number() {
    let place = archives("hearing_finished", &[700, 701]);
    let written = place.contents();
    place.lose("drives", &[0, 1, 3, 5]);
    let report = place.does("write transcript drives --nodes 6 --data 3 --hearing 700");
    assert_eq!(
        report,
        "wrote 500 bytes into 6 cards in drives: any 3 of them give it back\n\
         3 layers, 576 bytes at most: any loss of up to 2 nodes is repaired in one go\n\
         hearing 700\n\
         2 of these cards were there already\n"
    );
    assert!(place.contents() == written);
    // The same transcript of another hearing is no write again.
    place.lose("drives", &[0]);
    for hearing in ["--hearing 701", "--hearing 0"] {
        let line = format!("write transcript drives --nodes 6 --data 3 {hearing}");
        let there = "hmsr: drives/node-01.card is there already: choose another directory\n";
        assert_eq!(place.refuses(&line, IO, &[]), there);
    }
}

// ---- cards of two hearings in one directory

/// Every command turns back with the same line, and changes nothing.
fn all_refuse(place: &Place, status: i32, complaint: &str) {
    for line in COMMANDS {
        assert_eq!(place.refuses(line, status, &[]), format!("hmsr: {complaint}\n"), "{line}");
    }
}

#[test]
fn cards_of_another_hearing_than_most_are_named() {
    for (meant, other, complaint) in [
        (700, 701, "drives/node-03.card has hearing number 701, most here have 700"),
        (700, 0, "drives/node-03.card has no hearing number, most here have 700"),
        (0, 701, "drives/node-03.card has hearing number 701, most here have no hearing number"),
    ] {
        let place = archives("hearing_most", &[meant, other]);
        let written = place.contents();
        mix(&place, &other.to_string(), &[3]);
        all_refuse(&place, REPAIRABLE, &format!("{complaint}: {ADVICE}"));
        place.lose("drives", &[3]);
        place.does("repair drives");
        assert!(place.contents() == written, "{complaint}");
    }
    // Under another name than its own, and with its node's card there.
    let place = archives("hearing_besides", &[700, 701]);
    fs::copy(place.card("701", 3), place.card("drives", 20)).unwrap();
    let complaint = "drives/node-20.card has hearing number 701, most here have 700";
    all_refuse(&place, REPAIRABLE, &format!("{complaint}: {ADVICE}"));
}

#[test]
fn cards_of_several_other_hearings_are_all_named() {
    let place = archives("hearing_several", &[700, 701, 0]);
    mix(&place, "701", &[4, 5]);
    let complaint = "drives/node-04.card, drives/node-05.card have hearing number 701, most here have 700";
    all_refuse(&place, REPAIRABLE, &format!("{complaint}: {ADVICE}"));
    mix(&place, "0", &[1]);
    let complaint = "drives/node-01.card has no hearing number and drives/node-04.card, drives/node-05.card have \
                     hearing number 701, most here have 700";
    all_refuse(&place, REPAIRABLE, &format!("{complaint}: {ADVICE}"));
}

/// Cards of another shape or length are of another archive, as before, with their hearing number; beside them, those
/// that differ in the number alone.
#[test]
fn cards_of_another_archive_are_told_from_those_of_another_hearing() {
    let place = archives("hearing_archive", &[700, 701]);
    fs::write(place.path("other"), bytes(499, 1)).unwrap();
    place.does("write other others --nodes 6 --data 3 --hearing 701");
    mix(&place, "others", &[2]);
    let of_another = "drives/node-02.card is of another archive (6 nodes, any 3 of them, 3 layers, 499 bytes, hearing \
                      701) than most here (6 nodes, any 3 of them, 3 layers, 500 bytes, hearing 700): keep the cards \
                      of one archive in a directory";
    all_refuse(&place, REPAIRABLE, of_another);
    mix(&place, "701", &[0]);
    let of_hearing = "drives/node-00.card has hearing number 701, most here have 700";
    all_refuse(&place, REPAIRABLE, &format!("{of_another}; {of_hearing}: {ADVICE}"));
}

/// Three cards against three, and two against two where three are needed.
#[test]
fn where_no_hearing_has_most_cards_none_is_used() {
    for (one, other, [of_one, of_other]) in [
        (700, 701, ["hearing 700", "hearing 701"]),
        (700, 0, ["hearing 700", "no hearing number"]),
        (0, 701, ["no hearing number", "hearing 701"]),
    ] {
        let place = archives("hearing_undecided", &[one, other]);
        let shape = "6 nodes, any 3 of them, 3 layers, 500 bytes";
        let undecided = |names: [&str; 2]| {
            format!(
                "the cards in drives are of different archives, and it cannot be told which is meant: {} ({shape}, \
                 {of_one}) or {} ({shape}, {of_other}); none is used: find more cards of the one that is meant",
                names[0], names[1]
            )
        };
        mix(&place, &other.to_string(), &[3, 4, 5]);
        let names = ["node-00.card, node-01.card, node-02.card", "node-03.card, node-04.card, node-05.card"];
        all_refuse(&place, LOST, &undecided(names));
        place.lose("drives", &[1, 4]);
        all_refuse(&place, LOST, &undecided(["node-00.card, node-02.card", "node-03.card, node-05.card"]));
        // One card more decides.
        mix(&place, &one.to_string(), &[1]);
        place.refuses("check drives", REPAIRABLE, &["drives/node-03.card, drives/node-05.card have ", ADVICE]);
    }
}

#[test]
fn cards_of_two_hearings_are_told_to_programs() {
    let place = archives("hearing_json", &[700, 701]);
    mix(&place, "701", &[3]);
    let complaint = format!("drives/node-03.card has hearing number 701, most here have 700: {ADVICE}");
    let output = place.run("check drives --json");
    assert_eq!(output.status.code(), Some(REPAIRABLE));
    assert_eq!(String::from_utf8(output.stderr).unwrap(), format!("hmsr: {complaint}\n"));
    let node = |node: usize, state: &str, files: &str| {
        format!("{{\"node\":{node},\"state\":\"{state}\",\"files\":[{files}]}}")
    };
    let good = |number: usize| node(number, "good", &format!("\"node-0{number}.card\""));
    let nodes = [good(0), good(1), good(2), node(3, "missing", ""), good(4), good(5)].join(",");
    assert_eq!(
        String::from_utf8(output.stdout).unwrap(),
        format!(
            "{{\"status\":1,\"verdict\":\"repairable\",\"message\":\"{complaint}\",\"archive\":{{\"nodes\":6,\
             \"data\":3,\"layers\":3,\"bytes\":500,\"hearing\":700}},\"nodes\":[{nodes}]}}\n"
        )
    );
    mix(&place, "701", &[4, 5]);
    let output = place.run("check drives --json");
    assert_eq!(output.status.code(), Some(LOST));
    assert_eq!(Json::read(&String::from_utf8(output.stdout).unwrap()).get("archive"), &Json::Null);
}

// ---- a drawer of cards

/// Headers in the order in which cards are listed: (hearing, nodes, data, layers, bytes, node). From the second on, the
/// first number in which two neighbours differ rises and none behind it does; 7 goes before 12 as a number. The last
/// two are the same.
const DRAWER: [[usize; 6]; 11] = [
    [0, 3, 1, 2, 16, 2],
    [0, 14, 12, 4, 100_000, 13],
    [7, 5, 3, 3, 90, 4],
    [7, 6, 2, 2, 80, 3],
    [7, 6, 3, 1, 70, 2],
    [7, 6, 3, 2, 60, 1],
    [7, 6, 3, 2, 65, 0],
    [7, 6, 3, 2, 65, 5],
    [12, 3, 1, 1, 2, 0],
    [999_999, 3, 1, 1, 1, 0],
    [999_999, 3, 1, 1, 1, 0],
];

const LISTED: &str = "\
hearing  node  nodes  data  layers    bytes  file
   none     2      3     1       2       16  drawer/k
   none    13     14    12       4   100000  drawer/j
      7     4      5     3       3       90  drawer/i
      7     3      6     2       2       80  drawer/h
      7     2      6     3       1       70  drawer/g
      7     1      6     3       2       60  drawer/f
      7     0      6     3       2       65  drawer/e
      7     5      6     3       2       65  drawer/d
     12     0      3     1       1        2  drawer/c
 999999     0      3     1       1        1  drawer/a
 999999     0      3     1       1        1  drawer/b
";

/// The cards in files whose names go the other way, but for the last two, which nothing else tells apart.
fn drawer(test: &str) -> Place {
    let place = Place::new(test);
    fs::create_dir(place.path("drawer")).unwrap();
    for ([hearing, nodes, data, layers, length, node], name) in DRAWER.into_iter().zip("kjihgfedcab".chars()) {
        let shape = Shape::new(nodes, data, layers).unwrap();
        let symbols = vec![0; shape.node_symbols().unwrap()];
        let card = Header { shape, node, length, hearing }.pack_to_vec(&symbols).unwrap();
        fs::write(place.path(&format!("drawer/{name}")), card).unwrap();
    }
    place
}

/// The arguments of an `info` of the whole drawer, in the order of names.
fn whole_drawer() -> String {
    ('a'..='k').map(|name| format!(" drawer/{name}")).collect()
}

#[test]
fn a_drawer_of_cards_is_listed_by_hearing() {
    let place = drawer("drawer");
    assert_eq!(place.does(&format!("info{}", whole_drawer())), LISTED);
    let lines: String = DRAWER
        .iter()
        .zip("kjihgfedcab".chars())
        .map(|([hearing, nodes, data, layers, length, node], name)| {
            format!(
                "{{\"node\":{node},\"nodes\":{nodes},\"data\":{data},\"layers\":{layers},\"bytes\":{length},\
                 \"symbols\":{},\"hearing\":{hearing},\"file\":\"drawer/{name}\"}}\n",
                layers << nodes
            )
        })
        .collect();
    assert_eq!(place.does(&format!("info --json{}", whole_drawer())), lines);
    assert!(lines.split_inclusive('\n').all(|line| Json::read(line).get("file").text().starts_with("drawer/")));
    // The same card twice is two cards.
    let [heading, first] = [0, 1].map(|line| LISTED.lines().nth(line).unwrap());
    assert_eq!(place.does("info drawer/k drawer/k"), format!("{heading}\n{first}\n{first}\n"));
}

#[test]
fn unreadable_files_in_a_drawer_are_named_and_the_others_listed() {
    let place = drawer("drawer_unreadable");
    fs::write(place.path("cut"), [1, 3, 1, 1, 1, 2]).unwrap();
    fs::write(place.path("empty"), []).unwrap();
    let no_card = |name: &str| format!("{name} is not a readable card: refusal 6, {}", Refusal::Malformed);
    let no_file = "nothing is not a readable card: No such file or directory (os error 2)";
    let no_search = "drawer is not a readable card: not a file";
    let before = place.contents();
    for (others, status, complaint) in [
        (" cut", LOST, no_card("cut")),
        (" empty cut", LOST, format!("{}; {}", no_card("empty"), no_card("cut"))),
        (" cut nothing empty", IO, format!("{}; {no_file}; {}", no_card("cut"), no_card("empty"))),
        (" drawer", IO, no_search.to_string()),
    ] {
        let output = place.run(&format!("info{others}{}", whole_drawer()));
        assert_eq!(output.status.code(), Some(status), "{others}");
        assert_eq!(String::from_utf8(output.stderr).unwrap(), format!("hmsr: {complaint}\n"));
        assert_eq!(String::from_utf8(output.stdout).unwrap(), LISTED);
    }
    // With no readable card there is nothing to list; one alone is told as one of several is.
    for json in ["", "--json "] {
        let complaint = format!("hmsr: {}; {no_file}\n", no_card("cut"));
        assert_eq!(place.refuses(&format!("info {json}cut nothing"), IO, &[]), complaint);
        assert_eq!(place.refuses(&format!("info {json}cut"), LOST, &[]), format!("hmsr: {}\n", no_card("cut")));
        assert_eq!(place.refuses(&format!("info {json}nothing"), IO, &[]), format!("hmsr: {no_file}\n"));
    }
    let output = place.run("info --json cut drawer/k");
    assert_eq!(output.status.code(), Some(LOST));
    assert_eq!(String::from_utf8(output.stdout).unwrap(), place.does("info --json drawer/k"));
    assert!(place.contents() == before);
}

#[test]
fn odd_names_in_a_drawer_stay_on_their_lines() {
    let place = drawer("drawer_names");
    let odd = "two\nlines\u{1b}\u{202e}\"\\";
    fs::copy(place.path("drawer/c"), place.path(odd)).unwrap();
    fs::copy(place.path("drawer/c"), place.path("--json")).unwrap();
    let output = place.command(&["info", "--", odd, "--json"]).output().unwrap();
    let line = |name: &str| format!("     12     0      3     1       1        2  {name}\n");
    let lines = [line("--json"), line("two\\nlines\\u{1b}\\u{202e}\"\\")].concat();
    let heading = LISTED.lines().next().unwrap();
    assert_eq!(String::from_utf8(output.stdout).unwrap(), format!("{heading}\n{lines}"));
    let output = place.command(&["info", "--json", odd]).output().unwrap();
    let printed = String::from_utf8(output.stdout).unwrap();
    assert!(printed.ends_with(",\"file\":\"two\\u000alines\\u001b\\u202e\\\"\\\\\"}\n"), "{printed}");
    assert_eq!(Json::read(&printed).get("file").text(), odd);
}
