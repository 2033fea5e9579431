//! Cards under wrong names, and cards whose headers do not agree: no advice loses a card, and nothing is guessed.
use std::fs;

use crate::place::{bytes, Place, LOST, REPAIRABLE};

/// The names that a complaint advises to give to a file.
fn advised_names(complaint: &str) -> Vec<String> {
    complaint.split("rename it to ").skip(1).map(|rest| rest.split(',').next().unwrap().trim().to_string()).collect()
}

#[test]
fn cards_with_exchanged_names_are_read_by_their_headers() {
    let place = Place::with_archive("exchanged");
    place.swap("drives", 1, 4);
    for line in ["check drives", "repair drives"] {
        let before = place.contents();
        let report = place.does(line);
        assert!(report.contains("note: node-01.card is the card of node 4, and read as such\n"), "{line}: {report}");
        assert!(report.contains("note: node-04.card is the card of node 1, and read as such\n"), "{line}: {report}");
        assert!(place.contents() == before, "{line}");
    }
    // Only the two and one more are left: both are needed, and each as the node of its header.
    place.lose("drives", &[0, 2, 5]);
    assert!(place.opens("drives", &bytes(500, 1)).contains("from nodes 1, 3, 4\n"));
}

#[test]
fn a_card_under_a_free_name_is_read_by_its_header() {
    let place = Place::with_archive("renamed");
    fs::rename(place.card("drives", 5), place.card("drives", 6)).unwrap();
    assert!(place.does("check drives").contains("sound") && place.does("repair drives").contains("nothing to repair"));
    assert!(place.opens("drives", &bytes(500, 1)).contains("node-06.card is the card of node 5"));
}

#[test]
fn no_move_onto_an_existing_file_is_advised() {
    let place = Place::with_archive("in_the_way");
    let written = place.contents();
    // Node 3's card is gone; its name has node 4's card, whose name has node 5's, whose name is free.
    fs::rename(place.card("drives", 4), place.card("drives", 3)).unwrap();
    fs::rename(place.card("drives", 5), place.card("drives", 4)).unwrap();
    let mut renamed = Vec::new();
    // Following the advice, however often, loses nothing and ends in a repair.
    while !place.run("repair drives").status.success() {
        let complaint = place.refuses("repair drives", REPAIRABLE, &["node-03.card is the card of node 4"]);
        let check =
            place.refuses("check drives", REPAIRABLE, &["node-03.card is the card of node 4", "then run hmsr repair"]);
        let [name] = &advised_names(&complaint)[..] else { panic!("{complaint}") };
        assert_eq!(advised_names(&check), [&**name]);
        let target = place.path("drives").join(name);
        assert!(!target.exists(), "{complaint}");
        fs::rename(place.card("drives", 3), target).unwrap();
        renamed.push(name.clone());
        assert!(renamed.len() < 3, "{renamed:?}");
    }
    assert!(place.does("check drives").starts_with("sound"));
    for node in 0..4 {
        assert!(fs::read(place.card("drives", node)).ok().as_ref() == written[&place.card("drives", node)].as_ref());
    }
}

#[test]
fn a_copy_under_another_name_is_one_card() {
    let place = Place::with_archive("copied");
    let written = place.contents();
    fs::copy(place.card("drives", 4), place.card("drives", 3)).unwrap();
    assert!(place.opens("drives", &bytes(500, 1)).contains("note: node-03.card is a copy of node-04.card\n"));
    for line in ["check drives", "repair drives"] {
        place.refuses(line, REPAIRABLE, &["node-03.card is a copy of node-04.card: move it away"]);
    }
    fs::rename(place.card("drives", 3), place.path("away")).unwrap();
    place.does("repair drives");
    fs::remove_file(place.path("away")).unwrap();
    assert!(place.contents() == written);
}

#[test]
fn of_two_cards_of_one_node_that_differ_neither_is_used() {
    let place = Place::with_archive("doubt");
    let written = place.contents();
    fs::copy(place.card("drives", 4), place.card("drives", 3)).unwrap();
    place.damage("drives", 3);
    let doubt = "node 4 cannot be told (node-03.card and node-04.card are its cards and differ)";
    let report = place.opens("drives", &bytes(500, 1));
    assert!(report.contains("from nodes 0, 1, 2\n") && report.contains(doubt), "{report}");
    let differ = ["node-03.card", "node-04.card are cards of node 4 and differ: move them all away"];
    place.refuses("check drives", REPAIRABLE, &[&differ[..], &[doubt]].concat());
    place.refuses("repair drives --dead 4", REPAIRABLE, &differ);
    place.refuses("repair drives --dead 3", REPAIRABLE, &["node-03.card is one of several cards of node 4"]);
    // The others are too few without the two.
    place.lose("drives", &[0, 1]);
    for line in ["check drives", "open drives opened", "repair drives"] {
        place.refuses(line, LOST, &[doubt, "3 are needed"]);
    }
    for node in [0, 1] {
        fs::write(place.card("drives", node), written[&place.card("drives", node)].as_ref().unwrap()).unwrap();
    }
    place.lose("drives", &[3, 4]);
    place.does("repair drives");
    assert!(place.contents() == written);
}

/// A card of node 1 of an archive of two bytes (n = 3, k = 1, L = 1), and that of node 2 with another length: one of
/// the two headers is wrong, and nothing tells which.
#[test]
fn of_two_headers_that_differ_neither_is_used() {
    let place = Place::new("two_headers");
    fs::create_dir(place.path("drives")).unwrap();
    fs::write(place.card("drives", 1), [3, 1, 1, 1, 2, 253, 1, 247, 1, 0, 0, 0, 0, 0, 0]).unwrap();
    fs::write(place.card("drives", 2), [3, 1, 1, 2, 3, 1, 4, 0, 0, 0, 0, 0, 0]).unwrap();
    for line in ["check drives", "open drives opened", "repair drives"] {
        let groups = ["node-01.card (3 nodes, any 1 of them, 1 layer, 2 bytes)", "node-02.card (3 nodes", "3 bytes)"];
        let complaint = place.refuses(line, LOST, &[&groups[..], &["cannot be told which is meant"]].concat());
        assert!(!complaint.contains("another archive") && !complaint.contains("away"), "{complaint}");
    }
    // A second card of the first archive decides.
    fs::write(place.card("drives", 0), [3, 1, 1, 0, 2, 3, 6, 0, 0, 0, 0, 0, 0]).unwrap();
    place.refuses("check drives", REPAIRABLE, &["node-02.card is of another archive", "2 bytes"]);
}

#[test]
fn where_no_archive_has_enough_cards_none_is_used() {
    let place = Place::with_archive("no_group");
    fs::write(place.path("other"), bytes(499, 1)).unwrap();
    place.does("write other others --nodes 6 --data 3");
    for node in [2, 3, 4, 5] {
        fs::rename(place.card("drives", node), place.path(&format!("away-{node}"))).unwrap();
    }
    let lines = ["check drives", "open drives opened", "repair drives"];
    // Two cards against one, and three are needed.
    fs::copy(place.card("others", 5), place.card("drives", 5)).unwrap();
    for line in lines {
        place.refuses(line, LOST, &["node-00.card, node-01.card (", "node-05.card (", "cannot be told which is meant"]);
    }
    // Three against three.
    fs::rename(place.path("away-2"), place.card("drives", 2)).unwrap();
    for node in [3, 4] {
        fs::copy(place.card("others", node), place.card("drives", node)).unwrap();
    }
    for line in lines {
        place.refuses(line, LOST, &["node-02.card (", "node-03.card, node-04", "cannot be told which is meant"]);
    }
    // Four against three.
    fs::rename(place.path("away-3"), place.card("drives", 3)).unwrap();
    place.refuses("check drives", REPAIRABLE, &["drives/node-04.card, drives/node-05.card are of another archive"]);
}

/// What is said first is what is worst: the cards that are meant do not agree.
#[test]
fn a_card_of_another_archive_does_not_hide_a_loss() {
    let place = Place::with_archive("foreign_and_wrong");
    fs::write(place.path("other"), bytes(499, 1)).unwrap();
    place.does("write other others --nodes 6 --data 3");
    fs::copy(place.card("others", 0), place.card("drives", 0)).unwrap();
    place.lose("drives", &[1]);
    place.damage("drives", 2);
    for line in ["check drives", "open drives opened", "repair drives"] {
        place.refuses(line, LOST, &["nodes 2, 3, 4, 5 do not agree", "cannot be told"]);
    }
}

/// With exactly k cards nothing is compared, but they are not said to open if they do not.
#[test]
fn cards_that_do_not_open_are_not_said_to() {
    let place = Place::new("not_open");
    fs::write(place.path("transcript"), [7; 20]).unwrap();
    place.does("write transcript drives --nodes 4 --data 1");
    place.lose("drives", &[0, 1, 2]);
    let mut card = fs::read(place.card("drives", 3)).unwrap();
    card[4] = 19;
    fs::write(place.card("drives", 3), card).unwrap();
    for line in ["check drives", "open drives opened", "repair drives"] {
        place.refuses(line, LOST, &["the cards do not open: refusal 7"]);
    }
}
