//! Readable cards that are wrong: all are named as far as the code's distance tells, and none is used or replaced.
use std::fs;

use crate::place::{bytes, Place, LOST, REPAIRABLE};

/// An archive of 9 nodes, any 3 of them: of m cards, (m - 3) div 2 may be wrong.
fn archive(test: &str) -> Place {
    let place = Place::new(test);
    fs::write(place.path("transcript"), bytes(700, 1)).unwrap();
    fs::write(place.path("other"), bytes(700, 2)).unwrap();
    place.does("write transcript drives --nodes 9 --data 3");
    place.does("write other others --nodes 9 --data 3");
    place
}

#[test]
fn as_many_wrong_cards_as_the_distance_allows_are_named() {
    let place = archive("wrong_named");
    let written = place.contents();
    place.damage("drives", 0);
    // Two cards of another archive agree with each other, and with no third.
    for node in [4, 8] {
        fs::copy(place.card("others", node), place.card("drives", node)).unwrap();
    }
    let named = "drives/node-00.card, drives/node-04.card, drives/node-08.card do not agree with the others";
    let report = place.opens("drives", &bytes(700, 1));
    assert!(report.contains("from nodes 1, 2, 3\n3 further cards agree with them\n"), "{report}");
    assert!(report.contains(&format!("not used: {named}")), "{report}");
    for line in ["check drives", "repair drives"] {
        place.refuses(line, REPAIRABLE, &[named, "move them away, then repair"]);
    }
    // The advice, card by card.
    for node in [8, 0, 4] {
        assert!(!place.run("repair drives").status.success());
        place.lose("drives", &[node]);
    }
    place.does("repair drives");
    assert!(place.contents() == written);
}

#[test]
fn more_wrong_cards_than_the_distance_allows_cannot_be_told() {
    let place = archive("wrong_untold");
    for node in [0, 1, 2, 3] {
        place.damage("drives", node);
    }
    for line in ["check drives", "open drives opened", "repair drives"] {
        place.refuses(line, LOST, &["do not agree", "cannot be told which are wrong"]);
    }
    // Of the 8 cards left, 2 may be wrong and 3 are.
    place.lose("drives", &[3]);
    place.refuses("open drives opened", LOST, &["cannot be told which are wrong"]);
    // Of 7 cards, 2 may be wrong and 2 are.
    place.lose("drives", &[2]);
    assert!(place.opens("drives", &bytes(700, 1)).contains("node-00.card, drives/node-01.card do not agree"));
    place.refuses(
        "check drives",
        REPAIRABLE,
        &["node 2 is missing, node 3 is missing; drives/node-00.card, drives/node-01"],
    );
}

#[test]
fn copies_of_a_wrong_card_are_named_with_it() {
    let place = archive("wrong_copies");
    let written = place.contents();
    place.damage("drives", 5);
    fs::copy(place.card("drives", 5), place.card("drives", 20)).unwrap();
    let named = "drives/node-05.card, drives/node-20.card do not agree with the others";
    for line in ["check drives", "repair drives"] {
        place.refuses(line, REPAIRABLE, &[named, "move them away, then repair"]);
    }
    place.lose("drives", &[5, 20]);
    place.does("repair drives");
    assert!(place.contents() == written);
}

/// Every pair of wrong cards of a directory with k + 4 of 6 cards, at k = 2.
#[test]
fn every_pair_of_wrong_cards_is_named() {
    let place = Place::new("wrong_pairs");
    fs::write(place.path("transcript"), bytes(300, 5)).unwrap();
    place.does("write transcript drives --nodes 6 --data 2");
    let written = place.contents();
    for one in 0..6 {
        for other in 0..one {
            place.damage("drives", one);
            place.damage("drives", other);
            let report = place.opens("drives", &bytes(300, 5));
            let named = format!("not used: drives/node-0{other}.card, drives/node-0{one}.card do not agree");
            assert!(report.contains(&named), "{report}");
            place.damage("drives", one);
            place.damage("drives", other);
            assert!(place.contents() == written);
        }
    }
}

#[test]
fn the_largest_shape_is_decided_in_bounded_time() {
    let place = Place::new("wrong_large");
    fs::write(place.path("transcript"), bytes(1_200_000, 5)).unwrap();
    place.does("write transcript drives --nodes 14 --data 6 --layers 15");
    // The last four that are looked for: 210 sets of six nodes are tried.
    for node in [2, 3, 4, 5] {
        place.damage("drives", node);
    }
    assert!(place.opens("drives", &bytes(1_200_000, 5)).contains("from nodes 0, 1, 6, 7, 8, 9\n"));
}
