//! The command line: archives that live through repair after repair, and bad input that is turned back with one line and
//! leaves everything as it was.
use std::fs;
use std::os::unix::fs::{symlink, PermissionsExt};

#[path = "cli/arguments.rs"]
mod arguments;
#[path = "cli/choice.rs"]
mod choice;
#[path = "cli/correct.rs"]
mod correct;
#[path = "cli/cut_off.rs"]
mod cut_off;
#[path = "cli/faults.rs"]
mod faults;
#[path = "cli/files.rs"]
mod files;
#[path = "cli/hearing.rs"]
mod hearing;
#[path = "cli/json.rs"]
mod json;
#[path = "cli/kills.rs"]
mod kills;
#[path = "cli/losses.rs"]
mod losses;
mod naive;
#[path = "cli/names.rs"]
mod names;
#[path = "cli/options.rs"]
mod options;
#[path = "cli/order.rs"]
mod order;
#[path = "cli/place.rs"]
mod place;
#[path = "cli/reading.rs"]
mod reading;
#[path = "cli/rules.rs"]
mod rules;
#[path = "cli/stretches.rs"]
mod stretches;
#[path = "cli/traffic.rs"]
mod traffic;
#[path = "cli/wrong.rs"]
mod wrong;

use place::{bytes, Place, IO, LOST, REPAIRABLE, USAGE};

// ---- the work

#[test]
fn nine_repairs_in_a_row_lose_nothing() {
    let losses: [&[usize]; 9] = [
        &[0],
        &[1, 2],
        &[3, 4, 5],
        &[6, 7, 8, 9],
        &[0, 3, 6, 10, 11],
        &[1, 4, 7],
        &[2, 5, 8, 9, 11],
        &[0, 1, 10],
        &[2, 3, 4, 5, 6],
    ];
    let place = Place::new("nine_repairs");
    let transcript = bytes(300_000, 7);
    fs::write(place.path("transcript"), &transcript).unwrap();
    place.does("write transcript drives --nodes 12 --data 6");
    let written = place.contents();
    for lost in losses {
        place.lose("drives", lost);
        place.does("repair drives");
        assert!(place.contents() == written, "after the loss of {lost:?}");
    }
    assert!(place.does("check drives").starts_with("sound"));
    place.lose("drives", &[0, 1, 7, 8, 9, 10]);
    assert!(place.does("open drives opened").contains("from nodes 2, 3, 4, 5, 6, 11\n"));
    assert!(fs::read(place.path("opened")).unwrap() == transcript);
}

#[test]
fn every_k_cards_open() {
    let place = Place::with_archive("every_k");
    let transcript = fs::read(place.path("transcript")).unwrap();
    for used in 0..1u32 << 6 {
        if used.count_ones() != 3 {
            continue;
        }
        let some = format!("some-{used}");
        fs::create_dir(place.path(&some)).unwrap();
        for node in (0..6).filter(|node| used >> node & 1 == 1) {
            fs::copy(place.card("drives", node), place.card(&some, node)).unwrap();
        }
        place.does(&format!("open {some} opened-{used}"));
        assert_eq!(fs::read(place.path(&format!("opened-{used}"))).unwrap(), transcript);
    }
}

#[test]
fn cards_are_those_of_document_01() {
    let place = Place::new("document_01");
    fs::write(place.path("transcript"), [3, 6]).unwrap();
    place.does("write transcript drives --nodes 3 --data 1 --layers 1");
    assert_eq!(fs::read(place.card("drives", 1)).unwrap(), [3, 1, 1, 1, 2, 253, 1, 247, 1, 0, 0, 0, 0, 0, 0]);
    assert_eq!(fs::read_dir(place.path("drives")).unwrap().count(), 3);
    let info = place.does("info drives/node-01.card");
    let words: Vec<&str> = info.split_whitespace().collect();
    assert!(words.starts_with(&["node", "1", "of", "0", "to", "2"]), "{info}");
    assert!(info.contains(" 2 bytes\n") && info.contains(" 8\n"), "{info}");
}

#[test]
fn an_empty_transcript_comes_back_empty() {
    let place = Place::new("empty");
    fs::write(place.path("transcript"), []).unwrap();
    place.does("write transcript drives --nodes 4 --data 1");
    place.lose("drives", &[0, 1]);
    place.does("repair drives");
    place.does("open drives opened");
    assert_eq!(fs::read(place.path("opened")).unwrap(), []);
}

#[test]
fn layers_are_chosen_to_fit_and_to_be_repaired() {
    let place = Place::new("layers");
    fs::write(place.path("small"), bytes(10, 1)).unwrap();
    fs::write(place.path("large"), bytes(100, 1)).unwrap();
    // (nodes, data, file, layers): h = 2 and 3 need multiples of 3, h = 4 of 5 too; 100 bytes take 4 layers of 2^5.
    let expected = [
        (3, 1, "small", 2),
        (4, 1, "small", 3),
        (5, 3, "small", 1),
        (5, 1, "large", 6),
        (12, 8, "large", 3),
        (12, 7, "large", 15),
        (12, 1, "small", 15),
        (14, 12, "small", 1),
        (14, 1, "small", 15),
    ];
    for (nodes, data, file, layers) in expected {
        let report = place.does(&format!("write {file} {nodes}-{data} --nodes {nodes} --data {data}"));
        let layers = if layers == 1 { "1 layer,".to_string() } else { format!("{layers} layers,") };
        assert!(report.contains(&format!("\n{layers}")), "{nodes} {data}: {report}");
    }
    assert!(place.does("check 12-1").starts_with("sound"));
    assert!(place.does("check 14-12").starts_with("sound"));
}

#[test]
fn eleven_of_fourteen_drives_are_refilled_together() {
    let place = Place::new("eleven");
    fs::write(place.path("transcript"), bytes(90_000, 7)).unwrap();
    place.does("write transcript drives --nodes 14 --data 2 --layers 3");
    let written = place.contents();
    place.lose("drives", &[0, 1, 2, 4, 5, 6, 8, 9, 10, 11, 13]);
    let report = place.does("repair drives");
    assert!(report.contains("repair of nodes 0, 1, 2, 4, 5, 6, 8, 9, 10, 11, 13 with"), "{report}");
    assert!(place.contents() == written);
}

#[test]
fn a_loss_that_the_layers_forbid_is_repaired_in_several_goes() {
    let place = Place::new("goes");
    fs::write(place.path("transcript"), bytes(200, 3)).unwrap();
    place.does("write transcript drives --nodes 7 --data 2 --layers 2");
    let written = place.contents();
    place.lose("drives", &[0, 2, 5, 6]);
    let report = place.does("repair drives");
    assert!(report.contains("repair of nodes 0, 2, 5 with") && report.contains("repair of node 6 with"), "{report}");
    assert!(place.contents() == written);
}

#[test]
fn named_dead_and_helpers_are_used() {
    let place = Place::with_archive("named");
    let written = place.contents();
    place.lose("drives", &[0, 5]);
    let report = place.does("repair drives --dead 5 --helpers 4,3,2,1");
    assert!(report.starts_with("repair of node 5 with the help of nodes 1, 2, 3, 4\n"), "{report}");
    assert!(place.card("drives", 5).exists() && !place.card("drives", 0).exists());
    place.does("repair drives --dead=0,0 --helpers=1,2,4,5,1");
    assert!(place.contents() == written);
    assert!(place.does("repair drives").starts_with("nothing to repair"));
}

#[test]
fn the_plan_is_that_of_document_01() {
    let place = Place::new("plan");
    let plan = place.does("plan --nodes 4 --data 1 --layers 3 --dead 0,1 --helpers 2,3");
    assert_eq!(plan, "4 1 3 2\n2 0 16\n3 0 16\n2 1 16\n3 1 16\n1 0 16\n0 1 16\n96\n");
}

#[test]
fn the_demo_compares_and_cleans_up() {
    let place = Place::new("demo");
    let report = place.does("demo");
    assert!(report.contains("the same, byte for byte"), "{report}");
    assert!(place.contents().is_empty());
}

#[test]
fn unreadable_cards_are_passed_over_and_made_anew() {
    let place = Place::with_archive("unreadable");
    let written = place.contents();
    place.truncate("drives", 1);
    fs::write(place.card("drives", 4), []).unwrap();
    let report = place.does("open drives opened");
    assert!(report.contains("from nodes 0, 2, 3\n") && report.contains("node 1 cannot be read"), "{report}");
    assert_eq!(fs::read(place.path("opened")).unwrap(), bytes(500, 1));
    fs::remove_file(place.path("opened")).unwrap();
    place.refuses("check drives", REPAIRABLE, &["node 1 cannot be read", "node 4 cannot be read", "repair"]);
    place.does("repair drives");
    assert!(place.contents() == written);
}

// ---- bad input

#[test]
fn a_transcript_that_cannot_be_read_is_refused() {
    let place = Place::with_archive("transcript");
    place.refuses("write nothing new --nodes 6 --data 3", IO, &["cannot read nothing"]);
    place.refuses("write drives new --nodes 6 --data 3", IO, &["cannot read drives"]);
}

#[test]
fn a_transcript_that_is_too_long_is_refused() {
    let place = Place::with_archive("long");
    fs::write(place.path("long"), bytes(3 * 15 * 64, 1)).unwrap();
    place.does("write long fits --nodes 6 --data 3");
    fs::write(place.path("long"), bytes(3 * 15 * 64 + 1, 1)).unwrap();
    place.refuses("write long new --nodes 6 --data 3", USAGE, &["at most 2880 bytes"]);
    place.refuses("write transcript new --nodes 6 --data 3 --layers 2", USAGE, &["--layers 3"]);
    place.refuses("write long new --nodes 6 --data 3 --layers 2", USAGE, &["at most 2880 bytes"]);
}

#[test]
fn shapes_outside_the_ranges_are_refused() {
    let place = Place::with_archive("shapes");
    for shape in [
        "--nodes 2 --data 1",
        "--nodes 15 --data 3",
        "--nodes 6 --data 0",
        "--nodes 6 --data 5",
        "--nodes 6 --data 3 --layers 0",
        "--nodes 6 --data 3 --layers 16",
        "--nodes 18446744073709551615 --data 18446744073709551615 --layers 18446744073709551615",
    ] {
        place.refuses(&format!("write transcript new {shape}"), USAGE, &["refusal 1", "3 to 14"]);
    }
}

#[test]
fn cards_are_never_written_over() {
    let place = Place::with_archive("over");
    fs::write(place.path("other"), bytes(20, 9)).unwrap();
    place.refuses("write other drives --nodes 4 --data 1", IO, &["node-00.card is there already"]);
    place.refuses("write transcript drives --nodes 6 --data 2", IO, &["node-00.card is there already"]);
    place.lose("drives", &[0, 1, 2, 3, 4]);
    place.refuses("write other drives --nodes 4 --data 1", IO, &["node-05.card is there already"]);
    place.truncate("drives", 5);
    place.refuses("write other drives --nodes 4 --data 1", IO, &["node-05.card is there already"]);
}

#[test]
fn directories_that_cannot_be_written_are_refused() {
    let place = Place::with_archive("unwritable");
    place.refuses("write transcript transcript --nodes 6 --data 3", IO, &["transcript"]);
    place.refuses("write transcript no/where --nodes 6 --data 3", IO, &["cannot make the directory no/where"]);
    place.refuses("write transcript /proc --nodes 6 --data 3", IO, &["cannot write cards into /proc"]);
    place.refuses("open drives /proc/opened", IO, &["cannot write /proc/opened"]);
    place.refuses("open drives no/where", IO, &["cannot write no/where"]);
}

#[test]
fn a_full_disk_leaves_nothing_behind() {
    let place = Place::with_archive("full");
    place.lose("drives", &[2]);
    place.truncate("drives", 4);
    let before = place.contents();
    let opening = "open drives opened --stretch 0..9";
    for line in ["write transcript new --nodes 6 --data 3", "repair drives", "open drives opened", opening] {
        let output = place.run_with_limit(&line.split(' ').collect::<Vec<_>>(), "-f 0");
        place.turned_back(line, &output, IO, &["cannot write"]);
        assert!(place.contents() == before, "{line}");
    }
    // Nodes 0 and 1 are zeros, and their cards take less than a block of 512 bytes; the others' take more.
    fs::write(place.path("transcript"), [vec![0; 2 * 448], vec![0xFF; 400]].concat()).unwrap();
    let before = place.contents();
    let words = ["write", "transcript", "new", "--nodes", "5", "--data", "3", "--layers", "14"];
    let output = place.run_with_limit(&words, "-f 1");
    place.turned_back("write", &output, IO, &["cannot write cards into new"]);
    assert!(place.contents() == before);
}

#[test]
fn a_place_without_cards_is_refused() {
    let place = Place::with_archive("without");
    fs::create_dir(place.path("bare")).unwrap();
    for (line, status, words) in [
        ("check bare", LOST, "bare holds no cards"),
        ("open bare opened", LOST, "bare holds no cards"),
        ("repair bare", LOST, "bare holds no cards"),
        ("correct bare --at 0 --from 0 --to 1", LOST, "bare holds no cards"),
        ("check nothing", IO, "cannot read the directory nothing"),
        ("open nothing opened", IO, "cannot read the directory nothing"),
        ("open nothing opened --stretch 0..1", IO, "cannot read the directory nothing"),
        ("repair transcript", IO, "cannot read the directory transcript"),
        ("correct nothing --at 0 --from 0 --to 1", IO, "cannot read the directory nothing"),
        ("correct transcript --at 0 --from 0 --to 1", IO, "cannot read the directory transcript"),
        ("info nothing", IO, "nothing is not a readable card"),
        ("info drives", IO, "not a file"),
        ("info transcript", LOST, "transcript is not a readable card"),
    ] {
        place.refuses(line, status, &[words]);
    }
}

#[test]
fn damaged_cards_alone_are_refused() {
    let place = Place::with_archive("alone");
    for node in 0..6 {
        place.truncate("drives", node);
    }
    place.refuses("info drives/node-02.card", LOST, &["refusal 6"]);
    for line in ["check drives", "open drives opened", "repair drives"] {
        place.refuses(line, LOST, &["no card in drives can be read", "refusal 6"]);
    }
}

#[test]
fn too_few_cards_are_refused() {
    let place = Place::with_archive("few");
    place.lose("drives", &[0, 2, 4]);
    place.refuses("repair drives", REPAIRABLE, &["nodes 1, 3, 5", "4 are needed", "open"]);
    let words = ["node 0 is missing, node 2 is missing, node 4 is missing", "just enough"];
    place.refuses("check drives", REPAIRABLE, &words);
    place.does("open drives opened");
    place.lose("drives", &[3]);
    for line in ["check drives", "open drives again"] {
        place.refuses(line, LOST, &["nodes 1, 5", "3 are needed"]);
    }
    place.refuses("repair drives", LOST, &["nodes 1, 5", "3 are needed"]);
}

#[test]
fn cards_of_other_shape_or_length_are_refused() {
    for (name, arguments, count) in [
        ("length", "--nodes 6 --data 3", 499),
        ("layers", "--nodes 6 --data 3 --layers 6", 500),
        ("data", "--nodes 6 --data 2 --layers 6", 500),
        ("nodes", "--nodes 7 --data 3 --layers 3", 500),
    ] {
        let place = Place::with_archive(&format!("other_{name}"));
        fs::write(place.path("other"), bytes(count, 1)).unwrap();
        place.does(&format!("write other others {arguments}"));
        fs::copy(place.card("others", 2), place.card("drives", 2)).unwrap();
        for line in ["check drives", "open drives opened", "repair drives"] {
            place.refuses(line, REPAIRABLE, &["node-02.card is of another archive"]);
        }
    }
}

#[test]
fn a_card_of_another_transcript_is_named() {
    let place = Place::with_archive("mixed");
    fs::write(place.path("other"), bytes(500, 2)).unwrap();
    place.does("write other others --nodes 6 --data 3");
    fs::copy(place.card("others", 1), place.card("drives", 1)).unwrap();
    let words = ["not sound", "layer 0, a = 0, t = 0", "node-01.card does not agree"];
    place.refuses("check drives", REPAIRABLE, &words);
    place.refuses("repair drives", REPAIRABLE, &["node-01.card does not agree"]);
    place.lose("drives", &[0]);
    for line in ["check drives", "repair drives"] {
        place.refuses(line, REPAIRABLE, &["node-01.card does not agree", "move it away"]);
    }
    assert!(place.opens("drives", &bytes(500, 1)).contains("node-01.card does not agree"));
    // Of k + 1 cards any one may be the wrong one.
    place.lose("drives", &[2]);
    for line in ["check drives", "open drives opened", "repair drives"] {
        place.refuses(line, LOST, &["nodes 1, 3, 4, 5 do not agree", "cannot be told"]);
    }
}

#[test]
fn a_damaged_card_that_can_be_read_is_named() {
    let place = Place::with_archive("damaged");
    let written = place.contents();
    place.damage("drives", 3);
    let words = ["not sound", "layer 2, a = 63, t = 0", "node-03.card does not agree"];
    place.refuses("check drives", REPAIRABLE, &words);
    place.refuses("repair drives", REPAIRABLE, &["node-03.card does not agree"]);
    assert!(place.opens("drives", &bytes(500, 1)).contains("node-03.card does not agree"));
    place.lose("drives", &[3]);
    place.does("repair drives");
    assert!(place.contents() == written);
}

#[test]
fn several_damaged_cards_are_reported() {
    let place = Place::with_archive("several");
    place.damage("drives", 3);
    place.damage("drives", 4);
    for line in ["check drives", "open drives opened", "repair drives"] {
        place.refuses(line, LOST, &["do not agree", "cannot be told"]);
    }
}

#[test]
fn a_wrong_length_in_all_cards_is_refused() {
    let place = Place::new("lengths");
    fs::write(place.path("transcript"), [7; 20]).unwrap();
    place.does("write transcript drives --nodes 4 --data 1");
    for node in 0..4 {
        let mut card = fs::read(place.card("drives", node)).unwrap();
        card[4] = 19;
        fs::write(place.card("drives", node), card).unwrap();
    }
    for line in ["check drives", "open drives opened"] {
        place.refuses(line, LOST, &["refusal 7"]);
    }
}

/// A codeword with two symbols 256 on its data nodes, and then a wrong card besides.
#[test]
fn drives_that_agree_and_hold_no_transcript_are_not_sound() {
    let place = Place::new("no_transcript");
    let shape = hmsr::Shape::new(6, 3, 1).unwrap();
    let mut data = vec![65; 3 * 64];
    data[64 + 5] = 256;
    data[2 * 64] = 256;
    let nodes = shape.restore_nodes(&[0, 1, 2], &data).unwrap();
    fs::create_dir(place.path("drives")).unwrap();
    for (node, symbols) in nodes.chunks(64).enumerate() {
        let card = hmsr::Header { shape, node, length: 192, hearing: 0 }.pack_to_vec(symbols).unwrap();
        fs::write(place.card("drives", node), card).unwrap();
    }
    let words =
        ["not sound: the drives agree, but they hold no transcript", "node 1 (drives/node-01.card)", "place 5,"];
    place.refuses("check drives", LOST, &words);
    for line in ["open drives opened", "repair drives"] {
        place.refuses(line, LOST, &["refusal 7"]);
    }
    place.damage("drives", 4);
    place.refuses("check drives", LOST, &["layer 0, a = 63, t = 0 is the first unmet", "refusal 7"]);
}

#[test]
fn a_file_that_is_there_is_not_opened_into() {
    let place = Place::with_archive("out");
    for out in ["transcript", "drives", "drives/node-00.card"] {
        place.refuses(&format!("open drives {out}"), IO, &[out, "is there already"]);
    }
    symlink("nowhere", place.path("link")).unwrap();
    place.refuses("open drives link", IO, &["link is there already"]);
}

#[test]
fn dead_and_helpers_that_cannot_be_are_refused() {
    let place = Place::with_archive("lists");
    place.lose("drives", &[0]);
    place.refuses("repair drives --dead 1", USAGE, &["node 1 is not dead"]);
    place.refuses("repair drives --dead 6", USAGE, &["there is no node 6"]);
    place.refuses("repair drives --helpers 0,1,2,3", USAGE, &["node 0 cannot help"]);
    place.refuses("repair drives --helpers 1,2,3,18446744073709551615", USAGE, &["there is no node"]);
    place.refuses("repair drives --helpers 1,2,3", USAGE, &["refusal 2", "exactly 4 helpers"]);
    place.refuses("repair drives --helpers 1,2,3,4,5", USAGE, &["refusal 2"]);
    place.refuses("repair drives --helpers 1,2,3,3", USAGE, &["refusal 2"]);
}

#[test]
fn only_files_are_replaced() {
    let place = Place::with_archive("not_files");
    place.lose("drives", &[0, 1]);
    fs::create_dir(place.card("drives", 1)).unwrap();
    place.refuses("repair drives", IO, &["node-01.card is not a file"]);
    fs::remove_dir(place.card("drives", 1)).unwrap();
    symlink("../transcript", place.card("drives", 1)).unwrap();
    place.refuses("repair drives", IO, &["node-01.card is not a file"]);
}

#[test]
fn a_good_card_that_may_not_be_read_is_not_replaced() {
    let place = Place::with_archive("forbidden");
    let written = place.contents();
    let set_mode = |mode| fs::set_permissions(place.card("drives", 1), fs::Permissions::from_mode(mode)).unwrap();
    set_mode(0);
    // The superuser may read it all the same, and then nothing is to be repaired.
    if fs::read(place.card("drives", 1)).is_err() {
        place.refuses("repair drives", IO, &["node-01.card may be good"]);
    } else {
        assert!(place.does("repair drives").starts_with("nothing to repair"));
    }
    set_mode(0o600);
    assert!(place.contents() == written);
}

#[test]
fn plans_of_no_repair_are_refused() {
    let place = Place::new("no_plan");
    place.refuses("plan --nodes 2 --data 1 --layers 3 --dead 0 --helpers 2,3", USAGE, &["refusal 1"]);
    place.refuses("plan --nodes 3 --data 1 --layers 3 --dead 0,1 --helpers 2", USAGE, &["refusal 2"]);
    place.refuses("plan --nodes 4 --data 1 --layers 1 --dead 0,1 --helpers 2,3", USAGE, &["refusal 3"]);
    // A number of four groups is read, and is no shape's; one of five is not.
    place.refuses("plan --nodes 268435455 --data 1 --layers 1 --dead 0,1 --helpers 2,3", USAGE, &["refusal 1"]);
    place.refuses("plan --nodes 268435456 --data 1 --layers 1 --dead 0,1 --helpers 2,3", USAGE, &["refusal 6"]);
}
