//! Names and kinds of files: long names, control characters, links, permissions; and words for one and for many.
use std::ffi::OsStr;
use std::fs;
use std::os::unix::ffi::OsStrExt;
use std::os::unix::fs::{symlink, PermissionsExt};

use crate::place::{bytes, Place, IO, REPAIRABLE, USAGE};

#[test]
fn the_transcript_is_not_opened_into_a_cards_name() {
    let place = Place::with_archive("out_card");
    place.lose("drives", &[2]);
    symlink("drives", place.path("link")).unwrap();
    for out in ["drives/node-02.card", "drives/node-99.card", "./drives/../link/node-02.card"] {
        place.refuses(&format!("open drives {out}"), USAGE, &["is the name of a card: choose another name"]);
    }
    place.refuses("open link drives/node-02.card", USAGE, &["is the name of a card"]);
    for out in ["node-02.card", "drives/node-02.txt", "drives/node-100.card"] {
        place.does(&format!("open drives {out}"));
        assert_eq!(fs::read(place.path(out)).unwrap(), bytes(500, 1));
    }
}

/// What check advises about a name that is in the way, repair advises too; when it is done, the repair is made.
#[test]
fn check_advises_what_repair_will_follow() {
    let place = Place::with_archive("advice");
    let written = place.contents();
    let path = place.card("drives", 1);
    for kind in ["directory", "../transcript", "nothing"] {
        place.lose("drives", &[1]);
        match kind {
            "directory" => fs::create_dir(&path).unwrap(),
            target => symlink(target, &path).unwrap(),
        }
        place.refuses("repair drives", IO, &["drives/node-01.card is not a file: move it away"]);
        let advice = ["drives/node-01.card is not a file: move it away; then run hmsr repair"];
        place.refuses("check drives", REPAIRABLE, &advice);
        fs::rename(&path, place.path("away")).unwrap();
        place.does("repair drives");
        fs::remove_file(place.path("away")).or_else(|_| fs::remove_dir(place.path("away"))).unwrap();
        assert!(place.contents() == written, "{kind}");
    }
    let faults = [("FAULT_READ", "drives/node-01.card"), ("FAULT_HOW", "always")];
    for (line, status) in [("check drives", REPAIRABLE), ("repair drives", IO)] {
        let output = place.run_with_faults(line, &faults);
        let words = ["drives/node-01.card may be good, but cannot be read: Input/output error", "move it away"];
        place.turned_back(line, &output, status, &words);
        assert!(place.contents() == written);
    }
    // Nothing is in the way of what is missing or no card.
    place.truncate("drives", 1);
    let complaint = place.refuses("check drives", REPAIRABLE, &["agree: run hmsr repair"]);
    assert!(!complaint.contains("move"), "{complaint}");
}

#[test]
fn names_of_255_bytes_are_used() {
    let place = Place::new("long_names");
    let name = |letter: &str| letter.repeat(255);
    fs::write(place.path(&name("t")), bytes(100, 1)).unwrap();
    place.does(&format!("write {} {} --nodes 4 --data 1", name("t"), name("d")));
    place.lose(&name("d"), &[2]);
    place.does(&format!("repair {}", name("d")));
    place.does(&format!("open {} {}", name("d"), name("o")));
    assert_eq!(fs::read(place.path(&name("o"))).unwrap(), bytes(100, 1));
    place.refuses(&format!("open {} {}", name("d"), "o".repeat(256)), IO, &["too long"]);
    place.refuses(&format!("write {} {} --nodes 4 --data 1", name("t"), "d".repeat(256)), IO, &["too long"]);
}

#[test]
fn control_characters_in_names_are_escaped() {
    let place = Place::new("controls");
    fs::write(place.path("transcript"), bytes(100, 1)).unwrap();
    let directory = "two\nlines\u{1b}[31m\u{85}\u{202e}";
    let shown = "two\\nlines\\u{1b}[31m\\u{85}\\u{202e}";
    let mut printed = Vec::new();
    for words in [
        &["write", "transcript", directory, "--nodes", "4", "--data", "1"][..],
        &["repair", directory],
        // The first of those bytes is 60.
        &["correct", directory, "--at", "0", "--from", "60", "--to", "0"],
        &["correct", directory, "--at", "0", "--from", "0", "--to", "\u{8}"],
        &["open", directory, "new\tname"],
        &["open", directory, "new\tname"],
        &["open", directory, "part\tname", "--stretch", "0..1"],
        &["open", directory, "other", "--stretch", "0..\u{8}"],
        &["info", directory],
        &["check", "no\u{7}where"],
        &["no\rcommand"],
        &["check", directory, "--no\u{8}option"],
    ] {
        if words[0] == "repair" {
            place.lose(directory, &[1]);
        }
        let output = place.command(words).output().unwrap();
        printed.extend([output.stdout, output.stderr]);
    }
    let printed = String::from_utf8(printed.concat()).unwrap();
    assert!(
        printed.lines().count() > 10 && printed.lines().all(|line| !line.contains(char::is_control)),
        "{printed:?}"
    );
    assert!(!printed.contains('\u{202e}'));
    for name in [
        shown,
        "made two\\nlines",
        "rewrote two\\nlines",
        "--to: \\u{8} is not a byte",
        "new\\tname is there already",
        "in 1 stretch into part\\tname from",
        "--stretch: 0..\\u{8} is not a stretch",
        "no\\u{7}where",
        "no\\rcommand",
        "--no\\u{8}option",
    ] {
        assert!(printed.contains(name), "{printed} lacks {name}");
    }
}

#[test]
fn names_that_are_no_text_are_used_as_they_are() {
    let place = Place::new("no_text");
    fs::write(place.path("transcript"), bytes(100, 1)).unwrap();
    let odd = OsStr::from_bytes(b"odd\xff");
    let output =
        place.command(&["write", "transcript"]).arg(odd).args(["--nodes", "4", "--data", "1"]).output().unwrap();
    assert!(output.status.success() && place.0.join(odd).is_dir());
    let output = place.command(&["check"]).arg(OsStr::from_bytes(b"--odd\xff")).output().unwrap();
    place.turned_back("check --odd", &output, USAGE, &["there is no option --odd"]);
}

#[test]
fn the_permissions_of_a_replaced_card_are_kept() {
    let place = Place::with_archive("modes");
    let mode = |node: usize| fs::metadata(place.card("drives", node)).unwrap().permissions().mode() & 0o7777;
    let others = mode(0);
    place.truncate("drives", 1);
    place.truncate("drives", 2);
    fs::set_permissions(place.card("drives", 1), fs::Permissions::from_mode(0o640)).unwrap();
    fs::set_permissions(place.card("drives", 2), fs::Permissions::from_mode(0o604)).unwrap();
    place.does("repair drives");
    assert_eq!([mode(1), mode(2)], [0o640, 0o604]);
    place.lose("drives", &[3]);
    place.does("repair drives");
    assert_eq!(mode(3), others);
}

#[test]
fn one_is_singular() {
    let place = Place::new("singular");
    fs::write(place.path("transcript"), [65]).unwrap();
    let mut printed = place.does("write transcript drives --nodes 3 --data 1 --layers 1");
    printed += &place.does("info drives/node-00.card");
    printed += &place.does("check drives");
    place.lose("drives", &[2]);
    printed += &place.does("open drives opened");
    printed += &place.does("open drives part --stretch 0..1");
    printed += &place.does("repair drives");
    place.lose("drives", &[1, 2]);
    printed += &place.refuses("check drives", REPAIRABLE, &["the other one is just enough"]);
    printed += &place.refuses("repair drives", REPAIRABLE, &["1 readable card (node 0) is too few"]);
    for words in [
        "wrote 1 byte into 3 cards",
        "any 1 of them gives it back",
        "\n1 layer, 8 bytes at most: any loss of up to 1 node is",
        "1 node gives the transcript back",
        "(3 nodes, any 1 of them, 1 layer, 1 byte)",
        "from node 0\n1 further card agrees",
        "opened 1 byte in 1 stretch into part from node 0\n",
        "\n1 symbol read of 8\n",
        "repair of node 2 with the help of nodes 0, 1\n",
    ] {
        assert!(printed.contains(words), "{printed} lacks {words}");
    }
    for plural in [" 1 nodes", " 1 layers", "\n1 layers", " 1 bytes", "1 cards", "nodes 0\n", "of nodes 2 "] {
        assert!(!printed.contains(plural), "{printed} has {plural}");
    }
}
