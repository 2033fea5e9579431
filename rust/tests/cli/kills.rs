//! Commands that are killed before each call that changes a file, or whose call fails: what is there stays, what is new is
//! whole or not there, and the same command again finishes and cleans up.
use std::collections::BTreeMap;
use std::fs::{self, File};
use std::os::unix::process::ExitStatusExt;
use std::path::{Path, PathBuf};
use std::process::{Command, Output, Stdio};

use crate::place::{bytes, Place, IO, USAGE};

pub type Contents = BTreeMap<PathBuf, Option<Vec<u8>>>;

/// More calls than any of these commands makes.
const MOST_CALLS: usize = 200;

/// A situation in which a command is stopped.
pub struct Case {
    pub name: &'static str,
    pub line: &'static str,
    pub prepare: fn(&Place),
    /// What is judged after the stop, with the contents before and those of a whole run.
    pub judge: fn(&Place, &Contents, &Contents),
}

/// A transcript of 30 bytes, to be written over four nodes, any one of them.
fn transcript(place: &Place) {
    fs::write(place.path("transcript"), bytes(30, 4)).unwrap();
}

fn transcript_and_directory(place: &Place) {
    transcript(place);
    fs::create_dir(place.path("drives")).unwrap();
    fs::write(place.path("drives/other"), "not ours").unwrap();
}

fn archive(place: &Place) {
    transcript(place);
    place.does("write transcript drives --nodes 4 --data 1");
}

/// One card missing and one cut short.
fn archive_with_loss(place: &Place) {
    archive(place);
    place.lose("drives", &[1]);
    place.truncate("drives", 3);
}

fn is_temporary(path: &Path) -> bool {
    path.to_string_lossy().contains("/.hmsr-")
}

/// The contents without what is temporary.
fn lasting(place: &Place) -> Contents {
    let mut now = place.contents();
    now.retain(|path, _| !is_temporary(path));
    now
}

/// Without what is temporary, all is as before or as after.
pub fn all_or_nothing(place: &Place, before: &Contents, after: &Contents) {
    let now = lasting(place);
    assert!(now == *before || now == *after, "{:?}", now.keys());
}

/// Without what is temporary, each file is as before or as after.
pub fn each_whole(place: &Place, before: &Contents, after: &Contents) {
    let now = lasting(place);
    for (path, file) in &now {
        assert!(before.get(path) == Some(file) || after.get(path) == Some(file), "{path:?}");
    }
    assert!(before.keys().all(|path| now.contains_key(path)));
}

const CASES: [Case; 5] = [
    Case {
        name: "new_directory",
        line: "write transcript drives --nodes 4 --data 1",
        prepare: transcript,
        judge: all_or_nothing,
    },
    Case {
        name: "existing_directory",
        line: "write transcript drives --nodes 4 --data 1",
        prepare: transcript_and_directory,
        judge: each_whole,
    },
    Case {
        name: "hearing",
        line: "write transcript drives --nodes 4 --data 1 --hearing 700",
        prepare: transcript_and_directory,
        judge: each_whole,
    },
    Case { name: "repair", line: "repair drives", prepare: archive_with_loss, judge: each_whole },
    Case { name: "open", line: "open drives opened", prepare: archive, judge: all_or_nothing },
];

/// Stops the command of a case at one call after the other, until it makes no further call. Gives how many it makes.
pub fn stopped_at_each_call(case: &Case, how: &str) -> usize {
    let place = Place::new(&format!("stopped_{}_{how}", case.name));
    let log = place.0.with_extension("log");
    (case.prepare)(&place);
    let before = place.contents();
    place.does(case.line);
    let after = place.contents();
    for call in 1..MOST_CALLS {
        place.fill(&before);
        fs::write(&log, "").unwrap();
        let faults = [("FAULT_AT", &*call.to_string()), ("FAULT_HOW", how), ("FAULT_LOG", log.to_str().unwrap())];
        let output = place.run_with_faults(case.line, &faults);
        if !fs::read_to_string(&log).unwrap().contains("fault") {
            assert!(output.status.success() && place.contents() == after);
            return call - 1;
        }
        (case.judge)(&place, &before, &after);
        ended(&place, how, &output, &after);
        finished(&place, case, &after);
    }
    panic!("{}: the command never ends by itself", case.name);
}

/// A killed command ends by the signal; one whose call failed says so, or has done its work all the same.
fn ended(place: &Place, how: &str, output: &Output, after: &Contents) {
    if matches!(how, "kill" | "part") {
        assert_eq!(output.status.signal(), Some(9));
    } else if output.status.success() {
        let now = place.contents();
        assert!(after.iter().all(|(path, file)| now.get(path) == Some(file)));
    } else {
        place.turned_back(how, output, IO, &[]);
    }
}

/// The same command again (an opened file is not opened into once more) leaves what a whole run leaves; a byte that is
/// corrected is not what it was said to be.
fn finished(place: &Place, case: &Case, after: &Contents) {
    if case.line.starts_with("open") && place.path("opened").exists() {
        fs::remove_file(place.path("opened")).unwrap();
    }
    if case.line.starts_with("correct") && lasting(place) == *after {
        place.turned_back(case.line, &place.run(case.line), USAGE, &["already"]);
    } else {
        place.does(case.line);
    }
    let now = place.contents();
    assert!(now == *after, "{}: {:?}", case.name, now.keys());
}

/// The calls that a command makes at least: for each new file, to make, write and sync it; the renames; a directory synced.
#[test]
fn a_command_killed_at_any_call_loses_nothing() {
    for (case, files) in CASES.iter().zip([4, 4, 4, 2, 1]) {
        assert!(stopped_at_each_call(case, "kill") > 3 * files + 2, "{}", case.name);
        assert!(stopped_at_each_call(case, "part") >= files, "{}", case.name);
    }
}

#[test]
fn a_command_whose_call_fails_loses_nothing() {
    for (case, files) in CASES.iter().zip([4, 4, 4, 2, 1]) {
        assert!(stopped_at_each_call(case, "fail") > 3 * files + 2, "{}", case.name);
    }
}

/// What is synced and renamed, in this order: cards, their directory, the name, its parent.
#[test]
fn files_and_their_parents_are_synced() {
    let place = Place::new("synced");
    transcript(&place);
    let log = place.0.with_extension("log");
    let calls = |line: &str| {
        fs::write(&log, "").unwrap();
        let output = place.run_with_faults(line, &[("FAULT_LOG", log.to_str().unwrap())]);
        assert!(output.status.success(), "{}", String::from_utf8_lossy(&output.stderr));
        let top = format!("{}/", fs::canonicalize(&place.0).unwrap().display());
        let relative = |line: &str| line.replace(&top, "").replace(top.trim_end_matches('/'), "TOP");
        fs::read_to_string(&log).unwrap().lines().map(relative).collect::<Vec<String>>()
    };
    let written = calls("write transcript drives --nodes 3 --data 1");
    let temporary = written[0].strip_prefix("sync ").unwrap().strip_suffix("/node-00.card").unwrap();
    let cards = [0, 1, 2].map(|node| format!("sync {temporary}/node-0{node}.card"));
    let rest = [format!("sync {temporary}"), "rename drives".to_string(), "sync TOP".to_string()];
    assert_eq!(written, [&cards[..], &rest[..]].concat());

    // A missing card is given its name, which none may have; one that is no card is replaced.
    let put = |calls: &[String], steps: &[&str]| {
        let (temporaries, rest) = calls.split_at(calls.len() - steps.len());
        assert_eq!(temporaries.len(), steps.len() - 1, "{calls:?}");
        assert!(temporaries.iter().all(|call| call.starts_with("sync ") && call.contains(".hmsr-")), "{calls:?}");
        assert_eq!(rest, steps);
    };
    place.lose("drives", &[1]);
    put(&calls("repair drives"), &["link drives/node-01.card", "sync drives"]);
    place.truncate("drives", 2);
    put(&calls("repair drives"), &["rename drives/node-02.card", "sync drives"]);
    put(&calls("open drives opened"), &["link opened", "sync TOP"]);
    fs::create_dir(place.path("there")).unwrap();
    let links = [0, 1, 2].map(|node| format!("link there/node-0{node}.card"));
    let steps = [&links[0], &links[1], &links[2], "sync there"];
    put(&calls("write transcript there --nodes 3 --data 1"), &steps);
}

/// A write that cannot place one of its cards takes the others away; a repair leaves those that it has placed.
#[test]
fn a_card_that_cannot_be_placed_stops_the_command() {
    let place = Place::new("unplaced");
    transcript_and_directory(&place);
    let before = place.contents();
    let faults = [("FAULT_PLACE", "node-02.card")];
    let output = place.run_with_faults("write transcript drives --nodes 4 --data 1", &faults);
    place.turned_back("write", &output, IO, &["cannot write cards into drives"]);
    assert!(place.contents() == before);
    place.does("write transcript drives --nodes 4 --data 1");
    let mut written = place.contents();
    place.lose("drives", &[1, 2]);
    let output = place.run_with_faults("repair drives", &faults);
    place.turned_back("repair", &output, IO, &["cannot put new cards into drives"]);
    written.remove(&place.card("drives", 2));
    assert!(place.contents() == written);
    let output = place.run_with_faults("write transcript new --nodes 4 --data 1", &[("FAULT_PLACE", "new")]);
    place.turned_back("write", &output, IO, &["cannot make the directory new"]);
    assert!(place.contents() == written);
}

/// A temporary file is stale exactly if no command holds it.
#[test]
fn temporary_files_of_running_commands_stay() {
    let place = Place::new("held");
    archive_with_loss(&place);
    let path = place.path("drives/.hmsr-1-0.tmp");
    let held = File::create(&path).unwrap();
    held.lock().unwrap();
    fs::write(place.path("drives/.hmsr-notes.tmp"), "not a command's").unwrap();
    fs::write(place.path("drives/.hmsr-1-1.tmp"), "a killed command's").unwrap();
    // No command makes a FIFO.
    assert!(Command::new("mkfifo").arg(place.path("drives/.hmsr-1-2.tmp")).status().unwrap().success());
    place.does("repair drives");
    assert!(path.exists() && place.path("drives/.hmsr-notes.tmp").exists());
    assert!(place.path("drives/.hmsr-1-2.tmp").exists());
    assert!(!place.path("drives/.hmsr-1-1.tmp").exists());
    // A test that starts a program at this moment may have handed it the file for an instant, so closing is not enough.
    held.unlock().unwrap();
    place.lose("drives", &[0]);
    place.does("repair drives");
    assert!(!path.exists() && place.path("drives/.hmsr-notes.tmp").exists());
}

#[test]
fn a_write_into_a_directory_with_some_of_its_cards_finishes() {
    let place = Place::new("finishes");
    archive(&place);
    let written = place.contents();
    place.lose("drives", &[0, 1, 2]);
    let report = place.does("write transcript drives --nodes 4 --data 1");
    assert!(report.ends_with("\n1 of these cards was there already\n"), "{report}");
    assert!(place.contents() == written);
    place.does("write transcript drives --nodes 4 --data 1");
    assert!(place.contents() == written);
    // A card that differs in one symbol is not of the same.
    place.damage("drives", 2);
    place.lose("drives", &[1]);
    place.refuses("write transcript drives --nodes 4 --data 1", IO, &["node-02.card is there already"]);
}

/// Commands that run at once: each turns back or does its work, and together they leave what one of them leaves.
#[test]
fn commands_that_run_at_once_lose_nothing() {
    let at_once = |place: &Place, line: &str| {
        let words: Vec<&str> = line.split(' ').collect();
        let quiet = |_| place.command(&words).stdout(Stdio::null()).stderr(Stdio::piped()).spawn().unwrap();
        let running: Vec<_> = (0..6).map(quiet).collect();
        let outputs = running.into_iter().map(|child| child.wait_with_output().unwrap());
        outputs.map(|output| output.status.code()).collect::<Vec<_>>()
    };
    for round in 0..5 {
        let place = Place::new("at_once");
        transcript_and_directory(&place);
        let write = "write transcript drives --nodes 8 --data 4 --layers 1";
        assert_eq!(at_once(&place, write), [Some(0); 6], "{round}");
        let written = place.contents();
        assert_eq!(written.len(), 1 + 1 + 1 + 8);
        let codes = at_once(&place, "write transcript new --nodes 8 --data 4 --layers 1");
        assert!(codes.contains(&Some(0)) && codes.iter().all(|code| matches!(code, Some(0 | IO))), "{codes:?}");
        fs::remove_dir_all(place.path("new")).unwrap();
        assert!(place.contents() == written);
        place.lose("drives", &[0, 5]);
        place.truncate("drives", 7);
        let codes = at_once(&place, "repair drives");
        assert!(codes.contains(&Some(0)) && codes.iter().all(|code| matches!(code, Some(0 | IO))), "{codes:?}");
        assert!(place.contents() == written);
    }
}

#[test]
fn limits_and_closed_pipes_are_errors() {
    let place = Place::new("limits");
    archive(&place);
    let before = place.contents();
    // A file may have no byte: the signal for that is not what ends the program.
    for line in ["write transcript new --nodes 4 --data 1", "open drives opened"] {
        let output = place.run_with_limit(&line.split(' ').collect::<Vec<_>>(), "-f 0");
        place.turned_back(line, &output, IO, &["cannot write"]);
        assert!(place.contents() == before, "{line}");
    }
    // Nobody reads: the reading end is closed before the program starts.
    for line in ["check drives", "open drives -", "--help"] {
        let (reading, writing) = std::io::pipe().unwrap();
        drop(reading);
        let output = place.command(&line.split(' ').collect::<Vec<_>>()).stdout(writing).output().unwrap();
        place.turned_back(line, &output, IO, &["pipe"]);
    }
}
