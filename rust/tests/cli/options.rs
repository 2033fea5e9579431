//! Standard input and output, reports for programs, dry runs, quiet runs, and the exit statuses of all commands.
use std::fs::{self, File};
use std::io::Write;
use std::process::Stdio;

use crate::json::Json;
use crate::place::{bytes, Place, IO, LOST, REPAIRABLE, USAGE};

#[test]
fn a_dash_is_standard_input_and_output() {
    let place = Place::new("dash");
    let transcript = bytes(900, 6);
    let mut write = place.command(&["write", "-", "drives", "--nodes", "6", "--data", "3"]);
    let mut running = write.stdin(Stdio::piped()).stdout(Stdio::piped()).spawn().unwrap();
    running.stdin.take().unwrap().write_all(&transcript).unwrap();
    let output = running.wait_with_output().unwrap();
    assert!(output.status.success() && output.stdout.starts_with(b"wrote 900 bytes into 6 cards"));

    place.damage("drives", 2);
    let output = place.run("open drives -");
    assert!(output.status.success() && output.stdout == transcript);
    let aside = String::from_utf8(output.stderr).unwrap();
    assert!(aside.starts_with("opened 900 bytes into standard output from nodes 0, 1, 3\n"), "{aside}");
    assert!(aside.contains("node-02.card does not agree"), "{aside}");
    let output = place.run("open drives - --quiet");
    assert!(output.status.success() && output.stdout == transcript && output.stderr.is_empty());
    assert!(!place.path("-").exists());

    // However much is sent, no more is read than an archive holds.
    let mut write = place.command(&["write", "-", "new", "--nodes", "6", "--data", "3"]);
    let output = write.stdin(File::open("/dev/zero").unwrap()).output().unwrap();
    place.turned_back("write -", &output, USAGE, &["at most 2880 bytes"]);
}

/// What `check --json` says; its status is the program's.
fn checked(place: &Place, status: i32) -> Json {
    let output = place.run("check drives --json");
    assert_eq!(output.status.code(), Some(status));
    assert_eq!(output.stderr.is_empty(), status == 0);
    let json = Json::read(&String::from_utf8(output.stdout).unwrap());
    assert_eq!(json.get("status").number(), status as u64);
    json
}

/// The states of the nodes.
fn states(json: &Json) -> Vec<&str> {
    json.get("nodes").items().iter().map(|node| node.get("state").text()).collect()
}

#[test]
fn check_speaks_to_programs() {
    let place = Place::with_archive("json_check");
    let sound = checked(&place, 0);
    assert_eq!(sound.get("verdict").text(), "sound");
    let archive = sound.get("archive");
    let numbers = ["nodes", "data", "layers", "bytes", "hearing"].map(|name| archive.get(name).number());
    assert_eq!(numbers, [6, 3, 3, 500, 0]);
    assert_eq!(states(&sound), ["good"; 6]);

    place.swap("drives", 0, 4);
    place.truncate("drives", 1);
    place.lose("drives", &[2]);
    let repairable = checked(&place, REPAIRABLE);
    assert_eq!(repairable.get("verdict").text(), "repairable");
    assert_eq!(states(&repairable), ["good", "unreadable", "missing", "good", "good", "good"]);
    let files: Vec<&[Json]> = repairable.get("nodes").items().iter().map(|node| node.get("files").items()).collect();
    assert_eq!(files[0], [Json::Text("node-04.card".to_string())]);
    assert_eq!(files[2], []);
    assert!(repairable.get("message").text().contains("node 2 is missing"));

    place.lose("drives", &[0, 4]);
    let lost = checked(&place, LOST);
    assert_eq!(lost.get("verdict").text(), "lost");
    assert_eq!(states(&lost), ["missing", "unreadable", "missing", "readable", "missing", "readable"]);

    fs::remove_dir_all(place.path("drives")).unwrap();
    assert_eq!(checked(&place, IO).get("archive"), &Json::Null);
}

#[test]
fn wrong_cards_and_names_are_told_to_programs() {
    let place = Place::new("json_names");
    fs::write(place.path("transcript"), bytes(50, 1)).unwrap();
    let directory = "a\"b\\c\u{1b}\u{7f}\n\u{e9}";
    let run = |words: &[&str]| place.command(words).output().unwrap();
    assert!(run(&["write", "transcript", directory, "--nodes", "5", "--data", "1"]).status.success());
    place.damage(directory, 3);
    place.damage(directory, 1);
    let output = run(&["check", directory, "--json"]);
    assert_eq!(output.status.code(), Some(REPAIRABLE));
    let json = Json::read(&String::from_utf8(output.stdout).unwrap());
    assert_eq!(states(&json), ["good", "wrong", "good", "wrong", "good"]);
    // The message is the line on standard error.
    let message = json.get("message").text();
    assert!(message.contains("a\"b\\c\\u{1b}\\u{7f}\\n\u{e9}/node-01.card"), "{message}");
    assert_eq!(String::from_utf8(output.stderr).unwrap(), format!("hmsr: {message}\n"));
}

#[test]
fn info_and_plan_speak_to_programs() {
    let place = Place::with_archive("json_info");
    let info = Json::read(&place.does("info --json drives/node-04.card"));
    let names = ["node", "nodes", "data", "layers", "bytes", "symbols", "hearing"];
    assert_eq!(names.map(|name| info.get(name).number()), [4, 6, 3, 3, 500, 3 * 64, 0]);
    assert_eq!(info.get("file").text(), "drives/node-04.card");
    // Document 01's plan.
    let plan = Json::read(&place.does("plan --nodes 4 --data 1 --layers 3 --dead 0,1 --helpers 2,3 --json"));
    let messages = plan.get("messages").items().iter();
    let messages: Vec<[u64; 3]> =
        messages.map(|message| ["from", "to", "symbols"].map(|name| message.get(name).number())).collect();
    assert_eq!(messages, [[2, 0, 16], [3, 0, 16], [2, 1, 16], [3, 1, 16], [1, 0, 16], [0, 1, 16]]);
    assert_eq!(plan.get("symbols").number(), 96);
    assert_eq!(plan.get("dead").items(), [Json::Number(0), Json::Number(1)]);
    place.refuses("plan --nodes 3 --data 1 --layers 3 --dead 0,1 --helpers 2 --json", USAGE, &["refusal 2"]);
}

#[test]
fn a_dry_run_changes_nothing() {
    let place = Place::with_archive("dry");
    place.lose("drives", &[0]);
    place.truncate("drives", 3);
    fs::write(place.path("drives/.hmsr-1-0.tmp"), "a killed command's").unwrap();
    let before = place.contents();
    let dry = place.does("repair drives --dry-run");
    assert!(place.contents() == before);
    assert!(dry.contains("not made, as this is a dry run: drives/node-00.card, drives/node-03.card\n"), "{dry}");
    let real = place.does("repair drives");
    assert_eq!(dry.replace("not made, as this is a dry run:", "made"), real);
    // What keeps a repair from being made keeps a dry run.
    place.lose("drives", &[1]);
    fs::create_dir(place.card("drives", 1)).unwrap();
    place.refuses("repair drives --dry-run", IO, &["node-01.card is not a file"]);
}

#[test]
fn a_quiet_command_prints_nothing_but_why_it_failed() {
    let place = Place::with_archive("quiet");
    assert_eq!(place.does("write transcript others --nodes 6 --data 3 --quiet"), "");
    assert_eq!(place.does("check drives --quiet"), "");
    place.lose("drives", &[1]);
    place.refuses("check drives --quiet", REPAIRABLE, &["node 1 is missing"]);
    assert_eq!(place.does("repair drives --quiet"), "");
    assert_eq!(place.does("open drives opened --quiet"), "");
    assert_eq!(fs::read(place.path("opened")).unwrap(), bytes(500, 1));
    let line = format!("correct drives --at 3 --from {} --to 0 --quiet", bytes(500, 1)[3]);
    assert_eq!(place.does(&line), "");
    place.refuses(&line, USAGE, &["byte 3 is 0 already"]);
}

/// Each status by each command that can have it.
#[test]
fn exit_statuses_are_those_of_the_readme() {
    let place = Place::with_archive("statuses");
    let status = |line: &str| place.run(line).status.code().unwrap();
    assert_eq!(status("check drives"), 0);
    assert_eq!(status("check nowhere"), 4);
    assert_eq!(status("check"), 3);
    assert_eq!([status("open drives opened --stretch 0..501"), status("open drives opened --stretch 0")], [3, 3]);
    let correct = "correct drives --at 0 --from 0 --to 0";
    assert_eq!([status("correct nowhere --at 0 --from 0 --to 0"), status(correct)], [4, 3]);
    place.lose("drives", &[0, 1]);
    assert_eq!([status("check drives"), status(correct)], [1, 1]);
    place.damage("drives", 2);
    for line in ["check drives", "open drives opened", "repair drives", correct] {
        assert_eq!(status(line), 2, "{line}");
    }
    place.lose("drives", &[2]);
    // Three of six: the transcript opens, and a repair would need one more.
    assert_eq!([status("check drives"), status("repair drives"), status("open drives opened")], [1, 1, 0]);
    place.lose("drives", &[3]);
    assert_eq!([status("check drives"), status("repair drives"), status("open drives again")], [2, 2, 2]);
    assert_eq!(status("open drives opened"), 4);
    assert_eq!(status("info drives/node-04.card"), 0);
    assert_eq!(status("info transcript"), 2);
    assert_eq!(status("info nowhere"), 4);
    assert_eq!(status("write transcript new --nodes 2 --data 1"), 3);
    assert_eq!(status("write nowhere new --nodes 6 --data 3"), 4);
    assert_eq!(status("plan --nodes 4 --data 1 --layers 1 --dead 0,1 --helpers 2,3"), 3);
    assert_eq!(status("layers --nodes 12 --data 6 --losses 2,4"), 0);
    assert_eq!(status("layers --nodes 12 --data 5 --losses 2,6"), 3);
    let order = "order --nodes 3 --dead 0 --helpers 1,2";
    for (list, expected) in [("2 0\n1 0\n", 0), ("2 0\n", 1), ("two\n", 3)] {
        fs::write(place.path("list"), list).unwrap();
        assert_eq!(status(&format!("{order} list")), expected, "{list}");
    }
    assert_eq!(status(&format!("{order} nowhere")), 4);
}
