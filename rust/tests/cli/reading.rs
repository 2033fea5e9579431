//! Reading: a file is replaced only if it is no card twice, and no read is unbounded or waits.
use std::fs::File;
use std::process::Command;

use crate::place::{Place, IO, REPAIRABLE};

#[test]
fn a_card_that_one_read_missed_is_not_replaced() {
    let place = Place::with_archive("second_read");
    // A readable card that is wrong: one that were made in its place would have other bytes.
    place.damage("drives", 1);
    let before = place.contents();
    for how in ["error", "end"] {
        let faults = [("FAULT_READ", "drives/node-01.card"), ("FAULT_HOW", how)];
        let output = place.run_with_faults("repair drives", &faults);
        place.turned_back(how, &output, IO, &["node-01.card could not be read at first, but is a card"]);
        assert!(place.contents() == before, "{how}");
        // The same fault in a check: the card is not called lost.
        let output = place.run_with_faults("check drives", &faults);
        place.turned_back(how, &output, REPAIRABLE, &["node-01.card could not be read at first, but is a card"]);
    }
}

/// A drive that fails once may give wrong bytes the next time.
#[test]
fn a_file_that_could_not_be_read_once_is_not_replaced() {
    let place = Place::with_archive("failed_once");
    place.truncate("drives", 4);
    let before = place.contents();
    let faults = [("FAULT_READ", "drives/node-04.card"), ("FAULT_HOW", "error")];
    let output = place.run_with_faults("repair drives", &faults);
    place.turned_back("repair", &output, IO, &["node-04.card may be good, but cannot be read: Input/output error"]);
    assert!(place.contents() == before);
    place.does("repair drives");
}

#[test]
fn reads_are_bounded() {
    let place = Place::with_archive("bounded");
    let written = place.contents();
    File::create(place.card("drives", 1)).unwrap().set_len(1 << 30).unwrap();
    // 100 MB of address space, less than a tenth of the file.
    for (words, status) in [(vec!["info", "drives/node-01.card"], 2), (vec!["check", "drives"], REPAIRABLE)] {
        let output = place.run_with_limit(&words, "-v 100000");
        assert_eq!(output.status.code(), Some(status), "{}", String::from_utf8_lossy(&output.stderr));
        assert!(String::from_utf8_lossy(&output.stderr).contains("refusal 6"));
    }
    let output =
        place.run_with_limit(&["write", "drives/node-01.card", "new", "--nodes", "6", "--data", "3"], "-v 100000");
    place.turned_back("write", &output, 3, &["at most 2880 bytes"]);
    let output = place.run_with_limit(&["repair", "drives"], "-v 100000");
    assert!(output.status.success(), "{}", String::from_utf8_lossy(&output.stderr));
    assert!(place.contents() == written);
}

#[test]
fn fifos_and_devices_are_refused() {
    let place = Place::with_archive("fifos");
    place.lose("drives", &[1]);
    assert!(Command::new("mkfifo").arg(place.card("drives", 1)).status().unwrap().success());
    place.refuses("info drives/node-01.card", IO, &["not a file"]);
    place.refuses("info /dev/zero", IO, &["not a file"]);
    place.refuses("check drives", REPAIRABLE, &["node-01.card is not a file: move it away; then run hmsr repair"]);
    place.refuses("repair drives", IO, &["node-01.card is not a file: move it away"]);
    for file in ["drives/node-01.card", "/dev/zero"] {
        place.refuses(&format!("write {file} new --nodes 6 --data 3"), IO, &["not a file"]);
    }
    place.refuses("open drives drives/node-01.card", IO, &["is there already"]);
    place.does("open drives opened");
}
