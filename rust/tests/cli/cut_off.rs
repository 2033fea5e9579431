//! Corrections that are cut off: killed, failing, or met by another at once. Every card is as before or as after, no
//! command makes a third transcript of them, and there is a way to a sound archive.
use std::fs::{self, File};
use std::os::unix::fs::PermissionsExt;
use std::process::Stdio;

use crate::kills::{all_or_nothing, each_whole, stopped_at_each_call, Case, Contents};
use crate::place::{bytes, Place, IO, LOST, REPAIRABLE};

const BEFORE: &[u8] = b"the witness sajd no";
const AFTER: &[u8] = b"the witness said no";
const LINE: &str = "correct drives --at 14 --from j --to i";
const BACK: &str = "correct drives --at 14 --from i --to j";

fn archive(place: &Place, nodes: usize, data: usize) {
    fs::write(place.path("transcript"), BEFORE).unwrap();
    place.does(&format!("write transcript drives --nodes {nodes} --data {data} --layers 3 --hearing 700"));
}

// ---- stopped at each call

/// All cards of three and of four are rewritten, or three of four.
fn cases(judge: fn(&Place, &Contents, &Contents)) -> [(Case, usize); 3] {
    let case = |name, prepare| Case { name, line: LINE, prepare, judge };
    [
        (case("correct_3_1", |place| archive(place, 3, 1)), 3),
        (case("correct_4_1", |place| archive(place, 4, 1)), 4),
        (case("correct_4_2", |place| archive(place, 4, 2)), 3),
    ]
}

/// The calls at least: to make, write and sync a card, before and after; and the renames.
#[test]
fn a_correction_killed_at_any_call_leaves_whole_cards_and_is_finished_by_the_next() {
    for (case, cards) in cases(each_whole) {
        assert!(stopped_at_each_call(&case, "kill") > 3 * 2 * cards + cards, "{}", case.name);
        assert!(stopped_at_each_call(&case, "part") >= 2 * cards, "{}", case.name);
    }
}

#[test]
fn a_correction_whose_call_fails_is_made_whole_or_not_at_all() {
    for (case, cards) in cases(all_or_nothing) {
        assert!(stopped_at_each_call(&case, "fail") > 3 * 2 * cards + cards, "{}", case.name);
    }
}

/// From some call on nothing can be changed, so that nothing is put back either.
#[test]
fn a_correction_on_a_disk_that_breaks_is_finished_by_the_next() {
    for (case, cards) in cases(each_whole) {
        assert!(stopped_at_each_call(&case, "broken") > 3 * 2 * cards + cards, "{}", case.name);
    }
}

/// The cards that are corrected where the disk breaks are those that the complaint names: one, two and so on.
#[test]
fn what_cannot_be_put_back_is_named() {
    let place = Place::new("cut_off_named");
    archive(&place, 5, 2);
    let before = place.contents();
    place.does(LINE);
    let after = place.contents();
    let mut counts = Vec::new();
    for call in 1..100 {
        place.fill(&before);
        let output = place.run_with_faults(LINE, &[("FAULT_AT", &call.to_string()), ("FAULT_HOW", "broken")]);
        let now = place.contents();
        let corrected: Vec<_> = [0, 2, 3, 4]
            .into_iter()
            .filter(|&node| now[&place.card("drives", node)] == after[&place.card("drives", node)])
            .collect();
        let names: Vec<String> = corrected.iter().map(|node| format!("drives/node-0{node}.card")).collect();
        let state = match corrected.len() {
            0 => String::new(),
            4 => "the cards are corrected, but cannot send to the disk what is in drives".to_string(),
            _ => format!("; {} could not be put back: the same correction again finishes it", names.join(", ")),
        };
        if output.status.success() {
            break;
        }
        place.turned_back(LINE, &output, IO, &[&state]);
        counts.push(corrected.len());
    }
    counts.dedup();
    assert_eq!(counts, [0, 1, 2, 3, 4]);
}

/// One card cannot get its name: those before it are put back.
#[test]
fn cards_that_were_replaced_are_put_back() {
    let place = Place::new("cut_off_back");
    archive(&place, 5, 2);
    fs::set_permissions(place.card("drives", 2), fs::Permissions::from_mode(0o640)).unwrap();
    let before = place.contents();
    for node in [0, 2, 3, 4] {
        let faults = [("FAULT_PLACE", &*format!("node-0{node}.card"))];
        let output = place.run_with_faults(LINE, &faults);
        let words = ["cannot put corrected cards into drives: Input/output error", "; every card is as before"];
        place.turned_back(LINE, &output, IO, &words);
        assert!(place.contents() == before, "node {node}");
    }
    assert_eq!(fs::metadata(place.card("drives", 2)).unwrap().permissions().mode() & 0o7777, 0o640);
    // Node 1's card gets no new name.
    let output = place.run_with_faults(LINE, &[("FAULT_PLACE", "node-01.card")]);
    assert!(output.status.success());
    place.opens("drives", AFTER);
}

#[test]
fn a_full_disk_changes_nothing() {
    let place = Place::new("cut_off_full");
    archive(&place, 5, 2);
    let before = place.contents();
    let output = place.run_with_limit(&LINE.split(' ').collect::<Vec<_>>(), "-f 0");
    place.turned_back(LINE, &output, IO, &["cannot write a corrected card into drives: ", "; nothing is changed"]);
    assert!(place.contents() == before);
}

/// What is synced and renamed, in this order: cards before and after, the names, the directory.
#[test]
fn corrected_cards_are_synced_before_they_are_named() {
    let place = Place::new("cut_off_synced");
    archive(&place, 4, 2);
    let log = place.0.with_extension("log");
    fs::write(&log, "").unwrap();
    assert!(place.run_with_faults(LINE, &[("FAULT_LOG", log.to_str().unwrap())]).status.success());
    let calls = fs::read_to_string(&log).unwrap();
    let calls: Vec<&str> = calls.lines().collect();
    let (synced, named) = calls.split_at(6);
    assert!(synced.iter().all(|call| call.starts_with("sync ") && call.contains("/.hmsr-")), "{calls:?}");
    assert_eq!(named[..3], ["rename drives/node-00.card", "rename drives/node-02.card", "rename drives/node-03.card"]);
    assert!(named.len() == 4 && named[3].starts_with("sync ") && named[3].ends_with("/drives"), "{calls:?}");
}

// ---- cards of both

/// A directory with the cards of these nodes as after the correction, and the others as before.
struct Mixture {
    before: Contents,
    after: Contents,
    /// The nodes whose cards the correction rewrites.
    rewritten: Vec<usize>,
    /// (n - k) div 2: so many wrong cards are told.
    told: usize,
}

impl Mixture {
    fn new(place: &Place, nodes: usize, data: usize) -> Mixture {
        archive(place, nodes, data);
        let before = place.contents();
        place.does(LINE);
        let rewritten = std::iter::once(0).chain(data..nodes).collect();
        Mixture { before, after: place.contents(), rewritten, told: (nodes - data) / 2 }
    }

    /// Puts the cards into the directory whose nodes are chosen.
    fn fill(&self, place: &Place, chosen: &[usize]) {
        place.fill(&self.before);
        for &node in chosen {
            let card = place.card("drives", node);
            fs::write(&card, self.after[&card].as_ref().unwrap()).unwrap();
        }
    }

    /// The files that the other commands call wrong, and the transcript of the others; none where they cannot tell.
    fn told<'a>(&'a self, chosen: &[usize]) -> Option<(Vec<usize>, &'static [u8], &'a Contents)> {
        let others: Vec<usize> = self.rewritten.iter().copied().filter(|node| !chosen.contains(node)).collect();
        match (chosen.len() <= self.told, others.len() <= self.told) {
            (true, _) => Some((chosen.to_vec(), BEFORE, &self.before)),
            (_, true) => Some((others, AFTER, &self.after)),
            _ => None,
        }
    }
}

/// Follows what the commands say of a directory with cards of both.
fn advice_is_a_way_back(place: &Place, mixture: &Mixture, chosen: &[usize]) {
    mixture.fill(place, chosen);
    let Some((wrong, transcript, sound)) = mixture.told(chosen) else {
        for line in ["check drives", "open drives opened", "repair drives"] {
            place.refuses(line, LOST, &["if a correction was cut off, the same correction again finishes it"]);
        }
        return;
    };
    place.opens("drives", transcript);
    if wrong.is_empty() {
        assert!(place.does("check drives").starts_with("sound"));
        return;
    }
    let names: Vec<String> = wrong.iter().map(|node| format!("drives/node-0{node}.card")).collect();
    for line in ["check drives", "repair drives"] {
        place.refuses(line, REPAIRABLE, &[&names.join(", "), "not agree with the others", "away, then repair"]);
    }
    place.lose("drives", &wrong);
    place.does("repair drives");
    assert!(place.contents() == *sound);
}

/// The same correction finishes, and the opposite one goes back; what is done is told.
fn corrections_finish(place: &Place, mixture: &Mixture, chosen: &[usize]) {
    let others: Vec<usize> = mixture.rewritten.iter().copied().filter(|node| !chosen.contains(node)).collect();
    let files =
        |nodes: &[usize]| nodes.iter().map(|node| format!("drives/node-0{node}.card")).collect::<Vec<_>>().join(", ");
    for (line, done, left, end) in [(LINE, chosen, &*others, &mixture.after), (BACK, &others, chosen, &mixture.before)]
    {
        if left.is_empty() {
            continue;
        }
        mixture.fill(place, chosen);
        let cut_off = format!("a correction that was cut off has rewritten {}\n", files(done));
        let rewrote = format!("rewrote {}\nhearing 700\n", files(left));
        let dry = place.does(&format!("{line} --dry-run"));
        let report = place.does(line);
        assert_eq!(dry.replace("not rewritten, as this is a dry run:", "rewrote"), report);
        let expected = if done.is_empty() { rewrote } else { cut_off + &rewrote };
        assert_eq!(report.split_once('\n').unwrap().1, expected);
        assert!(place.contents() == *end, "{line} from {chosen:?}");
    }
}

/// Every choice of cards that a killed correction may have rewritten; a disk may keep the renames in another order.
#[test]
fn every_mixture_of_cards_has_a_way_to_a_sound_archive() {
    for (nodes, data) in [(3, 1), (4, 1), (4, 2), (5, 2), (6, 4)] {
        let place = Place::new("cut_off_mixtures");
        let mixture = Mixture::new(&place, nodes, data);
        for choice in 0..1_u32 << mixture.rewritten.len() {
            let chosen = mixture.rewritten.iter().enumerate().filter(|(place, _)| choice >> place & 1 == 1);
            let chosen: Vec<usize> = chosen.map(|(_, &node)| node).collect();
            advice_is_a_way_back(&place, &mixture, &chosen);
            corrections_finish(&place, &mixture, &chosen);
        }
    }
}

/// Another correction, another card that is wrong or missing, a card of another archive: nothing is finished then.
#[test]
fn only_what_was_cut_off_is_finished() {
    let place = Place::new("cut_off_only");
    let mixture = Mixture::new(&place, 5, 2);
    // Nodes 0 and 2 are corrected, nodes 3 and 4 are not.
    mixture.fill(&place, &[0, 2]);
    for line in [
        "correct drives --at 14 --from j --to k",
        "correct drives --at 14 --from k --to j",
        "correct drives --at 13 --from a --to b",
        "correct drives --at 14 --from i --to i",
        "correct drives --at 14 --from j --to j",
        "correct drives --at 19 --from j --to i",
    ] {
        place.refuses(line, LOST, &["it cannot be told which are wrong"]);
    }
    for node in 0..5 {
        mixture.fill(&place, &[0, 2]);
        place.damage("drives", node);
        assert_eq!(place.run(LINE).status.code(), Some(LOST), "node {node}");
        place.lose("drives", &[node]);
        assert!(matches!(place.run(LINE).status.code(), Some(LOST | REPAIRABLE)), "node {node}");
    }
    mixture.fill(&place, &[0, 2]);
    place.does("write transcript others --nodes 5 --data 2 --layers 1");
    fs::copy(place.card("others", 1), place.card("drives", 20)).unwrap();
    place.refuses(LINE, REPAIRABLE, &["drives/node-20.card is of another archive"]);
    place.lose("drives", &[20]);
    place.does(LINE);
    place.opens("drives", AFTER);
}

// ---- at once

/// A correction changes nothing while another holds the directory; a dry run does not wait for it.
#[test]
fn a_directory_that_is_held_is_left() {
    let place = Place::new("cut_off_held");
    archive(&place, 4, 2);
    let held = File::open(place.path("drives")).unwrap();
    held.lock().unwrap();
    place.refuses(LINE, IO, &["another command changes the cards in drives: try again"]);
    place.does(&format!("{LINE} --dry-run"));
    // As for temporary files, closing is not enough.
    held.unlock().unwrap();
    place.does(LINE);
    place.opens("drives", AFTER);
}

/// Corrections of several bytes that run at once: each is made whole or turns back, and none undoes another.
#[test]
fn corrections_that_run_at_once_undo_nothing() {
    let place = Place::new("cut_off_at_once");
    let transcript = bytes(400, 9);
    fs::write(place.path("transcript"), &transcript).unwrap();
    place.does("write transcript drives --nodes 6 --data 3 --layers 3");
    let mut expected = transcript.clone();
    for round in 0..10 {
        let start = |byte: usize| {
            let line = format!("correct drives --at {byte} --from {} --to {round}", expected[byte]);
            let mut command = place.command(&line.split(' ').collect::<Vec<_>>());
            command.stdout(Stdio::null()).stderr(Stdio::piped()).spawn().unwrap()
        };
        let running: Vec<_> = (0..400).step_by(57).map(|byte| (byte, start(byte))).collect();
        let mut made = 0;
        for (byte, child) in running {
            let output = child.wait_with_output().unwrap();
            if output.status.success() {
                (expected[byte], made) = (round, made + 1);
            } else {
                place.turned_back("correct", &output, IO, &["another command changes the cards in drives: try again"]);
            }
        }
        assert!(made > 0, "{round}");
        assert!(place.does("check drives").starts_with("sound"), "{round}");
        place.opens("drives", &expected);
    }
    assert_eq!(fs::read_dir(place.path("drives")).unwrap().count(), 6);
}
