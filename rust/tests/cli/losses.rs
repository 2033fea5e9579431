//! Layers for a list of losses: the command that names them, and archives that are written for the losses.
use std::fs;

use hmsr::{Refusal, Shape};

use crate::json::Json;
use crate::place::{bytes, Place, USAGE};

/// The reason of a refusal, as the program tells it.
fn reason(refusal: Refusal) -> String {
    format!("refusal {} ({refusal})", refusal.number())
}

/// A place with a transcript of so many bytes.
fn with_transcript(test: &str, count: usize) -> Place {
    let place = Place::new(test);
    fs::write(place.path("transcript"), bytes(count, 5)).unwrap();
    place
}

/// The layers that a report of `write` names.
fn layers_of(report: &str) -> usize {
    let line = report.lines().nth(1).unwrap_or_else(|| panic!("{report} has no second line"));
    line.split(' ').next().unwrap().parse().unwrap()
}

// ---- the command

/// 3 layers for a loss of 2, 5 for one of 4, 15 for both; k × L × 2^n bytes.
#[test]
fn the_fewest_layers_for_losses_are_told() {
    let place = Place::new("losses_told");
    for (line, served, described) in [
        (
            "--nodes 12 --data 6 --losses 2,4",
            "15 layers serve losses of 2 and 4 nodes",
            "368640 bytes at most: any loss of up to 5 nodes is repaired in one go",
        ),
        (
            "--nodes 12 --data 6 --losses 3,2,1",
            "3 layers serve losses of 1, 2 and 3 nodes",
            "73728 bytes at most: a loss of 1, 2, 3, 5 nodes is repaired in one go, of up to 5 in several",
        ),
        (
            "--nodes 4 --data 1 --losses 2",
            "3 layers serve a loss of 2 nodes",
            "48 bytes at most: any loss of up to 2 nodes is repaired in one go",
        ),
        (
            "--nodes 3 --data 1 --losses 1",
            "1 layer serves a loss of 1 node",
            "8 bytes at most: any loss of up to 1 node is repaired in one go",
        ),
        (
            "--nodes 5 --data 1 --losses 1,3",
            "1 layer serves losses of 1 and 3 nodes",
            "32 bytes at most: a loss of 1, 3 nodes is repaired in one go, of up to 3 in several",
        ),
    ] {
        assert_eq!(place.does(&format!("layers {line}")), format!("{served}\n{described}\n"), "{line}");
    }
    assert!(place.contents().is_empty());
}

#[test]
fn no_losses_need_one_layer() {
    let place = Place::new("losses_none");
    let report = "1 layer is enough, as no losses are named\n\
                  24576 bytes at most: a loss of 1, 3 nodes is repaired in one go, of up to 5 in several\n";
    assert_eq!(place.does("layers --nodes 12 --data 6 --losses="), report);
    for value in ["", " "] {
        let words = ["layers", "--nodes", "12", "--data", "6", "--losses", value];
        let output = place.command(&words).output().unwrap();
        assert!(output.status.success() && output.stderr.is_empty());
        assert_eq!(String::from_utf8(output.stdout).unwrap(), report);
    }
    assert_eq!(
        place.does("layers --nodes 12 --data 6 --losses= --json"),
        "{\"nodes\":12,\"data\":6,\"layers\":1,\"bytes\":24576,\"losses\":[],\"in_one_go\":[1,3]}\n"
    );
    // Lists of nodes may not be empty.
    place.refuses("repair drives --dead=", USAGE, &["--dead:  is not a whole number"]);
    place.refuses("repair drives --helpers=", USAGE, &["--helpers:  is not a whole number"]);
    let plan = "plan --nodes 4 --data 1 --layers 3 --dead= --helpers 2,3";
    place.refuses(plan, USAGE, &["--dead:  is not a whole number"]);
}

#[test]
fn the_order_and_repeats_of_losses_change_nothing() {
    let place = Place::new("losses_order");
    for options in ["", " --json"] {
        let once = place.does(&format!("layers --nodes 12 --data 6 --losses 2,4{options}"));
        for losses in ["4,2", "2,2,4", "4,2,4,2,2", "02,004"] {
            assert_eq!(place.does(&format!("layers --nodes 12 --data 6 --losses {losses}{options}")), once, "{losses}");
        }
    }
}

#[test]
fn layers_are_told_to_programs() {
    let place = Place::new("losses_json");
    let line = place.does("layers --json --nodes 12 --data 6 --losses 4,2");
    assert_eq!(
        line,
        "{\"nodes\":12,\"data\":6,\"layers\":15,\"bytes\":368640,\"losses\":[2,4],\"in_one_go\":[1,2,3,4,5]}\n"
    );
    let json = Json::read(&line);
    assert_eq!(["nodes", "data", "layers", "bytes"].map(|name| json.get(name).number()), [12, 6, 15, 368_640]);
    assert_eq!(json.get("losses").items(), [Json::Number(2), Json::Number(4)]);
    assert_eq!(json.get("in_one_go").items().len(), 5);
    let refused = place.refuses("layers --nodes 12 --data 5 --losses 2,6", USAGE, &[]);
    assert_eq!(place.refuses("layers --nodes 12 --data 5 --losses 2,6 --json", USAGE, &[]), refused);
}

#[test]
fn losses_that_no_layers_serve_are_refused_with_what_they_need() {
    let place = with_transcript("losses_unserved", 10);
    let advice = "name fewer sizes, a loss of a size that is left out is still repaired, if need be in several goes";
    for (shape, losses, named, needed) in [
        ("--nodes 12 --data 5", "2,6", "2 and 6", 21),
        ("--nodes 12 --data 5", "6,2,2", "2 and 6", 21),
        ("--nodes 14 --data 4", "1,4,8", "1, 4 and 8", 45),
        ("--nodes 14 --data 1", "12,10,8,6,4", "4, 6, 8, 10 and 12", 45_045),
    ] {
        let complaint = format!(
            "hmsr: losses of {named} nodes cannot each be repaired in one go: {}; they need {needed} layers together: \
             {advice}\n",
            reason(Refusal::NoLayers)
        );
        for line in ["layers", "write transcript new"] {
            assert_eq!(place.refuses(&format!("{line} {shape} --losses {losses}"), USAGE, &[]), complaint);
        }
    }
}

/// The transcript is not there: losses are judged before it is looked for.
#[test]
fn losses_outside_their_range_are_refused_with_it() {
    let place = Place::new("losses_outside");
    for (shape, losses, named, range) in [
        ("--nodes 4 --data 1", "3", "a loss of 3 nodes", "losses of 1 to 2 nodes"),
        ("--nodes 4 --data 1", "0", "a loss of 0 nodes", "losses of 1 to 2 nodes"),
        ("--nodes 4 --data 1", "7,1,0,2", "losses of 0 and 7 nodes", "losses of 1 to 2 nodes"),
        ("--nodes 4 --data 2", "2", "a loss of 2 nodes", "a loss of 1 node"),
        ("--nodes 14 --data 1", "13", "a loss of 13 nodes", "losses of 1 to 12 nodes"),
        // Judged before whether layers serve them all.
        ("--nodes 12 --data 5", "2,6,7", "a loss of 7 nodes", "losses of 1 to 6 nodes"),
        (
            "--nodes 6 --data 3",
            "18446744073709551615",
            "a loss of 18446744073709551615 nodes",
            "losses of 1 to 2 nodes",
        ),
    ] {
        let complaint =
            format!("hmsr: {named} cannot be repaired: {}; with {shape} name {range}\n", reason(Refusal::BadNodes));
        for line in ["layers", "write nothing new"] {
            assert_eq!(place.refuses(&format!("{line} {shape} --losses {losses}"), USAGE, &[]), complaint);
        }
    }
}

#[test]
fn shapes_without_layers_are_refused_before_losses() {
    let place = Place::new("losses_shapes");
    let complaint = format!(
        "hmsr: no archive has this shape: {}; choose --nodes and --data within these ranges\n",
        reason(Refusal::BadShape)
    );
    for shape in [
        "--nodes 2 --data 1",
        "--nodes 15 --data 3",
        "--nodes 6 --data 0",
        "--nodes 6 --data 5",
        "--nodes 18446744073709551615 --data 18446744073709551615",
    ] {
        for losses in ["", "0", "1", "9"] {
            for line in ["layers", "write nothing new"] {
                assert_eq!(place.refuses(&format!("{line} {shape} --losses={losses}"), USAGE, &[]), complaint);
            }
        }
    }
}

#[test]
fn arguments_of_layers_are_told_apart() {
    let place = Place::new("losses_arguments");
    for (line, complaint) in [
        ("layers --nodes 6 --data 3", "--losses is missing"),
        ("layers --nodes 6 --losses 1", "--data is missing"),
        ("layers --nodes 6 --data 3 --losses", "--losses needs a value"),
        ("layers --nodes 6 --data 3 --losses 1 --losses 1", "--losses is given twice"),
        ("layers --nodes 6 --data 3 --losses two", "--losses: two is not a whole number"),
        ("layers --nodes 6 --data 3 --losses 1,,2", "--losses:  is not a whole number"),
        ("layers --nodes 6 --data 3 --losses ,", "--losses:  is not a whole number"),
        ("layers --nodes 6 --data 3 --losses 18446744073709551616", "--losses: 18446744073709551616 is too large"),
        ("layers --nodes 6 --data 3 --losses 1 --layers 3", "there is no option --layers here"),
        ("layers --nodes 6 --data 3 --losses 1 --quiet", "there is no option --quiet here"),
        ("layers drives --nodes 6 --data 3 --losses 1", "what is drives for?"),
        ("repair drives --losses 1", "there is no option --losses here"),
        ("write nothing new --nodes 6 --data 3 --layers 3 --losses 2", "--layers and --losses: give only one of them"),
        ("write nothing new --nodes 6 --data 3 --losses= --layers 3", "--layers and --losses: give only one of them"),
    ] {
        assert_eq!(place.refuses(line, USAGE, &[]), format!("hmsr: {complaint} (see hmsr --help)\n"), "{line}");
    }
}

#[test]
fn help_shows_losses() {
    let place = Place::new("losses_help");
    let layers = "hmsr layers --nodes N --data K --losses LIST [--json]\n";
    let write = "hmsr write FILE DIR --nodes N --data K [--layers L | --losses LIST] [--hearing NUMBER] [--quiet]\n";
    assert!(place.does("layers --help").starts_with(layers));
    assert!(place.does("write --help").starts_with(write));
    let help = place.does("--help");
    assert!([layers, write].iter().all(|line| help.contains(line)), "{help}");
}

// ---- archives for losses

/// Writes an archive for losses, loses nodes of each size in turn, and repairs each loss in one go.
fn repaired_in_one_go(test: &str, shape: Shape, losses: &[usize]) {
    let place = with_transcript(test, 200);
    let Shape { nodes, data, layers } = shape;
    let list: Vec<String> = losses.iter().map(usize::to_string).collect();
    let line = format!("write transcript drives --nodes {nodes} --data {data} --losses {}", list.join(","));
    assert_eq!(layers_of(&place.does(&line)), layers, "{line}");
    assert!(place.does("check drives").starts_with("sound"));
    let written = place.contents();
    for &loss in losses {
        let lost: Vec<usize> = (nodes - loss..nodes).collect();
        place.lose("drives", &lost);
        let list: Vec<String> = lost.iter().map(usize::to_string).collect();
        let report = place.does(&format!("repair drives --dead {}", list.join(",")));
        assert_eq!(report.matches("repair of node").count(), 1, "{loss}: {report}");
        assert!(place.contents() == written, "after a loss of {loss}");
    }
}

#[test]
fn each_named_loss_is_repaired_in_one_go() {
    repaired_in_one_go("losses_2_4", Shape { nodes: 8, data: 2, layers: 15 }, &[2, 4]);
    repaired_in_one_go("losses_6", Shape { nodes: 9, data: 2, layers: 7 }, &[6]);
    repaired_in_one_go("losses_5_2_3", Shape { nodes: 8, data: 2, layers: 3 }, &[5, 2, 3]);
    repaired_in_one_go("losses_8_2", Shape { nodes: 10, data: 1, layers: 9 }, &[8, 2]);
    repaired_in_one_go("losses_11_4", Shape { nodes: 14, data: 2, layers: 15 }, &[11, 4]);
}

#[test]
fn an_archive_for_losses_is_that_of_its_layers() {
    let place = with_transcript("losses_same", 100);
    let with_losses = place.does("write transcript losses --nodes 7 --data 2 --losses 4,2 --hearing 7");
    let with_layers = place.does("write transcript layers --nodes 7 --data 2 --layers 15 --hearing 7");
    assert_eq!(
        with_losses,
        "wrote 100 bytes into 7 cards in losses: any 2 of them give it back\n\
         15 layers, 3840 bytes at most: any loss of up to 4 nodes is repaired in one go\n\
         hearing 7\n"
    );
    assert_eq!(with_losses.replace("in losses", "in layers"), with_layers);
    for node in 0..7 {
        let [one, other] = ["losses", "layers"].map(|directory| fs::read(place.card(directory, node)).unwrap());
        assert!(one == other, "node {node}");
    }
}

/// n = 5, k = 1: 32 bytes a layer. A loss of 2 is served by multiples of 3, no loss by any number.
#[test]
fn a_longer_transcript_takes_a_multiple_of_the_layers() {
    let place = Place::new("losses_multiple");
    for (losses, count, layers) in [
        ("2", 0, 3),
        ("2", 96, 3),
        ("2", 97, 6),
        ("2", 192, 6),
        ("2", 193, 9),
        ("2", 480, 15),
        ("1,3", 33, 2),
        ("", 0, 1),
        ("", 33, 2),
        ("", 480, 15),
    ] {
        fs::write(place.path("transcript"), bytes(count, 5)).unwrap();
        let directory = format!("drives-{losses}-{count}");
        let report = place.does(&format!("write transcript {directory} --nodes 5 --data 1 --losses={losses}"));
        assert_eq!(layers_of(&report), layers, "{losses}, {count} bytes: {report}");
        place.opens(&directory, &bytes(count, 5));
    }
}

/// n = 10, k = 1: 1024 bytes a layer. A loss of 8 needs 9 layers, and 18 are too many; losses of 2 and 4 need 15.
#[test]
fn a_transcript_that_is_too_long_for_the_losses_is_refused() {
    let place = with_transcript("losses_long", 9 * 1024);
    assert_eq!(layers_of(&place.does("write transcript fits --nodes 10 --data 1 --losses 8")), 9);
    let too_long = |count: usize, losses: &str| {
        fs::write(place.path("transcript"), bytes(count, 5)).unwrap();
        place.refuses(&format!("write transcript new --nodes 10 --data 1 --losses {losses}"), USAGE, &[])
    };
    let for_losses = "hmsr: the transcript is too long for these losses: an archive with --nodes 10 --data 1 that \
                      serves them holds at most 9216 bytes; ";
    for count in [9 * 1024 + 1, 15 * 1024] {
        let advice = "split it, choose other --nodes and --data, or name fewer losses\n";
        assert_eq!(too_long(count, "8,2"), format!("{for_losses}{advice}"), "{count}");
    }
    // Fewer losses would not help.
    for count in [15 * 1024 + 1, 20 * 1024] {
        let advice = "split it, or choose other --nodes and --data\n";
        assert_eq!(too_long(count, "2,8"), format!("{for_losses}{advice}"), "{count}");
    }
    // With losses that all 15 layers serve, as many bytes fit as without.
    let any =
        "hmsr: the transcript is too long: an archive with --nodes 10 --data 1 holds at most 15360 bytes; split it, ";
    assert_eq!(too_long(15 * 1024 + 1, "2,4"), format!("{any}or choose other --nodes and --data\n"));
    let without = place.refuses("write transcript new --nodes 10 --data 1", USAGE, &[]);
    assert_eq!(without, format!("{any}or use more data nodes\n"));
}
