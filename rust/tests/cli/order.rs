//! Whether transfers may run in the order of a list: the command's answers, the lists it reads, and what it refuses.
use std::fs::{self, File};
use std::io::Write;
use std::process::{Command, Output, Stdio};

use crate::json::Json;
use crate::place::{Place, IO, REPAIRABLE, USAGE};

/// Document 01's repair, and its plan's order.
const REPAIR: &str = "order --nodes 4 --dead 0,1 --helpers 2,3";
const PLAN: &str = "2 0\n3 0\n2 1\n3 1\n1 0\n0 1\n";

const YES: &str = "yes: the 6 transfers may run in this order\n";

/// A place with a list.
fn with_list(test: &str, list: &str) -> Place {
    let place = Place::new(test);
    fs::write(place.path("list"), list).unwrap();
    place
}

/// Asks about a list that is sent to standard input.
fn asked(place: &Place, list: &[u8]) -> Output {
    let words: Vec<&str> = REPAIR.split(' ').chain(["-"]).collect();
    let mut command = place.command(&words);
    command.stdin(Stdio::piped()).stdout(Stdio::piped()).stderr(Stdio::piped());
    let mut running = command.spawn().unwrap();
    running.stdin.take().unwrap().write_all(list).unwrap();
    running.wait_with_output().unwrap()
}

/// The command turns back with this line on standard error, whether the list is in a file or is sent.
fn answers(place: &Place, list: &str, status: i32, complaint: &str) {
    fs::write(place.path("list"), list).unwrap();
    assert_eq!(place.refuses(&format!("{REPAIR} list"), status, &[]), format!("hmsr: {complaint}\n"), "{list:?}");
    let output = asked(place, list.as_bytes());
    place.turned_back(list, &output, status, &[&complaint.replace(" of list ", " of standard input ")]);
}

// ---- the answers

#[test]
fn the_plans_order_and_others_may_run() {
    let place = Place::new("order_yes");
    for list in [
        PLAN,
        "3 1\n2 1\n1 0\n2 0\n3 0\n0 1\n",
        "3 0\n2 0\n0 1\n3 1\n2 1\n1 0\n",
        "2 1\n2 0\n3 1\n3 0\n0 1\n1 0\n",
        // Other forms of the same numbers and lines.
        "2 0\n3 0\n2 1\n3 1\n1 0\n0 1",
        "2 0\r\n3 0\r\n2 1\r\n3 1\r\n1 0\r\n0 1\r\n",
        "2 0\r\n3 0\r\n2 1\r\n3 1\r\n1 0\r\n0 1\r",
        "\n  \n2 0\n\r\n \t\r\n  3\t \t0 \n2 1\n3 1\n\n1 0\n0 1\n\n\n",
        "002 0\n3 00000000000000000000000000\n2 1\n3 01\n1 0\n0 1\n",
    ] {
        fs::write(place.path("list"), list).unwrap();
        assert_eq!(place.does(&format!("{REPAIR} list")), YES, "{list:?}");
        let output = asked(&place, list.as_bytes());
        assert!(output.status.success() && output.stderr.is_empty(), "{list:?}");
        assert_eq!(String::from_utf8(output.stdout).unwrap(), YES, "{list:?}");
    }
}

#[test]
fn the_smallest_and_the_largest_plan_may_run() {
    let place = with_list("order_sizes", "2 1\n0 1\n");
    assert_eq!(
        place.does("order --nodes 3 --dead 1 --helpers 0,2 list"),
        "yes: the 2 transfers may run in this order\n"
    );
    let plan = place.does("plan --nodes 14 --data 1 --layers 13 --dead 0,1,2,3,4,5,6,7,8,9,10,11 --helpers 12,13");
    let pairs: Vec<&str> = plan.lines().filter_map(|line| line.rsplit_once(' ')).map(|(pair, _)| pair).collect();
    // The first line is the shape's.
    fs::write(place.path("list"), pairs[1..].join("\n")).unwrap();
    let line = "order --nodes 14 --dead 0,1,2,3,4,5,6,7,8,9,10,11 --helpers 12,13 list";
    assert_eq!(place.does(line), "yes: the 156 transfers may run in this order\n");
}

#[test]
fn a_transfer_that_waits_is_named_with_the_helpers() {
    let place = Place::new("order_waits");
    let waits = |list: &str, complaint: &str| answers(&place, list, REPAIRABLE, complaint);
    waits("2 0\n3 1\n1 0\n2 1\n3 0\n0 1\n", "no: line 3, 1 0: node 1 sends before helper 2 has sent to it");
    waits("1 0\n3 1\n2 0\n2 1\n3 0\n0 1\n", "no: line 1, 1 0: node 1 sends before helpers 2 and 3 have sent to it");
    // What was sent to another node does not count, and blank lines do.
    waits("\n2 0\n\n3 0\n01  0\n", "no: line 5, 01 0: node 1 sends before helpers 2 and 3 have sent to it");
    fs::write(place.path("list"), "2 0\n0 1\n").unwrap();
    assert_eq!(
        place.refuses("order --nodes 7 --dead 0,1 --helpers 2,3,4,6 list", REPAIRABLE, &[]),
        "hmsr: no: line 2, 0 1: node 0 sends before helpers 3, 4 and 6 have sent to it\n"
    );
}

#[test]
fn a_transfer_that_is_not_in_the_plan_is_named() {
    let place = Place::new("order_foreign");
    for (pair, list) in [
        ("9 0", "2 0\n3 0\n2 1\n3 1\n9 0\n1 0\n0 1\n"),
        ("0 0", "2 0\n3 0\n2 1\n3 1\n0 0\n1 0\n0 1\n"),
        ("0 2", "2 0\n3 0\n2 1\n3 1\n0 2\n1 0\n0 1\n"),
        ("2 3", "2 0\n3 0\n2 1\n3 1\n2 3\n1 0\n0 1\n"),
        // Sender and receiver stand in this order.
        ("1 3", "2 0\n3 0\n2 1\n1 3\n1 0\n0 1\n"),
    ] {
        let line = list.lines().position(|line| line == pair).unwrap() + 1;
        answers(&place, list, REPAIRABLE, &format!("no: line {line}, {pair}: the plan has no such transfer"));
    }
    // A node that lives and does not help sends nothing.
    fs::write(place.path("list"), "2 0\n4 0\n").unwrap();
    let line = "order --nodes 5 --dead 0,1 --helpers 2,3 list";
    assert_eq!(place.refuses(line, REPAIRABLE, &[]), "hmsr: no: line 2, 4 0: the plan has no such transfer\n");
}

#[test]
fn a_transfer_that_stands_twice_is_named_with_its_first_line() {
    let place = Place::new("order_twice");
    for (list, complaint) in [
        ("2 0\n3 0\n2 1\n3 1\n1 0\n0 1\n2 0\n", "no: line 7, 2 0: it stands in line 1 already"),
        ("2 0\n3 0\n2 1\n3 1\n1 0\n0 1\n1 0\n", "no: line 7, 1 0: it stands in line 5 already"),
        ("\n2 0\n\n02 00\n3 0\n2 1\n3 1\n1 0\n0 1\n", "no: line 4, 02 00: it stands in line 2 already"),
    ] {
        answers(&place, list, REPAIRABLE, complaint);
    }
}

#[test]
fn a_list_that_ends_too_early_is_told_what_is_missing() {
    let place = Place::new("order_missing");
    for (list, complaint) in [
        ("2 0\n3 0\n2 1\n3 1\n0 1\n", "no: the list ends without the transfer from 1 to 0"),
        ("2 0\n3 0\n3 1\n0 1\n", "no: the list ends without the transfer from 2 to 1 and 1 other"),
        ("3 1\n2 0\n", "no: the list ends without the transfer from 3 to 0 and 3 others"),
        ("", "no: the list ends without the transfer from 2 to 0 and 5 others"),
        (" \n\r\n\t\n", "no: the list ends without the transfer from 2 to 0 and 5 others"),
    ] {
        answers(&place, list, REPAIRABLE, complaint);
    }
}

/// Each list breaks every rule, each in another line.
#[test]
fn the_first_broken_line_is_named() {
    let place = Place::new("order_first");
    for (list, complaint) in [
        ("1 0\n2 0\n2 0\n9 9\n", "no: line 1, 1 0: node 1 sends before helpers 2 and 3 have sent to it"),
        ("2 0\n2 0\n9 9\n1 0\n", "no: line 2, 2 0: it stands in line 1 already"),
        ("2 0\n9 9\n1 0\n2 0\n", "no: line 2, 9 9: the plan has no such transfer"),
        // What is not in the plan is not said to stand twice.
        ("2 0\n3 3\n3 3\n2 0\n1 0\n", "no: line 2, 3 3: the plan has no such transfer"),
    ] {
        answers(&place, list, REPAIRABLE, complaint);
    }
}

/// Numbers that would be nodes if their high bits were cut off are none.
#[test]
fn numbers_of_any_size_are_merely_not_in_the_plan() {
    let place = Place::new("order_large");
    let long = "7".repeat(100_000);
    let seventy_sevens = format!("{}... 0", "7".repeat(20));
    for (pair, shown) in [
        ("258 0", "258 0"),
        ("4294967298 0", "4294967298 0"),
        ("2 18446744073709551615", "2 18446744073709551615"),
        ("18446744073709551618 0", "18446744073709551618 0"),
        ("2 340282366920938463463374607431768211456", "2 34028236692093846346..."),
        (&format!("{long} 0"), &seventy_sevens),
    ] {
        let list = format!("2 0\n{pair}\n3 0\n");
        answers(&place, &list, REPAIRABLE, &format!("no: line 2, {shown}: the plan has no such transfer"));
    }
}

/// However long a list is, its first broken line is named.
#[test]
fn a_long_list_breaks_a_rule() {
    let place = with_list("order_long", &PLAN.repeat(50_000));
    let complaint = place.refuses(&format!("{REPAIR} list"), REPAIRABLE, &[]);
    assert_eq!(complaint, "hmsr: no: line 7, 2 0: it stands in line 1 already\n");
}

// ---- for programs

#[test]
fn a_yes_is_told_to_programs() {
    let place = with_list("order_json_yes", PLAN);
    assert_eq!(place.does(&format!("{REPAIR} list --json")), "{\"may_run\":true,\"transfers\":6}\n");
}

/// The line on standard error and the status are those without `--json`.
#[test]
fn a_no_is_told_to_programs() {
    let place = Place::new("order_json_no");
    for (list, members) in [
        ("2 0\n3 1\n1 0\n", "\"line\":3,\"from\":1,\"to\":0,\"rule\":\"waits\""),
        ("2 0\n\n09 0\n", "\"line\":3,\"from\":9,\"to\":0,\"rule\":\"not in the plan\""),
        ("2 0\n3 0\n2 0\n", "\"line\":3,\"from\":2,\"to\":0,\"rule\":\"twice\""),
        ("2 0\n3 0\n", "\"line\":null,\"from\":2,\"to\":1,\"rule\":\"missing\""),
        ("2 18446744073709551615\n", "\"line\":1,\"from\":2,\"to\":18446744073709551615,\"rule\":\"not in the plan\""),
        ("18446744073709551616 0\n", "\"line\":1,\"from\":null,\"to\":0,\"rule\":\"not in the plan\""),
    ] {
        fs::write(place.path("list"), list).unwrap();
        let complaint = place.refuses(&format!("{REPAIR} list"), REPAIRABLE, &[]);
        let output = place.run(&format!("{REPAIR} list --json"));
        assert_eq!(output.status.code(), Some(REPAIRABLE), "{list:?}");
        assert_eq!(String::from_utf8(output.stderr).unwrap(), complaint);
        let message = complaint.trim_start_matches("hmsr: ").trim_end();
        let told = String::from_utf8(output.stdout).unwrap();
        assert_eq!(told, format!("{{\"may_run\":false,{members},\"message\":\"{message}\"}}\n"));
        assert_eq!(Json::read(&told).get("message").text(), message);
    }
}

// ---- lists that are none, and files that cannot be read

#[test]
fn a_line_that_is_not_two_numbers_is_named() {
    let place = Place::new("order_malformed");
    for line in [
        "2",
        "2 0 1",
        "2 0 x",
        "2 x",
        "x 0",
        "-2 0",
        "+2 0",
        "2,0",
        "2.0 0",
        "2e0 0",
        "0x2 0",
        "2 0;",
        "# 2 0",
        "2\r0",
        "2 0\r\r",
        "2\u{b}0",
        "2\u{c}0",
        "2\u{a0}0",
        "\u{ff12} 0",
        "\u{feff}2 0",
        "2 0\0",
        "2 \u{1b}[31m",
    ] {
        // Whatever the other lines are.
        for list in [format!("2 0\n\n3 0\n{line}\n2 1\n"), format!("1 0\n9 9\n\n{line}")] {
            answers(&place, &list, USAGE, "line 4 of list is not a sender and a receiver");
        }
    }
    let output = asked(&place, b"2 0\n\xff 0\n");
    place.turned_back("no text", &output, USAGE, &["line 2 of standard input is not a sender and a receiver"]);
}

#[test]
fn the_first_malformed_line_is_named_by_a_name_on_one_line() {
    let place = Place::new("order_names");
    let name = "two\nlines\u{1b}[31m";
    fs::write(place.path(name), "2 0\ntwo\nthree\n").unwrap();
    let words: Vec<&str> = REPAIR.split(' ').chain([name, "--json"]).collect();
    let output = place.command(&words).output().unwrap();
    let complaint = "line 2 of two\\nlines\\u{1b}[31m is not a sender and a receiver\n";
    place.turned_back(name, &output, USAGE, &[complaint]);
}

#[test]
fn files_that_cannot_be_read_are_refused() {
    let place = Place::new("order_files");
    fs::create_dir(place.path("directory")).unwrap();
    assert!(Command::new("mkfifo").arg(place.path("fifo")).status().unwrap().success());
    place.refuses(&format!("{REPAIR} nothing"), IO, &["cannot read nothing: No such file"]);
    for file in ["directory", "fifo", "/dev/zero"] {
        let complaint = format!("hmsr: cannot read {file}: not a file\n");
        assert_eq!(place.refuses(&format!("{REPAIR} {file}"), IO, &[]), complaint);
    }
}

#[test]
fn at_most_16_mib_are_read() {
    let most = 16 << 20;
    let place = with_list("order_bound", &"\n".repeat(most));
    place.refuses(&format!("{REPAIR} list"), REPAIRABLE, &["the list ends without"]);
    let too_long = |name: &str| format!("hmsr: cannot read {name}: it has more than 16777216 bytes\n");
    File::options().append(true).open(place.path("list")).unwrap().write_all(b"\n").unwrap();
    assert_eq!(place.refuses(&format!("{REPAIR} list"), IO, &[]), too_long("list"));
    // 100 MB of address space, less than a tenth of the file.
    File::create(place.path("list")).unwrap().set_len(1 << 30).unwrap();
    let words: Vec<&str> = REPAIR.split(' ').collect();
    let output = place.run_with_limit(&[&words[..], &["list"]].concat(), "-v 100000");
    place.turned_back("a sparse file", &output, IO, &[&too_long("list")]);
    let mut order = place.command(&[&words[..], &["-"]].concat());
    let output = order.stdin(File::open("/dev/zero").unwrap()).output().unwrap();
    place.turned_back("/dev/zero", &output, IO, &[&too_long("standard input")]);
}

// ---- the repair

#[test]
fn the_shape_may_be_given() {
    let place = with_list("order_shape", PLAN);
    for shape in ["--data 1", "--layers 3", "--data 1 --layers 3", "--data=1 --layers=15"] {
        assert_eq!(place.does(&format!("{REPAIR} {shape} list")), YES, "{shape}");
    }
    assert_eq!(place.does("order list --helpers 3,2,3 --dead 1,0 --nodes 4"), YES);
    assert_eq!(place.does("order --nodes 4 --dead 0,1 --helpers 2,3 -- list"), YES);
}

/// What is not given is one less than the helpers, and the fewest layers. The list is not there: the repair is judged
/// before it is looked for.
#[test]
fn repairs_that_are_none_are_refused_as_plans_are() {
    let place = Place::new("order_refusals");
    for (given, taken, refusal) in [
        ("--nodes 2 --dead 0 --helpers 1", "--data 0 --layers 1", "refusal 1"),
        ("--nodes 4 --dead 0,1 --helpers 2", "--data 0 --layers 1", "refusal 1"),
        ("--nodes 15 --dead 0,1 --helpers 2,3", "--data 1 --layers 3", "refusal 1"),
        ("--nodes 4 --dead 0 --helpers 0,1,2,3", "--data 3 --layers 1", "refusal 1"),
        ("--nodes 4 --dead 0,1 --helpers 2,3 --data 3", "--layers 3", "refusal 1"),
        ("--nodes 4 --dead 0,1 --helpers 2,3 --layers 16", "--data 1", "refusal 1"),
        ("--nodes 4 --dead 0,1 --helpers 2,3 --layers 0", "--data 1", "refusal 1"),
        ("--nodes 4 --dead 0,1 --helpers 1,2,3", "--data 2 --layers 1", "refusal 2"),
        ("--nodes 4 --dead 0,1,2 --helpers 2,3", "--data 1 --layers 1", "refusal 2"),
        ("--nodes 4 --dead 0,2 --helpers 2,3", "--data 1 --layers 3", "refusal 2"),
        ("--nodes 4 --dead 0,4 --helpers 2,3", "--data 1 --layers 3", "refusal 2"),
        ("--nodes 4 --dead 0,1 --helpers 2,4", "--data 1 --layers 3", "refusal 2"),
        ("--nodes 4 --dead 0,1 --helpers 2,3 --data 2", "--layers 3", "refusal 2"),
        ("--nodes 4 --dead 0,1 --helpers 2,3 --layers 1", "--data 1", "refusal 3"),
        ("--nodes 4 --dead 0,1 --helpers 2,3 --layers 14 --data 1", "", "refusal 3"),
    ] {
        let plan = place.refuses(format!("plan {given} {taken}").trim_end(), USAGE, &[refusal]);
        for options in ["", " --json"] {
            assert_eq!(place.refuses(&format!("order {given} nothing{options}"), USAGE, &[]), plan, "{given}");
        }
    }
}

/// The plan program reads too few helpers as input that is missing, 6. Here lists are lists: 2.
#[test]
fn too_few_helpers_are_a_bad_list() {
    let place = Place::new("order_few");
    place.refuses("plan --nodes 5 --data 2 --layers 3 --dead 0,1 --helpers 2,3", USAGE, &["refusal 6"]);
    place.refuses("order --nodes 5 --data 2 --layers 3 --dead 0,1 --helpers 2,3 nothing", USAGE, &["refusal 2"]);
}

#[test]
fn arguments_of_order_are_told_apart() {
    let place = with_list("order_arguments", PLAN);
    for (line, complaint) in [
        ("order --nodes 4 --dead 0,1 --helpers 2,3", "FILE is missing"),
        ("order list --dead 0,1 --helpers 2,3", "--nodes is missing"),
        ("order list --nodes 4 --helpers 2,3", "--dead is missing"),
        ("order list --nodes 4 --dead 0,1", "--helpers is missing"),
        ("order list --nodes 4 --dead= --helpers 2,3", "--dead:  is not a whole number"),
        ("order list --nodes 4 --dead 0,1 --helpers 2,x", "--helpers: x is not a whole number"),
        ("order list --nodes 4 --dead 0,1 --helpers 2,3 --data one", "--data: one is not a whole number"),
        ("order list --nodes 4 --dead 0,1 --helpers 2,3 --layers", "--layers needs a value"),
        ("order list --nodes 4 --dead 0,1 --helpers 2,3 --losses 2", "there is no option --losses here"),
        ("order list --nodes 4 --dead 0,1 --helpers 2,3 --quiet", "there is no option --quiet here"),
        ("order list other --nodes 4 --dead 0,1 --helpers 2,3", "what is other for?"),
    ] {
        assert_eq!(place.refuses(line, USAGE, &[]), format!("hmsr: {complaint} (see hmsr --help)\n"), "{line}");
    }
}

#[test]
fn help_shows_order() {
    let place = Place::new("order_help");
    let order = "hmsr order --nodes N [--data K] [--layers L] --dead LIST --helpers LIST FILE [--json]\n";
    assert!(place.does("order --help").starts_with(order));
    let help = place.does("--help");
    assert!(help.contains(order) && help.contains("Of order: 0 yes, 1 no"), "{help}");
}
