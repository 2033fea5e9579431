//! Arguments: every error is one line, and help, versions and `--` do what they do elsewhere.
use std::fs;

use crate::place::{bytes, Place, USAGE};

#[test]
fn arguments_that_are_not_understood_are_told_on_one_line() {
    let place = Place::new("usage");
    for (line, complaint) in [
        ("burn drives", "there is no command burn"),
        ("--burn", "there is no command --burn"),
        ("help burn", "there is no command burn"),
        ("write transcript", "DIR is missing"),
        ("write transcript drives --data 1", "--nodes is missing"),
        ("write transcript drives --nodes six --data 1", "--nodes: six is not a whole number"),
        ("write transcript drives --nodes -1 --data 1", "--nodes: -1 is not a whole number"),
        ("write transcript drives --nodes 6 --nodes 6", "--nodes is given twice"),
        ("write transcript drives --nodes", "--nodes needs a value"),
        ("check drives others", "what is others for?"),
        ("check drives --force", "there is no option --force here"),
        ("check drives -f", "there is no option -f here"),
        ("check drives --quiet --quiet", "--quiet is given twice"),
        ("check drives --json=yes", "--json takes no value"),
        ("open drives opened --json", "there is no option --json here"),
        ("repair drives --dead 1,,2", "--dead:  is not a whole number"),
        ("correct --at 0 --from 0 --to 1", "DIR is missing"),
        ("correct drives --from 0 --to 1", "--at is missing"),
        ("correct drives --at 0 --to 1", "--from is missing"),
        ("correct drives --at 0 --from 0", "--to is missing"),
        ("correct drives --at 0 --from 0 --to 1 --json", "there is no option --json here"),
        ("plan --nodes 4 --data 1 --layers 3 --dead 0", "--helpers is missing"),
        ("write transcript drives more --nodes 3 --data 1", "what is more for?"),
        ("open drives opened more", "what is more for?"),
        ("repair drives more", "what is more for?"),
        ("correct drives more --at 0 --from 0 --to 1", "what is more for?"),
        ("plan more", "what is more for?"),
        ("demo more", "what is more for?"),
        ("info", "CARD is missing"),
        ("info --json", "CARD is missing"),
        ("info a b --quiet", "there is no option --quiet here"),
    ] {
        assert_eq!(place.refuses(line, USAGE, &[]), format!("hmsr: {complaint} (see hmsr --help)\n"), "{line}");
    }
    let output = place.command(&[]).output().unwrap();
    place.turned_back("nothing", &output, USAGE, &["which command?"]);
}

/// The options of a command, as the first line of its help has them: those with a value have its name behind them.
fn options(help: &str) -> Vec<String> {
    let words = help.lines().next().unwrap().split(' ').map(|word| word.trim_start_matches('['));
    let with_value = |option: &str| match option.strip_suffix(']') {
        Some(flag) => flag.to_string(),
        None => format!("{option} 1"),
    };
    words.filter(|word| word.starts_with("--")).map(with_value).collect()
}

#[test]
fn every_option_but_a_stretch_is_refused_when_given_twice() {
    let place = Place::new("twice");
    let mut refused = 0;
    for command in ["write", "check", "open", "repair", "correct", "layers", "plan", "order", "info"] {
        for option in options(&place.does(&format!("{command} --help"))) {
            let name = option.split(' ').next().unwrap();
            if name != "--stretch" {
                let complaint = format!("hmsr: {name} is given twice (see hmsr --help)\n");
                assert_eq!(place.refuses(&format!("{command} {option} {option}"), USAGE, &[]), complaint);
                refused += 1;
            }
        }
    }
    assert!(refused >= 35, "only {refused} options were tried");
}

#[test]
fn a_number_that_is_too_large_is_told_from_one_that_is_none() {
    let place = Place::new("large_number");
    for number in ["18446744073709551616", "99999999999999999999999999"] {
        let too_large = format!("hmsr: --nodes: {number} is too large (see hmsr --help)\n");
        assert_eq!(place.refuses(&format!("write a b --nodes {number} --data 1"), USAGE, &[]), too_large);
        place.refuses(&format!("repair a --dead 1,{number}"), USAGE, &["--dead: ", "is too large"]);
    }
    place.refuses("write a b --nodes 1e3 --data 1", USAGE, &["1e3 is not a whole number"]);
}

#[test]
fn help_and_version_are_shown() {
    let place = Place::new("help");
    assert_eq!(place.does("--version"), format!("hmsr {}\n", env!("CARGO_PKG_VERSION")));
    let commands = ["write", "check", "open", "repair", "correct", "layers", "plan", "order", "info", "demo"];
    for line in ["--help", "-h", "help"] {
        let help = place.does(line);
        assert!(commands.iter().all(|command| help.contains(&format!("\nhmsr {command}"))), "{line}: {help}");
        assert!(help.contains("Exit status: 0"), "{line}: {help}");
    }
    for command in commands {
        for line in [format!("{command} --help"), format!("{command} -h"), format!("help {command}")] {
            let help = place.does(&line);
            assert!(help.starts_with(&format!("hmsr {command}")), "{line}: {help}");
            assert_eq!(help.matches("hmsr ").count(), 1, "{line}: {help}");
        }
        // Help is given whatever else is there.
        assert_eq!(place.does(&format!("{command} a b c --help")), place.does(&format!("{command} --help")));
    }
}

#[test]
fn what_stands_behind_two_dashes_is_a_word() {
    let place = Place::new("dashes");
    fs::write(place.path("--help"), bytes(10, 1)).unwrap();
    place.does("write --nodes 3 --data 1 -- --help --drives");
    place.does("open -- --drives -out");
    assert_eq!(fs::read(place.path("-out")).unwrap(), bytes(10, 1));
    // A second one is a word itself.
    place.refuses("check -- --", 4, &["cannot read the directory --"]);
    place.refuses("check -- --drives --quiet", USAGE, &["what is --quiet for?"]);
}
