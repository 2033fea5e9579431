//! How each command is called, as `--help` shows it.

/// A command, how it is called and what it does.
const USAGES: [(&str, &str); 10] = [
    (
        "write",
        "\
hmsr write FILE DIR --nodes N --data K [--layers L | --losses LIST] [--hearing NUMBER] [--quiet]
        write FILE into N cards, DIR/node-00.card and so on, any K of which give it back (N is 3 to 14, K is 1 to
        N - 2), in L layers (1 to 15), or in the fewest that hold FILE and with which a loss of each size in LIST is
        repaired in one go (numbers of lost nodes, 1 to N - K - 1, with commas, as 2,4), or else in the best number,
        with the hearing NUMBER on every card (1 to 999999; 0, as without --hearing, is none); FILE - is standard input;
        a write that was killed is finished by the same write again
",
    ),
    (
        "check",
        "\
hmsr check DIR [--json] [--quiet]
        whether every card is there, all agree, and they hold a transcript
",
    ),
    (
        "open",
        "\
hmsr open DIR OUT [--stretch START..END]... [--quiet]
        put the transcript into the new file OUT, from any K cards; OUT - is standard output, and then the report goes
        to standard error; with --stretch, put its bytes START to END - 1 alone there, counted from 0, up to 64
        stretches joined in the order given, and say how many symbols were read for them
",
    ),
    (
        "repair",
        "\
hmsr repair DIR [--dead LIST] [--helpers LIST] [--dry-run] [--quiet]
        make missing and unreadable cards anew, all of them or those in LIST, with the help of K + 1 others; LIST is
        node numbers with commas, as 0,3,7; with --dry-run, say so and change nothing
",
    ),
    (
        "correct",
        "\
hmsr correct DIR --at BYTE --from X --to Y [--dry-run] [--quiet]
        correct byte number BYTE of the transcript, counted from 0, from X to Y, each a number 0 to 255 or one printable
        ASCII character that is no digit ('7' is 55); all cards have to be there and agree, and N - K + 1 of them are
        rewritten; a correction that was killed is finished by the same correction again; with --dry-run, say so and
        change nothing
",
    ),
    (
        "layers",
        "\
hmsr layers --nodes N --data K --losses LIST [--json]
        the fewest layers with which a loss of each size in LIST is repaired in one go, and the bytes that fit (a longer
        transcript takes a multiple of them); LIST is numbers of lost nodes, 1 to N - K - 1, with commas, as 2,4, or
        empty
",
    ),
    (
        "plan",
        "\
hmsr plan --nodes N --data K --layers L --dead LIST --helpers LIST [--json]
        who sends how many symbols to whom in a repair
",
    ),
    (
        "order",
        "\
hmsr order --nodes N [--data K] [--layers L] --dead LIST --helpers LIST FILE [--json]
        whether the transfers of a repair may run one by one in the order of FILE, which has a sender and a receiver on
        each line (FILE - is standard input); if not, the first line that breaks a rule, and the rule; without --data, K
        is one less than the helpers, and without --layers, L is the fewest that serve the loss
",
    ),
    (
        "info",
        "\
hmsr info CARD... [--json]
        what a card says of itself; of several cards a line each, sorted by hearing number (cards without one come
        first), then by nodes, data nodes, layers, bytes, node and file
",
    ),
    (
        "demo",
        "\
hmsr demo
        write, lose, repair and open an archive in a temporary directory
",
    ),
];

const FRONT: &str = "\
A transcript spread over drives, any k of which give it back, and lost ones refilled.

";

const BACK: &str = "\
hmsr --help, hmsr COMMAND --help
        this text, or that of one command
hmsr --version
        the version of the program

--quiet prints no report, --json prints it for programs to read (info: a line for each card), -- ends the options.

Exit status: 0 sound or done; 1 the transcript is there, but cards are missing or wrong: repair; 2 it is lost, or it
cannot be told which cards are right; 3 wrong arguments; 4 a file cannot be read or written. Of order: 0 yes, 1 no, 3
also a malformed list. Of correct: 3 also another byte. All but 0 with one line on standard error.
";

/// Of all commands.
pub fn all() -> String {
    let usages: String = USAGES.iter().map(|(_, usage)| *usage).collect();
    format!("{FRONT}{usages}{BACK}")
}

/// Of one command.
pub fn of(command: &str) -> String {
    USAGES.iter().filter(|(name, _)| *name == command).map(|(_, usage)| *usage).collect()
}
