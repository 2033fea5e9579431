//! The header's own part, its constants, sizes and texts: what C and C++ make of them is compared with numbers worked out
//! here, with the Rust package, and with what the library says to buffers of these sizes.
mod commands;

use commands::{place, printed, there, top};
use hmsr::{Refusal, Shape};
use std::process::Command;
use std::str::Lines;

/// Numbers within, at the ends of and far beyond every range.
fn numbers() -> impl Iterator<Item = usize> {
    (0..=16).chain([31, 32, 63, 64, (1 << 32) + 6, 1 << 63, usize::MAX])
}

/// What `header.c` prints, compiled by that compiler without a warning. Where it shifted too far, it would be stopped.
fn printed_by(compiler: &str, standard: &str, language: &str) -> String {
    let program = place(&format!("header-{language}")).join("header");
    let mut compile = Command::new(compiler);
    compile.args([standard, "-Wall", "-Wextra", "-pedantic", "-Wconversion", "-Wshadow", "-Werror"]);
    compile.args(["-fsanitize=undefined", "-fsanitize-undefined-trap-on-error", "-I"]).arg(top().join("include"));
    compile.args(["-x", language]).arg(top().join("rust/tests/header/header.c"));
    compile.args(["-x", "none", env!("HMSR_LIBRARY"), "-o"]).arg(&program);
    printed(&mut compile);
    printed(Command::new(program).args(numbers().map(|number| number.to_string())))
}

fn assert_header(output: &str) {
    let mut lines = output.lines();
    assert_constants(&mut lines);
    assert_cards(&mut lines);
    assert_eq!(lines.next(), Some(LAYERS));
    assert_eq!(lines.next(), Some(ORDERS));
    assert_stretches(&mut lines);
    assert_corrections(&mut lines);
    assert_arrival(&mut lines);
    for number in numbers() {
        assert_eq!(lines.next(), Some(text(number).as_str()), "the text of {number}");
    }
    let mut shapes = 0;
    for nodes in numbers() {
        for data in numbers() {
            for layers in numbers() {
                shapes += assert_sizes(&mut lines, Shape { nodes, data, layers });
            }
        }
    }
    assert_eq!(lines.next(), None);
    // k from 1 to n - 2, for n from 3 to 14, each with 15 layers.
    assert_eq!(shapes, (1..=12).sum::<usize>() * 15);
}

fn assert_constants(lines: &mut Lines) {
    let version = env!("CARGO_PKG_VERSION");
    assert_eq!(lines.next(), Some(format!("{version} {version}").as_str()));
    for (cause, number) in Refusal::ALL.into_iter().zip([1, 2, 3, 4, 5, 6, 7, 9, 11, 12, 13]) {
        assert_eq!(lines.next(), Some(format!("{cause:?} {number}").as_str()));
    }
    assert_eq!(lines.next(), Some(format!("6 {} {}", hmsr::PLAN_TEXT, hmsr::MOST_STRETCHES).as_str()));
}

/// What choosing layers gives (document 02 §6): 256 and 15 for losses of 2 and 4 nodes, either first, and 1 for no losses,
/// with a null pointer or another, and 11 for ten nodes; then the refusals 11, 2, 2 and 1.
const LAYERS: &str = "271 271 257 257 267 11 2 2 1";

/// Whether the transfers of document 01's plan may run (document 02 §12): 0 in its order; 13 without the last, with a pair
/// behind, with an exchange before a message to its sender, and for no transfers, with a null pointer; then the refusals 4,
/// 3, 2 and 1.
const ORDERS: &str = "orders: 0 13 13 13 13 4 3 2 1";

/// Stretches of document 01's first archive (document 02 §2), from its node 2: what is returned, the bytes / the
/// columns. Byte 1, both, and none behind them; byte 1 alone; no stretch, with null pointers; byte 1 where byte 0 is
/// 256, and then 7 for both. 64 stretches without bytes. Then 4 for 65 of them, for an odd count and for lengths whose
/// sum wraps, 9 for an end that wraps, 4 for a length of 9, 9 for an empty stretch behind the end, though a symbol is
/// 257, and without it 5.
fn assert_stretches(lines: &mut Lines) {
    for line in [
        "258: 6 3 6 / 0 1 0 0 0 0 0 0",
        "257: 6 / 1 0 0 0 0 0 0 0",
        "256: / 0 0 0 0 0 0 0 0",
        "257: 6 / 1 0 0 0 0 0 0 0",
        "7: 9 9 9 / 9 9 9 9 9 9 9 9",
        "256: / 0 0 0 0 0 0 0 0",
        "4: / 9 9 9 9 9 9 9 9",
        "4: 9 9 / 9 9 9 9 9 9 9 9",
        "4: 9 / 9 9 9 9 9 9 9 9",
        "9: 9 9 / 9 9 9 9 9 9 9 9",
        "4: 9 9 / 9 9 9 9 9 9 9 9",
        "9: 9 9 / 9 9 9 9 9 9 9 9",
        "5: 9 9 / 9 9 9 9 9 9 9 9",
    ] {
        assert_eq!(lines.next(), Some(line));
    }
}

/// Corrections of document 01's first archive (document 02 §10): what is returned, and the symbols of place 1 afterwards. By
/// -3, to what writing 3 3 gives, and back, by the ends of the range from 0 and from 255, and by nothing. Then 12 for
/// changes out of range and those that leave no byte, 5, 9, 4 for each length, and 1, all of which change nothing.
fn assert_corrections(lines: &mut Lines) {
    let corrected = ["0: 3 252 2", "0: 6 247 4", "0: 0 0 0", "0: 255 89 170", "0: 0 0 0", "0: 6 247 4", "0: 6 247 4"];
    let refused = [12, 12, 12, 12, 12, 12, 5, 9, 9, 4, 4, 1].map(|number| format!("{number}: 6 247 4"));
    for line in corrected.map(str::to_string).iter().chain(&refused) {
        assert_eq!(lines.next(), Some(line.as_str()));
    }
}

/// The first step of document 01's first archive with its messages one by one (document 02 §8): what hearing returns, the
/// sums of the first sum / the record; what finishing returns, and the pairs. Helper 2 is heard, and refused when it comes
/// again; so are a dead node and a symbol 257, and finishing is 4. Then helper 1 is heard, and not again, and finishing gives
/// the pairs. Then 5 for a kept sum 257, 4 where the record counts one, though that sum is still there, and 2 where the one
/// that it counts is no helper.
fn assert_arrival(lines: &mut Lines) {
    for line in [
        "0: 5 45 / 1 2 18446744073709551615",
        "2: 5 45 / 1 2 18446744073709551615",
        "2: 5 45 / 1 2 18446744073709551615",
        "5: 5 45 / 1 2 18446744073709551615",
        "4: 9 9 9 9 9 9 9 9",
        "0: 248 3 / 2 2 1",
        "2: 248 3 / 2 2 1",
        "0: 3 6 0 0 0 0 0 0",
        "5: 9 9 9 9 9 9 9 9",
        "4: 9 9 9 9 9 9 9 9",
        "2: 9 9 9 9 9 9 9 9",
    ] {
        assert_eq!(lines.next(), Some(line));
    }
}

/// What packing document 01's card gives with no hearing number, with 700, with 1 000 000 and with the largest number, and
/// the header of each card that was made.
fn assert_cards(lines: &mut Lines) {
    assert_eq!(lines.next(), Some("271: 3 1 1 1 2 253 1 247 1 0 0 0 0 0 0"));
    assert_eq!(lines.next(), Some("0: 3 1 1 1 2 0"));
    assert_eq!(lines.next(), Some("274: 1 3 1 1 1 2 188 5 253 1 247 1 0 0 0 0 0 0"));
    assert_eq!(lines.next(), Some("0: 3 1 1 1 2 700"));
    assert_eq!(lines.next(), Some("6:"));
    assert_eq!(lines.next(), Some("6:"));
}

/// What the header says of a number.
fn text(number: usize) -> String {
    match Refusal::from_number(number) {
        Some(cause) => cause.to_string(),
        None if number == 0 => "no refusal".to_string(),
        None => "not the number of a refusal".to_string(),
    }
}

/// The lines of a shape. Gives 1 where it is within the ranges.
fn assert_sizes(lines: &mut Lines, shape: Shape) -> usize {
    let Shape { nodes, data, layers } = shape;
    let within = (3..=14).contains(&nodes) && (1..=nodes - 2).contains(&data) && (1..=15).contains(&layers);
    let size = if within { layers * 2usize.pow(nodes as u32) } else { 0 };
    let room = if within { 15 + 2 * size } else { 0 };
    assert_eq!((shape.node_symbols().unwrap_or(0), shape.card_room().unwrap_or(0)), (size, room));
    let judged = if within { 5 } else { 1 };
    assert_eq!(lines.next(), Some(format!("{size} {room} {judged} {judged}").as_str()), "{shape:?}");
    for h in numbers() {
        assert_repair(lines, shape, size, h);
    }
    usize::from(within)
}

/// The line of a loss of h nodes of a shape with nodes of that size, 0 where it is outside the ranges.
fn assert_repair(lines: &mut Lines, shape: Shape, size: usize, h: usize) {
    let number = match size {
        0 => 1,
        _ if h == 0 || h >= shape.nodes - shape.data => 2,
        // 2^n has all the twos of h + 1, so N is a multiple of h + 1 where the layers are one of its odd part.
        _ if !size.is_multiple_of(h + 1) => 3,
        _ => 5,
    };
    let message = if number == 5 { size / (h + 1) } else { 0 };
    let wire = if number == 5 { h * (shape.data + h) * message } else { 0 };
    let kept = if number == 5 { (shape.nodes - shape.data) * message } else { 0 };
    let sizes = [shape.message_symbols(h), shape.wire_symbols(h), shape.kept_symbols(h)];
    assert_eq!(sizes.map(|size| size.unwrap_or(0)), [message, wire, kept]);
    let judged = if h < 16 && shape.data < 16 { format!(" {number}").repeat(3) } else { String::new() };
    assert_eq!(lines.next(), Some(format!("{message} {wire} {kept}{judged}").as_str()), "{shape:?}, {h} dead");
}

#[test]
fn in_c() {
    assert_header(&printed_by("gcc", "-std=c99", "c"));
}

#[test]
fn in_cpp() {
    if there("g++") {
        assert_header(&printed_by("g++", "-std=c++11", "c++"));
    }
}
