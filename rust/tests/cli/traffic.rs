//! What repairs send, in symbols and in bytes of one encoding.
use std::fs;

use crate::place::{bytes, Place};

/// The words of the line that ends with others.
fn line<'a>(report: &'a str, end: &str) -> Vec<&'a str> {
    let line = report.lines().find(|line| line.ends_with(end)).unwrap_or_else(|| panic!("{report} lacks {end}"));
    line.split_whitespace().collect()
}

#[test]
fn a_repair_prints_symbols_and_bytes() {
    let place = Place::new("traffic");
    fs::write(place.path("transcript"), bytes(20, 3)).unwrap();
    place.does("write transcript drives --nodes 4 --data 1");
    place.lose("drives", &[0, 1]);
    let report = place.does("repair drives");
    let lines: Vec<Vec<&str>> = report.lines().map(|line| line.split_whitespace().collect()).collect();
    assert_eq!(lines[1], ["from", "to", "symbols", "bytes"]);
    // Document 01's plan for this repair: 16 symbols a message, and 256^16 < 257^16 < 256^17.
    let messages = [["2", "0"], ["3", "0"], ["2", "1"], ["3", "1"], ["1", "0"], ["0", "1"]];
    for (line, message) in lines[2..].iter().zip(messages) {
        assert_eq!(*line, [message[0], message[1], "16", "17"]);
    }
    // A node has 48 symbols, in 49 bytes; one new node reads one and passes one on, or each of two reads one.
    assert_eq!(line(&report, "in all")[..2], ["96", "102"]);
    assert_eq!(line(&report, "through one new node")[..2], ["96", "98"]);
    assert_eq!(line(&report, "to each alone")[..2], ["96", "98"]);
    assert!(report.contains("as one number to base 257; in memory a symbol takes two"), "{report}");
}

/// n = 12, k = 8, L = 3: N = 12 288. The bytes are worked out with whole numbers of any size: the least b with
/// 256^b >= 257^s is 3075 for s = 3072, 4099 for 4096, 6149 for 6144, and 12 297 for 12 288.
#[test]
fn the_demo_counts_all_columns_alike() {
    let place = Place::new("traffic_demo");
    let demo = place.does("demo");
    let table = demo.split("each drive alone\n").nth(1).unwrap();
    let rows: Vec<Vec<&str>> = table.lines().take(4).map(|line| line.split_whitespace().collect()).collect();
    assert_eq!(rows[0], ["symbols", "bytes"].repeat(3));
    let row = |h: usize, message: usize, bytes: usize| {
        let counts = [h * (8 + h), 8 + h - 1, h * 8];
        let sizes = [[message, bytes], [12_288, 12_297], [12_288, 12_297]];
        let columns = counts.iter().zip(sizes).flat_map(|(count, sizes)| sizes.map(|size| count * size));
        [h].into_iter().chain(columns).map(|number| number.to_string()).collect::<Vec<_>>()
    };
    assert_eq!(rows[1], row(1, 6144, 6149));
    assert_eq!(rows[2], row(2, 4096, 4099));
    assert_eq!(rows[3], row(3, 3072, 3075));
    assert!(demo.contains("as one number to base 257"), "{demo}");
}
