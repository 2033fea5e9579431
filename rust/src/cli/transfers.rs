//! A list of transfers in a file: on each line a sender and a receiver.
use std::path::Path;

use super::rules::Transfer;
use super::{files, Failure};

/// Far more than the transfers of any plan take.
const MOST_BYTES: usize = 16 << 20;

/// As many digits as the largest number that the library takes has.
const MOST_DIGITS: usize = 20;

pub struct List {
    text: String,
    pub transfers: Vec<Transfer>,
}

/// A line that has a sender and a receiver, in decimal digits.
pub struct Line<'a> {
    /// From 1.
    pub number: usize,
    words: [&'a str; 2],
}

impl List {
    /// Reads a file, or standard input for `-`.
    pub fn read(file: &Path) -> Result<List, Failure> {
        let name = files::input_name(file);
        let Some(bytes) = files::read_input(file, MOST_BYTES)? else {
            return Err(Failure::Io(format!("cannot read {name}: it has more than {MOST_BYTES} bytes")));
        };
        // What is no text becomes characters that are no digits.
        let text = String::from_utf8_lossy(&bytes).into_owned();
        let transfers: Result<_, usize> = lines(&text).map(|line| line.map(|line| line.transfer())).collect();
        match transfers {
            Ok(transfers) => Ok(List { text, transfers }),
            Err(number) => Err(Failure::Usage(format!("line {number} of {name} is not a sender and a receiver"))),
        }
    }

    /// The lines of the transfers up to a place, and of that one.
    pub fn lines_to(&self, place: usize) -> Vec<Line<'_>> {
        lines(&self.text).flatten().take(place + 1).collect()
    }
}

impl Line<'_> {
    /// The sender and the receiver; `None` where a number is too large.
    pub fn numbers(&self) -> [Option<usize>; 2] {
        self.words.map(|digits| digits.parse().ok())
    }

    /// The same for the library, with its largest number in place of one that is too large: neither names a node.
    fn transfer(&self) -> Transfer {
        self.numbers().map(|number| number.unwrap_or(usize::MAX))
    }

    /// The same as they stand in the file, but for the last digits of very long numbers.
    pub fn shown(&self) -> String {
        self.words.map(shortened).join(" ")
    }
}

fn shortened(digits: &str) -> String {
    match digits.len() <= MOST_DIGITS {
        true => digits.to_string(),
        false => format!("{}...", &digits[..MOST_DIGITS]),
    }
}

/// Every line but the blank ones, or its number where it is not a sender and a receiver.
fn lines(text: &str) -> impl Iterator<Item = Result<Line<'_>, usize>> {
    let numbered = (1..).zip(text.split('\n'));
    numbered.filter_map(|(number, line)| {
        let mut words = line.strip_suffix('\r').unwrap_or(line).split([' ', '\t']).filter(|word| !word.is_empty());
        match [words.next(), words.next(), words.next()] {
            [None, ..] => None,
            [Some(sender), Some(receiver), None] if is_number(sender) && is_number(receiver) => {
                Some(Ok(Line { number, words: [sender, receiver] }))
            }
            _ => Some(Err(number)),
        }
    })
}

/// Whether a word has digits only: a sign is no part of a number.
fn is_number(word: &str) -> bool {
    word.bytes().all(|byte| byte.is_ascii_digit())
}
