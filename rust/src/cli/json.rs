//! JSON values as text.
use std::fmt::Write;

use super::text::is_hidden;

/// A string with quotes.
pub fn string(text: &str) -> String {
    let mut quoted = String::from("\"");
    for c in text.chars() {
        match c {
            '"' | '\\' => quoted.extend(['\\', c]),
            // Below U+10000, so that one escape is enough.
            c if is_hidden(c) => write!(quoted, "\\u{:04x}", c as u32).unwrap_or_default(),
            c => quoted.push(c),
        }
    }
    quoted + "\""
}

pub fn array(values: impl IntoIterator<Item = String>) -> String {
    format!("[{}]", values.into_iter().collect::<Vec<_>>().join(","))
}

pub fn numbers(numbers: &[usize]) -> String {
    array(numbers.iter().map(usize::to_string))
}

/// An object; the names have no characters to escape.
pub fn object<const COUNT: usize>(members: [(&str, String); COUNT]) -> String {
    let members = members.map(|(name, value)| format!("\"{name}\":{value}"));
    format!("{{{}}}", members.join(","))
}
