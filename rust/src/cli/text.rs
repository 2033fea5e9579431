//! Names, numbers and lists as they are shown to the user.
use std::path::Path;

/// Line ends and other control characters, which file names may have, and those that turn the direction of what is
/// shown.
pub fn is_hidden(c: char) -> bool {
    c.is_control() || matches!(c, '\u{2028}'..='\u{202e}' | '\u{2066}'..='\u{2069}')
}

/// A text without hidden characters.
pub fn one_line(text: &str) -> String {
    let shown = |c: char| if is_hidden(c) { c.escape_default().to_string() } else { c.to_string() };
    text.chars().map(shown).collect()
}

/// A path on one line.
pub fn shown(path: &Path) -> String {
    one_line(&path.to_string_lossy())
}

/// Whether a byte is a printable ASCII character.
pub fn is_printable(byte: u8) -> bool {
    matches!(byte, b' '..=b'~')
}

/// "97 ('a')"; "10" where it is no printable character.
pub fn byte_shown(byte: u8) -> String {
    match is_printable(byte) {
        true => format!("{byte} ('{}')", char::from(byte)),
        false => byte.to_string(),
    }
}

/// "1 layer", "3 layers".
pub fn counted(count: usize, thing: &str) -> String {
    match count {
        1 => format!("1 {thing}"),
        _ => format!("{count} {thing}s"),
    }
}

/// Numbers with commas.
pub fn listed(numbers: &[usize]) -> String {
    joined(numbers.iter().map(usize::to_string))
}

/// "2", "2 and 4", "2, 4 and 5".
pub fn listed_with_and(numbers: &[usize]) -> String {
    match numbers {
        [others @ .., last] if !others.is_empty() => format!("{} and {last}", listed(others)),
        _ => listed(numbers),
    }
}

/// "node 3", "nodes 1, 4".
pub fn nodes_listed(nodes: &[usize]) -> String {
    match nodes {
        [node] => format!("node {node}"),
        _ => format!("nodes {}", listed(nodes)),
    }
}

/// "a loss of 1 node", "losses of 2, 4 and 5 nodes".
pub fn losses_listed(losses: &[usize]) -> String {
    match losses {
        [] => "no loss".to_string(),
        [loss] => format!("a loss of {}", counted(*loss, "node")),
        _ => format!("losses of {} nodes", listed_with_and(losses)),
    }
}

/// The line of a report that names the hearing, where there is a hearing number.
pub fn hearing_line(hearing: usize) -> String {
    match hearing {
        0 => String::new(),
        number => format!("hearing {number}\n"),
    }
}

/// Texts with commas.
pub fn joined(texts: impl IntoIterator<Item = String>) -> String {
    texts.into_iter().collect::<Vec<_>>().join(", ")
}
