//! A reader of JSON, as strict as the standard (RFC 8259) where it is about what the program prints.
use std::collections::BTreeMap;

#[derive(Debug, PartialEq)]
pub enum Json {
    Null,
    Truth(bool),
    Number(u64),
    Text(String),
    Array(Vec<Json>),
    Object(BTreeMap<String, Json>),
}

impl Json {
    /// One value, and nothing behind it but a line end.
    pub fn read(text: &str) -> Json {
        let mut rest = text;
        let value = value(&mut rest);
        assert_eq!(rest, "\n", "behind the value");
        value
    }

    pub fn get(&self, name: &str) -> &Json {
        let Json::Object(members) = self else { panic!("{self:?} is no object") };
        members.get(name).unwrap_or_else(|| panic!("{members:?} has no {name}"))
    }

    pub fn number(&self) -> u64 {
        let Json::Number(number) = self else { panic!("{self:?} is no number") };
        *number
    }

    pub fn text(&self) -> &str {
        let Json::Text(text) = self else { panic!("{self:?} is no string") };
        text
    }

    pub fn items(&self) -> &[Json] {
        let Json::Array(items) = self else { panic!("{self:?} is no array") };
        items
    }
}

fn value(rest: &mut &str) -> Json {
    match rest.chars().next() {
        Some('{') => Json::Object(listed(rest, '}', |rest| {
            let name = string(rest);
            take(rest, ":");
            (name, value(rest))
        })),
        Some('[') => Json::Array(listed(rest, ']', value)),
        Some('"') => Json::Text(string(rest)),
        Some('0'..='9') => number(rest),
        Some('t') => {
            take(rest, "true");
            Json::Truth(true)
        }
        Some('f') => {
            take(rest, "false");
            Json::Truth(false)
        }
        _ => {
            take(rest, "null");
            Json::Null
        }
    }
}

fn take(rest: &mut &str, expected: &str) {
    *rest = rest.strip_prefix(expected).unwrap_or_else(|| panic!("{expected} is not at {rest}"));
}

/// What stands with commas between an opening mark and the closing one.
fn listed<Item, List: FromIterator<Item>>(rest: &mut &str, close: char, item: fn(&mut &str) -> Item) -> List {
    *rest = &rest[1..];
    let mut items = Vec::new();
    while !rest.starts_with(close) {
        if !items.is_empty() {
            take(rest, ",");
        }
        items.push(item(rest));
    }
    *rest = &rest[1..];
    items.into_iter().collect()
}

fn number(rest: &mut &str) -> Json {
    let digits = rest.find(|c: char| !c.is_ascii_digit()).unwrap_or(rest.len());
    let (number, behind) = rest.split_at(digits);
    *rest = behind;
    assert!(number == "0" || !number.starts_with('0'));
    Json::Number(number.parse().unwrap())
}

fn string(rest: &mut &str) -> String {
    take(rest, "\"");
    let mut text = String::new();
    loop {
        let c = rest.chars().next().expect("a string ends");
        *rest = &rest[c.len_utf8()..];
        match c {
            '"' => return text,
            '\\' => text.push(escaped(rest)),
            c => {
                assert!(c >= ' ', "a control character in a string");
                text.push(c);
            }
        }
    }
}

fn escaped(rest: &mut &str) -> char {
    let c = rest.chars().next().expect("an escape ends");
    *rest = &rest[1..];
    match c {
        '"' | '\\' => c,
        'u' => {
            let (code, behind) = rest.split_at(4);
            *rest = behind;
            char::from_u32(u32::from_str_radix(code, 16).unwrap()).unwrap()
        }
        _ => panic!("\\{c}"),
    }
}
