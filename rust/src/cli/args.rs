//! The arguments of a command: words in their order, options with values, and flags.
use std::ffi::{OsStr, OsString};
use std::num::{IntErrorKind, ParseIntError};
use std::ops::Range;
use std::path::Path;

use hmsr::MOST_STRETCHES;

use super::{text, Command, Failure};

/// The option that names sizes of loss.
const LOSSES: &str = "--losses";

/// The option that names a stretch of the transcript.
const STRETCH: &str = "--stretch";

#[derive(Default)]
pub struct Args {
    words: Vec<OsString>,
    options: Vec<(String, String)>,
    flags: Vec<String>,
}

/// Whether `--help` or `-h` is among the arguments before `--`.
pub fn asks_for_help(given: &[OsString]) -> bool {
    given.iter().take_while(|word| *word != "--").any(|word| word == "--help" || word == "-h")
}

impl Args {
    /// Takes exactly the words of the command and each of its options once at most, as `--name value` or
    /// `--name=value`; what repeats, as often as it comes. Behind `--` all are words; `-` is a word.
    pub fn parse(given: &[OsString], command: &Command) -> Result<Args, Failure> {
        let mut args = Args::default();
        let mut given = given.iter();
        while let Some(word) = given.next() {
            if word == "--" {
                args.words.extend(given.by_ref().cloned());
            } else if word.as_encoded_bytes().starts_with(b"-") && word != "-" {
                args.take_option(&word.to_string_lossy(), &mut given, command)?;
            } else {
                args.words.push(word.clone());
            }
        }
        let last_repeats = command.words.last().is_some_and(|last| command.repeats.contains(last));
        match (args.words.get(command.words.len()), command.words.get(args.words.len())) {
            (Some(extra), _) if !last_repeats => {
                Err(Failure::argument(&format!("what is {} for?", extra.to_string_lossy())))
            }
            (_, Some(missing)) => Err(Failure::argument(&format!("{missing} is missing"))),
            _ => Ok(args),
        }
    }

    /// Takes a flag, or an option whose value may be the next word.
    fn take_option<'a>(
        &mut self, option: &str, rest: &mut impl Iterator<Item = &'a OsString>, command: &Command,
    ) -> Result<(), Failure> {
        let (name, joined) = match option.split_once('=') {
            Some((name, value)) => (name, Some(value.to_string())),
            None => (option, None),
        };
        if !command.repeats.contains(&name) && (self.has(name) || self.option(name).is_some()) {
            return Err(Failure::argument(&format!("{name} is given twice")));
        }
        if command.flags.contains(&name) {
            self.flags.push(name.to_string());
            return match joined {
                Some(_) => Err(Failure::argument(&format!("{name} takes no value"))),
                None => Ok(()),
            };
        }
        if !command.options.contains(&name) {
            return Err(Failure::argument(&format!("there is no option {name} here")));
        }
        let next = || rest.next().map(|value| value.to_string_lossy().into_owned());
        let Some(value) = joined.or_else(next) else {
            return Err(Failure::argument(&format!("{name} needs a value")));
        };
        self.options.push((name.to_string(), value));
        Ok(())
    }

    fn option(&self, name: &str) -> Option<&str> {
        self.values(name).first().copied()
    }

    /// Every value of an option, in the order given.
    fn values(&self, name: &str) -> Vec<&str> {
        self.options.iter().filter(|(given, _)| given == name).map(|(_, value)| value.as_str()).collect()
    }

    /// Whether a flag is given.
    pub fn has(&self, flag: &str) -> bool {
        self.flags.iter().any(|given| given == flag)
    }

    /// The word at a place, as a path.
    pub fn path(&self, place: usize) -> &Path {
        Path::new(self.words.get(place).map_or(OsStr::new(""), OsString::as_os_str))
    }

    /// Every word, as a path.
    pub fn paths(&self) -> Vec<&Path> {
        self.words.iter().map(Path::new).collect()
    }

    /// An option's number, where it is given.
    pub fn number(&self, name: &str) -> Result<Option<usize>, Failure> {
        self.option(name).map(|value| number(name, value)).transpose()
    }

    /// An option's number.
    pub fn required_number(&self, name: &str) -> Result<usize, Failure> {
        self.number(name)?.ok_or_else(|| missing(name))
    }

    /// An option's byte: its number, or one printable character that is no digit. A digit is a number.
    pub fn required_byte(&self, name: &str) -> Result<u8, Failure> {
        let value = self.option(name).ok_or_else(|| missing(name))?;
        match value.as_bytes() {
            [character] if text::is_printable(*character) && !character.is_ascii_digit() => Ok(*character),
            [_, ..] if value.bytes().all(|digit| digit.is_ascii_digit()) => value
                .parse()
                .map_err(|_| Failure::argument(&format!("{name}: {value} is too large, bytes are 0 to 255"))),
            _ => Err(Failure::argument(&format!(
                "{name}: {value} is not a byte, which is a number 0 to 255 or one printable ASCII character"
            ))),
        }
    }

    /// An option's numbers, rising and each once, where they are given: in lists of nodes and in lists of losses, order
    /// and repeats say nothing.
    pub fn list(&self, name: &str) -> Result<Option<Vec<usize>>, Failure> {
        let Some(value) = self.option(name) else {
            return Ok(None);
        };
        let mut numbers = value.split(',').map(|part| number(name, part.trim())).collect::<Result<Vec<_>, _>>()?;
        numbers.sort_unstable();
        numbers.dedup();
        Ok(Some(numbers))
    }

    /// An option's numbers, rising and each once.
    pub fn required_list(&self, name: &str) -> Result<Vec<usize>, Failure> {
        self.list(name)?.ok_or_else(|| missing(name))
    }

    /// The losses, where they are given. An empty value is the empty list: losses may be none, nodes not.
    pub fn losses(&self) -> Result<Option<Vec<usize>>, Failure> {
        match self.option(LOSSES) {
            Some(value) if value.trim().is_empty() => Ok(Some(Vec::new())),
            _ => self.list(LOSSES),
        }
    }

    /// The losses.
    pub fn required_losses(&self) -> Result<Vec<usize>, Failure> {
        self.losses()?.ok_or_else(|| missing(LOSSES))
    }

    /// The stretches of the transcript, in the order given; none where the option is not given.
    pub fn stretches(&self) -> Result<Vec<Range<usize>>, Failure> {
        let stretches = self.values(STRETCH).into_iter().map(stretch).collect::<Result<Vec<_>, _>>()?;
        match stretches.len() {
            count if count > MOST_STRETCHES => Err(Failure::argument(&format!(
                "{STRETCH} is given {count} times, and may be {MOST_STRETCHES} times at most"
            ))),
            _ => Ok(stretches),
        }
    }
}

fn missing(name: &str) -> Failure {
    Failure::argument(&format!("{name} is missing"))
}

fn number(name: &str, value: &str) -> Result<usize, Failure> {
    number_or(name, value, || Failure::argument(&format!("{name}: {value} is not a whole number")))
}

/// A number, and what is said where it is none.
fn number_or(name: &str, value: &str, none: impl FnOnce() -> Failure) -> Result<usize, Failure> {
    value.parse().map_err(|e: ParseIntError| match e.kind() {
        IntErrorKind::PosOverflow => Failure::argument(&format!("{name}: {value} is too large")),
        _ => none(),
    })
}

/// "100..180", the bytes 100 to 179.
fn stretch(value: &str) -> Result<Range<usize>, Failure> {
    let none = || {
        Failure::argument(&format!(
            "{STRETCH}: {value} is not a stretch, which is START..END, with END not below START, for the bytes START \
             to END - 1, counted from 0"
        ))
    };
    let (start, end) = value.split_once("..").ok_or_else(none)?;
    let stretch = number_or(STRETCH, start, none)?..number_or(STRETCH, end, none)?;
    Some(stretch).filter(|stretch| stretch.start <= stretch.end).ok_or_else(none)
}
