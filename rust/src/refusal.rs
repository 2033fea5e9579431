//! The causes for which a call turns back, with their numbers.
use std::error::Error;
use std::fmt;

/// Why a call turned back. Every buffer it was lent is as it was.
#[derive(Clone, Copy, Debug, PartialEq, Eq, Hash)]
pub enum Refusal {
    /// The number of nodes, of data nodes or of layers is outside its range.
    BadShape = 1,
    /// A node not below the number of nodes, a list that is not strictly rising or of the wrong count, dead nodes that
    /// help, a named node that is not in its list, a helper heard already, a record of the helpers heard that counts too
    /// many or names one twice or a node that is no helper, or a loss outside 1 to nodes - data - 1.
    BadNodes = 2,
    /// The number of layers is not a multiple of the layers of a batch.
    PartBatch = 3,
    /// A buffer not of the exact length, an odd count of numbers in a list of pairs, more than 64 stretches, a transcript
    /// too long, or a first step finished before all helpers are heard.
    WrongLength = 4,
    /// A symbol, or a kept sum, handed in is above 256.
    BadSymbol = 5,
    /// A card or the plan's input is malformed; or a card's transcript is too long, or its hearing number above 999 999.
    Malformed = 6,
    /// The symbols are not those of a transcript of that length; of stretches: those of a wanted byte are not a byte's.
    NoTranscript = 7,
    /// The byte's number is not below the transcript's length, or a stretch ends past it.
    PastEnd = 9,
    /// No number of layers up to 15 serves every loss in the list.
    NoLayers = 11,
    /// The change is outside −255 to 255, or the data symbol plus the change outside 0 to 255.
    BadChange = 12,
    /// The transfers may not run in the order of their list: they are not those of the plan, each once, or an exchange
    /// comes before a message to its sender.
    BadOrder = 13,
}

impl Refusal {
    /// All causes, by their numbers.
    pub const ALL: [Refusal; 11] = [
        Refusal::BadShape,
        Refusal::BadNodes,
        Refusal::PartBatch,
        Refusal::WrongLength,
        Refusal::BadSymbol,
        Refusal::Malformed,
        Refusal::NoTranscript,
        Refusal::PastEnd,
        Refusal::NoLayers,
        Refusal::BadChange,
        Refusal::BadOrder,
    ];

    /// The cause's number: 1 to 7, 9, or 11 to 13.
    ///
    /// ```
    /// assert_eq!(hmsr::Refusal::PartBatch.number(), 3);
    /// ```
    #[must_use]
    pub fn number(self) -> usize {
        self as usize
    }

    /// The cause with that number.
    ///
    /// ```
    /// use hmsr::Refusal;
    /// assert_eq!(Refusal::from_number(7), Some(Refusal::NoTranscript));
    /// assert_eq!(Refusal::from_number(0), None);
    /// assert_eq!(Refusal::from_number(8), None);
    /// ```
    #[must_use]
    pub fn from_number(number: usize) -> Option<Refusal> {
        Self::ALL.into_iter().find(|cause| cause.number() == number)
    }
}

impl fmt::Display for Refusal {
    fn fmt(&self, f: &mut fmt::Formatter<'_>) -> fmt::Result {
        f.write_str(match self {
            Refusal::BadShape => "there must be 3 to 14 nodes, 1 to nodes - 2 data nodes and 1 to 15 layers",
            Refusal::BadNodes => "the node lists, or the losses, are not as they should be",
            Refusal::PartBatch => "the number of layers is not a multiple of the layers of a batch",
            Refusal::WrongLength => {
                "a buffer is not of the exact length, a list of pairs is odd or too long, or the transcript is too long"
            }
            Refusal::BadSymbol => "a symbol is above 256",
            Refusal::Malformed => "the card or the input is malformed",
            Refusal::NoTranscript => "the symbols are not those of a transcript of that length",
            Refusal::PastEnd => "the byte, or a stretch, is not within the transcript's length",
            Refusal::NoLayers => "no number of layers from 1 to 15 serves every loss in the list",
            Refusal::BadChange => "the change is not from -255 to 255, or makes no byte of the data symbol",
            Refusal::BadOrder => {
                "the transfers are not those of the plan, each once, or one comes before what it waits for"
            }
        })
    }
}

impl Error for Refusal {}

/// What a call answered that returns nothing else: 0, or a cause's number.
pub(crate) fn answer(number: usize) -> Result<(), Refusal> {
    if number == 0 {
        return Ok(());
    }
    Err(cause(number))
}

/// Where what a call found begins in its answer; below are causes' numbers.
const FIRST_FOUND: usize = 256;

/// What a call answered that returns what it found: 256 and that number, or a cause's.
pub(crate) fn found(number: usize) -> Result<usize, Refusal> {
    number.checked_sub(FIRST_FOUND).ok_or_else(|| cause(number))
}

/// The cause of an answer that is not 0. The library is proved to answer with no other number.
pub(crate) fn cause(number: usize) -> Refusal {
    match Refusal::from_number(number) {
        Some(cause) => cause,
        None => panic!("the library answered {number}, which is no refusal's number"),
    }
}
