//! Opening many stretches of a transcript in one reading.
use std::ops::Range;

use crate::ffi;
use crate::refusal::found;
use crate::{Refusal, Shape};

/// The most stretches that are opened together.
pub const MOST_STRETCHES: usize = 64;

/// Stretches of a transcript, and where they were read.
#[derive(Clone, Debug, PartialEq, Eq, Hash)]
pub struct Stretches {
    /// Their bytes, joined in the order in which the stretches were named.
    pub bytes: Vec<u8>,
    /// The columns that were read, rising, each once: the places, common to all nodes, at which a wanted byte's symbol
    /// stands.
    pub columns: Vec<usize>,
    /// The symbols that were read: data × the count of columns.
    pub symbols: usize,
}

impl Shape {
    /// Opens stretches of the transcript of that length, at most [`MOST_STRETCHES`], from the k nodes that are listed,
    /// rising, with their symbols (data × N). The bytes come out joined in the order given, into a buffer of exactly as
    /// many. Stretches may overlap, repeat, and be empty; one whose end is before its start is empty.
    ///
    /// A column is a place common to all nodes, and is touched exactly if a wanted byte's symbol stands at it: byte b's
    /// stands at place b % N. The list of columns (N numbers) then holds the touched ones, rising, and zeros behind them,
    /// and what is returned is data × their count. Symbols in other columns have no effect and may be anything, above 256
    /// too; where [`Shape::open`] opens the nodes, these are bytes of its transcript.
    ///
    /// ```
    /// use hmsr::{Refusal, Shape};
    /// let shape = Shape::new(4, 2, 1)?; // N is 16
    /// let nodes = shape.write_to_nodes(b"Q. Were you there? A. I was.")?;
    /// let mut symbols = nodes[32..].to_vec(); // nodes 2 and 3
    /// symbols[0] = 65535; // in a column that is not touched
    /// let (mut bytes, mut columns) = ([0; 6], [9; 16]);
    /// let read = shape.open_stretches(&[2, 3], &symbols, 28, &[22..27, 3..4], &mut bytes, &mut columns)?;
    /// assert_eq!(&bytes, b"I wasW");
    /// assert_eq!(columns, [3, 6, 7, 8, 9, 10, 0, 0, 0, 0, 0, 0, 0, 0, 0, 0]);
    /// assert_eq!(read, 2 * 6);
    /// let past = shape.open_stretches(&[2, 3], &symbols, 28, &[23..29], &mut bytes, &mut columns);
    /// assert_eq!(past, Err(Refusal::PastEnd));
    /// # Ok::<(), hmsr::Refusal>(())
    /// ```
    ///
    /// # Errors
    ///
    /// [`Refusal::BadShape`]; [`Refusal::BadNodes`]; [`Refusal::WrongLength`], also for too many stretches or a length
    /// above data × N; [`Refusal::PastEnd`] where a stretch ends past the length, or is empty and starts behind it;
    /// [`Refusal::BadSymbol`] in a touched column; [`Refusal::NoTranscript`] where a wanted byte's data symbol is 256.
    /// Judged in this order.
    pub fn open_stretches(
        &self, list: &[usize], symbols: &[u16], length: usize, stretches: &[Range<usize>], bytes: &mut [u8],
        columns: &mut [usize],
    ) -> Result<usize, Refusal> {
        // Of too many stretches one more than the most is handed in: the library turns them back.
        let mut numbers = [0; 2 * (MOST_STRETCHES + 1)];
        let pairs = numbers.chunks_exact_mut(2).zip(stretches);
        let count = pairs.map(|(pair, stretch)| pair.copy_from_slice(&[stretch.start, stretch.len()])).count();
        found(ffi::open_stretches(*self, list, symbols, length, &numbers[..2 * count], bytes, columns))
    }

    /// Stretches of the transcript of that length, and the columns that were read, in new buffers.
    ///
    /// ```
    /// let shape = hmsr::Shape::new(3, 1, 1)?;
    /// let opened = shape.open_stretches_to_vec(&[1], &[253, 247, 0, 0, 0, 0, 0, 0], 2, &[1..2, 0..2])?;
    /// assert_eq!(opened.bytes, [6, 3, 6]);
    /// assert_eq!(opened.columns, [0, 1]);
    /// assert_eq!(opened.symbols, 2);
    /// # Ok::<(), hmsr::Refusal>(())
    /// ```
    ///
    /// # Errors
    ///
    /// As [`Shape::open_stretches`] with buffers of the exact lengths.
    pub fn open_stretches_to_vec(
        &self, list: &[usize], symbols: &[u16], length: usize, stretches: &[Range<usize>],
    ) -> Result<Stretches, Refusal> {
        let mut columns = vec![0; self.node_symbols()?];
        // Where there are too many stretches, the length is above the capacity, or a stretch ends past it, nothing is
        // opened and no room needed: such stretches are handed in as empty ones behind the end.
        let fits = stretches.len() <= MOST_STRETCHES && length <= self.data * columns.len();
        let within = |stretch: &Range<usize>| fits && stretch.start.max(stretch.end) <= length;
        let handed: Vec<_> =
            stretches.iter().map(|s| if within(s) { s.clone() } else { usize::MAX..usize::MAX }).collect();
        let mut bytes = vec![0; handed.iter().map(Range::len).sum()];
        let symbols = self.open_stretches(list, symbols, length, &handed, &mut bytes, &mut columns)?;
        columns.truncate(symbols / self.data);
        Ok(Stretches { bytes, columns, symbols })
    }
}
