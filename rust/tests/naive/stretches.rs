//! Opening many stretches of a transcript in one reading (document 02 §2).

use super::code::point;
use super::field::solve_parity;
use super::judge::{
    judge_bytes, judge_ends, judge_lengths, judge_list, judge_shape, judge_stretch_count, judge_sum, judge_symbols,
    judge_transcript, Number, Shape, Stretch,
};
use std::collections::{BTreeMap, BTreeSet};

/// Stretches of the transcript of k listed nodes, as numbers, start and length of each; and the lengths of the buffers
/// for their bytes and for the columns.
#[derive(Clone, Debug)]
pub struct Wanted {
    pub shape: Shape,
    pub list: Vec<usize>,
    pub symbols: Vec<u16>,
    pub length: usize,
    pub numbers: Vec<usize>,
    pub bytes_length: usize,
    pub columns_length: usize,
}

/// "The bytes come out joined in the order given; a lent list of N entries afterwards holds each touched column one
/// time, rising, then zeros, and the number returned is k times the count of touched columns."
#[derive(Clone, Debug, Default, PartialEq, Eq)]
pub struct Opened {
    pub bytes: Vec<u8>,
    pub columns: Vec<usize>,
    pub number: usize,
}

impl Wanted {
    /// The pairs of numbers; one that is left over is not among them.
    pub fn stretches(&self) -> Vec<Stretch> {
        self.numbers.chunks_exact(2).map(|pair| (pair[0], pair[1])).collect()
    }

    /// How many bytes are wanted, however long the stretches are.
    pub fn sum(&self) -> u128 {
        self.stretches().iter().map(|&(_, count)| count as u128).sum()
    }

    /// The numbers of the wanted bytes, in the order given, of stretches within the transcript.
    pub fn bytes(&self) -> Vec<usize> {
        self.stretches().into_iter().flat_map(|(start, count)| start..start + count).collect()
    }

    /// "A column is a place common to all nodes, and is touched exactly if a wanted byte's symbol stands at it."
    pub fn touched(&self) -> BTreeSet<usize> {
        self.bytes().into_iter().map(|byte| byte % self.shape.symbols()).collect()
    }

    /// Where the handed-in symbols of a place stand.
    pub fn place_indices(&self, place: usize) -> Vec<usize> {
        (0..self.shape.k).map(|rank| rank * self.shape.symbols() + place).collect()
    }
}

/// All nodes' symbols at a place, from those that the listed nodes have there.
pub fn column(shape: Shape, list: &[usize], symbols: &[u16], place: usize) -> Vec<u16> {
    let a = place % shape.width();
    let held: Vec<u16> = (0..list.len()).map(|rank| symbols[rank * shape.symbols() + place]).collect();
    let known: Vec<(u32, u32)> =
        list.iter().zip(&held).map(|(&node, &symbol)| (point(node, a), symbol.into())).collect();
    let missing: Vec<usize> = (0..shape.n).filter(|node| !list.contains(node)).collect();
    let unknown: Vec<u32> = missing.iter().map(|&node| point(node, a)).collect();
    let mut column = vec![0; shape.n];
    list.iter().zip(held).for_each(|(&node, symbol)| column[node] = symbol);
    missing.iter().zip(solve_parity(&known, &unknown)).for_each(|(&node, value)| column[node] = value as u16);
    column
}

/// What is handed in: 1, 2 and 4.
fn judge_handed_in(wanted: &Wanted) -> Result<(), Number> {
    let Wanted { shape, list, symbols, length, numbers, .. } = wanted;
    judge_shape(*shape)?;
    judge_list(*shape, list)?;
    judge_transcript(*shape, *length)?;
    judge_lengths(&[(symbols.len(), shape.capacity())])?;
    judge_stretch_count(numbers)
}

/// In lent buffers.
pub fn open_stretches(wanted: &Wanted) -> Result<Opened, Number> {
    judge_handed_in(wanted)?;
    judge_lengths(&[(wanted.columns_length, wanted.shape.symbols())])?;
    judge_sum(wanted.sum(), wanted.bytes_length)?;
    opened(wanted)
}

/// In new buffers, which have room for all that is wanted, however much it is.
pub fn open_stretches_anew(wanted: &Wanted) -> Result<Opened, Number> {
    judge_handed_in(wanted)?;
    opened(wanted)
}

/// "Number 5 here looks only at touched columns and 7 only at wanted bytes."
fn opened(wanted: &Wanted) -> Result<Opened, Number> {
    let Wanted { shape, list, symbols, length, .. } = wanted;
    judge_ends(&wanted.stretches(), *length)?;
    let touched = wanted.touched();
    for &place in &touched {
        let handed_in: Vec<u16> = wanted.place_indices(place).into_iter().map(|index| symbols[index]).collect();
        judge_symbols(&handed_in)?;
    }
    let solved: BTreeMap<usize, Vec<u16>> =
        touched.iter().map(|&place| (place, column(*shape, list, symbols, place))).collect();
    let own = |byte: usize| solved[&(byte % shape.symbols())][byte / shape.symbols()];
    let bytes = judge_bytes(wanted.bytes().into_iter().map(own).collect())?;
    let number = shape.k * touched.len();
    let columns = touched.into_iter().chain(std::iter::repeat(0)).take(shape.symbols()).collect();
    Ok(Opened { bytes, columns, number })
}
