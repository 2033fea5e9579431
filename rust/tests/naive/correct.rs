//! Correcting one byte in all nodes (document 02 §10).

use super::code::point;
use super::field::{solve_parity, MODULUS};
use super::judge::{judge_lengths, judge_shape, judge_symbols, judge_transcript, refuse_unless, Number, Shape};

/// "Given all n nodes, the transcript's length, a byte number and a signed change."
#[derive(Clone, Debug)]
pub struct Correction {
    pub shape: Shape,
    pub nodes: Vec<u16>,
    pub length: usize,
    pub byte: usize,
    pub change: i64,
}

impl Correction {
    /// "The byte's node and place": bytes fill the data nodes one after the other.
    pub fn node_and_place(&self) -> (usize, usize) {
        (self.byte / self.shape.symbols(), self.byte % self.shape.symbols())
    }

    /// Where the nodes' symbols of that place stand.
    pub fn place_indices(&self) -> Vec<usize> {
        let (_, place) = self.node_and_place();
        (0..self.shape.n).map(|node| node * self.shape.symbols() + place).collect()
    }
}

/// What each check node, k to n−1, has at a place where that data node has 1 and the others have 0: "a factor that
/// depends only on shape, the byte's node and place, and the check node".
pub fn factors(shape: Shape, node: usize, place: usize) -> Vec<u32> {
    let a = place % shape.width();
    let data: Vec<(u32, u32)> = (0..shape.k).map(|other| (point(other, a), u32::from(other == node))).collect();
    let checks: Vec<u32> = (shape.k..shape.n).map(|check| point(check, a)).collect();
    solve_parity(&data, &checks)
}

/// "A byte number not below the length is 9", which is "judged after 4 and before 5" (document 02 §2). "Number 5 here looks
/// only at the byte's place in the n nodes .. 12, the change is outside its range or the data symbol plus the change leaves 0
/// to 255, judged after 5."
fn judge(correction: &Correction) -> Result<(), Number> {
    let Correction { shape, nodes, length, byte, change } = correction;
    judge_shape(*shape)?;
    judge_lengths(&[(nodes.len(), shape.n * shape.symbols())])?;
    judge_transcript(*shape, *length)?;
    refuse_unless(byte < length, 9)?;
    let at_place: Vec<u16> = correction.place_indices().into_iter().map(|index| nodes[index]).collect();
    judge_symbols(&at_place)?;
    refuse_unless((-255..=255).contains(change), 12)?;
    refuse_unless((0..=255).contains(&(i64::from(nodes[*byte]) + change)), 12)
}

/// The symbols that are given another value, and where they stand: the byte's own, then one of each check node.
pub fn changes(correction: &Correction) -> Result<Vec<(usize, u16)>, Number> {
    judge(correction)?;
    let Correction { shape, nodes, change, .. } = correction;
    let (node, place) = correction.node_and_place();
    let indices = correction.place_indices();
    let moved = |index: usize, factor: u32| {
        let symbol = i64::from(nodes[index]) + change * i64::from(factor);
        (index, symbol.rem_euclid(i64::from(MODULUS)) as u16)
    };
    let checks = indices[shape.k..].iter().zip(factors(*shape, node, place));
    Ok([moved(indices[node], 1)].into_iter().chain(checks.map(|(&index, factor)| moved(index, factor))).collect())
}

/// The nodes afterwards.
pub fn correct(correction: &Correction) -> Result<Vec<u16>, Number> {
    let mut nodes = correction.nodes.clone();
    changes(correction)?.into_iter().for_each(|(index, symbol)| nodes[index] = symbol);
    Ok(nodes)
}
