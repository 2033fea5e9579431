//! A helper's message, the two steps of a new node, and the whole repair.

use super::code::point;
use super::field::{add, solve_parity, subtract, MODULUS};
use super::judge::{
    batch_layers, judge_layers, judge_lengths, judge_lists, judge_member, judge_shape, judge_symbols, Number, Shape,
};

/// An accepted choice of dead nodes and helpers.
pub struct Repair<'a> {
    shape: Shape,
    dead: &'a [usize],
    helpers: &'a [usize],
    s: usize,
    highest_class: usize, // H
}

impl<'a> Repair<'a> {
    /// Judges causes 1 and 2, but for the single nodes that a call names.
    pub fn judged(shape: Shape, dead: &'a [usize], helpers: &'a [usize]) -> Result<Self, Number> {
        judge_shape(shape)?;
        judge_lists(shape, dead, helpers)?;
        let s = batch_layers(dead.len());
        let highest_class = (dead.len() + 1) / s - 1;
        Ok(Repair { shape, dead, helpers, s, highest_class })
    }

    /// Cause 3.
    pub fn judge_layers(&self) -> Result<(), Number> {
        judge_layers(self.shape, self.dead.len())
    }

    /// N/(h+1).
    pub fn message_length(&self) -> usize {
        self.shape.symbols() / (self.dead.len() + 1)
    }

    /// "The class of a is the exclusive or of all v+1, v from 0 to H−1, where bit i_(s×v) of a is set."
    pub fn class(&self, a: usize) -> usize {
        (0..self.highest_class).filter(|v| a >> self.dead[self.s * v] & 1 == 1).fold(0, |class, v| class ^ (v + 1))
    }

    /// The table of ranks: class and partner layer.
    pub fn class_and_partner(&self, rank: usize) -> (usize, usize) {
        let (u1, u2) = (rank / self.s, rank % self.s);
        if u1 == self.highest_class {
            (u1, u2 + 1)
        } else if u2 == 0 {
            (0, 0)
        } else {
            (u1, u2)
        }
    }

    /// The two places that each symbol of a message to the dead node of this rank adds, and the a of
    /// the first: "for each batch, then each a of its class, rising".
    pub fn spots(&self, rank: usize) -> Vec<Spot> {
        let (class, partner) = self.class_and_partner(rank);
        let width = self.shape.width();
        let mut spots = Vec::new();
        for batch in 0..self.shape.layers / self.s {
            let base = batch * self.s;
            for a in (0..width).filter(|&a| self.class(a) == class) {
                spots.push(Spot {
                    a,
                    first: base * width + a,
                    other: (base + partner) * width + (a ^ (1 << self.dead[rank])),
                });
            }
        }
        spots
    }

    /// The rank of a dead node, which the judging has found in the list.
    pub fn rank(&self, new: usize) -> usize {
        self.dead.iter().position(|&node| node == new).unwrap()
    }

    fn message(&self, rank: usize, symbols: &[u16]) -> Vec<u16> {
        self.spots(rank).iter().map(|spot| add(symbols[spot.first].into(), symbols[spot.other].into()) as u16).collect()
    }

    /// Own pairs and the messages to the other dead nodes.
    fn first_step(&self, rank: usize, messages: &[u16]) -> (Vec<u16>, Vec<u16>) {
        let length = self.message_length();
        self.solved(rank, |index, a, unknown| {
            let known: Vec<(u32, u32)> = (self.helpers.iter().enumerate())
                .map(|(h, &node)| (point(node, a), messages[h * length + index].into()))
                .collect();
            solve_parity(&known, unknown)
        })
    }

    /// The same, where `solve` gives the unknowns of each sum of a message from the sum's number, its a, and their points.
    pub fn solved(&self, rank: usize, solve: impl Fn(usize, usize, &[u32]) -> Vec<u32>) -> (Vec<u16>, Vec<u16>) {
        let new = self.dead[rank];
        let length = self.message_length();
        let strangers: Vec<usize> =
            (0..self.shape.n).filter(|node| *node != new && !self.helpers.contains(node)).collect();
        // where the other dead nodes stand among the strangers
        let others: Vec<usize> = (0..strangers.len()).filter(|&index| self.dead.contains(&strangers[index])).collect();
        let mut pairs = Vec::new();
        let mut sums = vec![0; others.len() * length];
        for (index, spot) in self.spots(rank).iter().enumerate() {
            let own = point(new, spot.a);
            let mut unknown = vec![own, MODULUS - own];
            unknown.extend(strangers.iter().map(|&node| point(node, spot.a)));
            let values = solve(index, spot.a, &unknown);
            pairs.push(values[0] as u16);
            pairs.push(values[1] as u16);
            for (other, &stranger) in others.iter().enumerate() {
                sums[other * length + index] = values[2 + stranger] as u16;
            }
        }
        (pairs, sums)
    }

    /// Subtracts known symbols from sums until all are known: first class 0 of layer 0, then the
    /// rest of layer 0, then the other layers.
    fn second_step(&self, rank: usize, pairs: &[u16], received: &[u16]) -> Vec<u16> {
        let mut symbols = vec![0; self.shape.symbols()];
        for (spot, pair) in self.spots(rank).iter().zip(pairs.chunks_exact(2)) {
            symbols[spot.first] = pair[0];
            symbols[spot.other] = pair[1];
        }
        let (class, _) = self.class_and_partner(rank);
        if class != 0 {
            let sender = self.s * (class - 1);
            let message = self.received_from(rank, sender, received);
            for (spot, &sum) in self.spots(sender).iter().zip(message) {
                symbols[spot.first] = difference(sum, symbols[spot.other]);
            }
        }
        let (same_layer, across): (Vec<usize>, Vec<usize>) = (0..self.dead.len())
            .filter(|&sender| sender != rank)
            .partition(|&sender| self.class_and_partner(sender).1 == 0);
        for sender in same_layer.into_iter().chain(across) {
            let message = self.received_from(rank, sender, received);
            for (spot, &sum) in self.spots(sender).iter().zip(message) {
                symbols[spot.other] = difference(sum, symbols[spot.first]);
            }
        }
        symbols
    }

    /// The message of another rank among those received, senders rising.
    fn received_from<'m>(&self, rank: usize, sender: usize, received: &'m [u16]) -> &'m [u16] {
        let length = self.message_length();
        let index = if sender < rank { sender } else { sender - 1 };
        &received[index * length..(index + 1) * length]
    }
}

pub struct Spot {
    pub a: usize,
    first: usize,
    other: usize,
}

fn difference(sum: u16, symbol: u16) -> u16 {
    subtract(sum.into(), symbol.into()) as u16
}

pub fn helper_message(
    shape: Shape, dead: &[usize], helpers: &[usize], helper: usize, new: usize, symbols: &[u16], message_length: usize,
) -> Result<Vec<u16>, Number> {
    let repair = Repair::judged(shape, dead, helpers)?;
    judge_member(helpers, helper)?;
    judge_member(dead, new)?;
    repair.judge_layers()?;
    judge_lengths(&[(symbols.len(), shape.symbols()), (message_length, repair.message_length())])?;
    judge_symbols(symbols)?;
    Ok(repair.message(repair.rank(new), symbols))
}

/// The own pairs and the sums for the other dead nodes.
pub fn first_step(
    shape: Shape, dead: &[usize], helpers: &[usize], new: usize, messages: &[u16], pairs_length: usize,
    sums_length: usize,
) -> Result<(Vec<u16>, Vec<u16>), Number> {
    let repair = Repair::judged(shape, dead, helpers)?;
    judge_member(dead, new)?;
    repair.judge_layers()?;
    let length = repair.message_length();
    judge_lengths(&[
        (messages.len(), helpers.len() * length),
        (pairs_length, 2 * length),
        (sums_length, (dead.len() - 1) * length),
    ])?;
    judge_symbols(messages)?;
    Ok(repair.first_step(repair.rank(new), messages))
}

pub fn second_step(
    shape: Shape, dead: &[usize], helpers: &[usize], new: usize, pairs: &[u16], received: &[u16], symbols_length: usize,
) -> Result<Vec<u16>, Number> {
    let repair = Repair::judged(shape, dead, helpers)?;
    judge_member(dead, new)?;
    repair.judge_layers()?;
    let length = repair.message_length();
    judge_lengths(&[
        (pairs.len(), 2 * length),
        (received.len(), (dead.len() - 1) * length),
        (symbols_length, shape.symbols()),
    ])?;
    judge_symbols(pairs)?;
    judge_symbols(received)?;
    Ok(repair.second_step(repair.rank(new), pairs, received))
}

/// The nodes and the wire afterwards.
pub fn repair(
    shape: Shape, dead: &[usize], helpers: &[usize], nodes: &[u16], wire_length: usize,
) -> Result<(Vec<u16>, Vec<u16>), Number> {
    let repair = Repair::judged(shape, dead, helpers)?;
    repair.judge_layers()?;
    let (size, h) = (shape.symbols(), dead.len());
    judge_lengths(&[(nodes.len(), shape.n * size), (wire_length, h * (shape.k + h) * repair.message_length())])?;
    for &helper in helpers {
        judge_symbols(&nodes[helper * size..(helper + 1) * size])?;
    }
    let mut wire = Vec::new();
    let mut first_steps = Vec::new();
    for rank in 0..h {
        let mut messages = Vec::new();
        for &helper in helpers {
            messages.extend(repair.message(rank, &nodes[helper * size..(helper + 1) * size]));
        }
        first_steps.push(repair.first_step(rank, &messages));
        wire.extend(messages);
    }
    let mut nodes = nodes.to_vec();
    for rank in 0..h {
        let mut received = Vec::new();
        for sender in (0..h).filter(|&sender| sender != rank) {
            received.extend(repair.received_from(sender, rank, &first_steps[sender].1));
        }
        let symbols = repair.second_step(rank, &first_steps[rank].0, &received);
        nodes[dead[rank] * size..(dead[rank] + 1) * size].copy_from_slice(&symbols);
        wire.extend(received);
    }
    Ok((nodes, wire))
}
