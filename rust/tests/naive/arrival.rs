//! The first step of a new node with the helpers' messages in the order they arrive: hearing each, and finishing
//! (document 02 §8).

use super::code::point;
use super::field::{add, multiply, power, solve, subtract};
use super::judge::{
    counted, judge_all_heard, judge_lengths, judge_member, judge_record, judge_symbols, judge_unheard, Lists, Number,
};
use super::repair::Repair;

/// What a new node keeps from call to call.
#[derive(Clone, Debug, Default, PartialEq, Eq)]
pub struct Kept {
    /// "The known side of the equations": r for each sum of a message.
    pub sums: Vec<u16>,
    /// The record: how many were heard, then their nodes in the order heard.
    pub record: Vec<usize>,
}

impl Kept {
    /// "With sums begun at zero, nobody heard". Empty where there is no such repair, which each call finds for itself.
    pub fn begun(lists: &Lists) -> Self {
        let Lists { shape, dead, helpers } = lists;
        match Repair::judged(*shape, dead, helpers).and_then(|repair| repair.judge_layers()) {
            Ok(()) => Kept { sums: vec![0; lists.kept_length()], record: vec![0; shape.k + 2] },
            Err(_) => Kept::default(),
        }
    }

    /// The helpers heard, in their order.
    pub fn heard(&self) -> &[usize] {
        counted(&self.record)
    }
}

impl Lists {
    /// r sums for each of a message.
    pub fn kept_length(&self) -> usize {
        self.shape.equations() * self.message_length()
    }
}

/// A helper's message to a new node, and what that node has kept so far.
#[derive(Clone, Debug)]
pub struct Heard {
    pub lists: Lists,
    pub new: usize,
    pub helper: usize,
    pub message: Vec<u16>,
    pub kept: Kept,
}

/// What a new node has kept, and the lengths of the buffers for its pairs and for its messages to the other dead nodes.
#[derive(Clone, Debug)]
pub struct Finished {
    pub lists: Lists,
    pub new: usize,
    pub kept: Kept,
    pub pairs_length: usize,
    pub exchanges_length: usize,
}

/// Messages to a new node that has heard nobody, each with the helper that sends it, in the order they arrive.
#[derive(Clone, Debug)]
pub struct Arrival {
    pub lists: Lists,
    pub new: usize,
    pub messages: Vec<(usize, Vec<u16>)>,
}

/// What is kept afterwards: "adding each to the known side of the equations".
pub fn hear(call: &Heard) -> Result<Kept, Number> {
    let Heard { lists: Lists { shape, dead, helpers }, new, helper, message, kept } = call;
    let repair = Repair::judged(*shape, dead, helpers)?;
    judge_member(dead, *new)?;
    judge_member(helpers, *helper)?;
    judge_record(helpers, &kept.record)?;
    judge_unheard(&kept.record, *helper)?;
    repair.judge_layers()?;
    let sizes = [repair.message_length(), call.lists.kept_length(), shape.k + 2];
    judge_lengths(&[(message.len(), sizes[0]), (kept.sums.len(), sizes[1]), (kept.record.len(), sizes[2])])?;
    judge_symbols(message)?;
    judge_symbols(&kept.sums)?;
    let Kept { mut sums, mut record } = kept.clone();
    let spots = repair.spots(repair.rank(*new));
    for ((spot, &symbol), sums) in spots.iter().zip(message).zip(sums.chunks_exact_mut(shape.equations())) {
        let mut term = u32::from(symbol);
        for sum in sums {
            *sum = add(u32::from(*sum), term) as u16;
            term = multiply(term, point(*helper, spot.a));
        }
    }
    record[0] += 1;
    let last = record[0];
    record[last] = *helper;
    Ok(Kept { sums, record })
}

/// "The pairs and outgoing messages of document 01's first step."
pub fn finish(call: &Finished) -> Result<(Vec<u16>, Vec<u16>), Number> {
    let Finished { lists: Lists { shape, dead, helpers }, new, kept, pairs_length, exchanges_length } = call;
    let repair = Repair::judged(*shape, dead, helpers)?;
    judge_member(dead, *new)?;
    judge_record(helpers, &kept.record)?;
    repair.judge_layers()?;
    let length = repair.message_length();
    judge_lengths(&[(kept.sums.len(), call.lists.kept_length()), (kept.record.len(), shape.k + 2)])?;
    judge_lengths(&[(*pairs_length, 2 * length), (*exchanges_length, (dead.len() - 1) * length)])?;
    judge_all_heard(helpers, &kept.record)?;
    judge_symbols(&kept.sums)?;
    let r = shape.equations();
    Ok(repair.solved(repair.rank(*new), |x, _, unknown| solve_beside(&kept.sums[x * r..(x + 1) * r], unknown)))
}

/// The values at the unknown points that make the parity equations true, whose known sides add up to these sums.
fn solve_beside(sums: &[u16], unknown: &[u32]) -> Vec<u32> {
    let row = |(t, &sum): (usize, &u16)| {
        let coefficients = unknown.iter().map(|&point| power(point, t as u32));
        coefficients.chain([subtract(0, sum.into())]).collect()
    };
    solve(sums.iter().enumerate().map(row).collect())
}
