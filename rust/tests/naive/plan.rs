//! The plan: its transfers, and the text that the plan program prints for an input.

use super::card::{take_number, take_shape};
use super::judge::{judge_dead_count, judge_layers, judge_lists, judge_shape, Lists, Number};

/// A transfer's sender and receiver.
pub type Transfer = (usize, usize);

impl Lists {
    /// "Helpers' messages come first, by receiver then sender; then exchanges likewise."
    pub fn transfers(&self) -> Vec<Transfer> {
        let mut transfers = Vec::new();
        for senders in [&self.helpers, &self.dead] {
            for &receiver in &self.dead {
                let others = senders.iter().filter(|&&sender| sender != receiver);
                transfers.extend(others.map(|&sender| (sender, receiver)));
            }
        }
        transfers
    }
}

/// What the program prints: the plan, or one line with the refusal's number.
pub fn plan(input: &[u8]) -> String {
    match planned(input) {
        Ok(text) => text,
        Err(number) => format!("{number}\n"),
    }
}

fn planned(input: &[u8]) -> Result<String, Number> {
    let mut rest = input;
    let shape = take_shape(&mut rest)?;
    let h = take_number(&mut rest)?;
    judge_shape(shape)?;
    judge_dead_count(shape, h)?;
    let dead = take_list(&mut rest, h)?;
    let helpers = take_list(&mut rest, shape.k + 1)?;
    if !rest.is_empty() {
        return Err(6);
    }
    judge_lists(shape, &dead, &helpers)?;
    judge_layers(shape, h)?;
    Ok(text(&Lists { shape, dead, helpers }))
}

fn take_list(bytes: &mut &[u8], count: usize) -> Result<Vec<usize>, Number> {
    (0..count).map(|_| take_number(bytes)).collect()
}

/// "One line a message: sender, receiver, symbols."
fn text(lists: &Lists) -> String {
    let (shape, h, length) = (lists.shape, lists.dead.len(), lists.message_length());
    let mut lines = vec![format!("{} {} {} {h}", shape.n, shape.k, shape.layers)];
    let transfers = lists.transfers().into_iter();
    lines.extend(transfers.map(|(sender, receiver)| format!("{sender} {receiver} {length}")));
    lines.push(format!("{}", h * (shape.k + h) * length));
    lines.join("\n") + "\n"
}
