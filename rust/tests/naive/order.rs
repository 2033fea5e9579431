//! Whether a repair's transfers may run in the order of a list, and running them one by one (document 02 §12).

use super::judge::{judge_layers, judge_lists, judge_shape, refuse_unless, Lists, Number};
use super::plan::Transfer;
use super::repair::{first_step, helper_message, second_step};
use std::collections::HashMap;

/// Every order of these entries.
pub fn every_order<T: Copy>(entries: &[T]) -> impl ExactSizeIterator<Item = Vec<T>> + '_ {
    let count: usize = (1..=entries.len()).product();
    (0..count).map(|number| arranged(entries, number))
}

/// The order of the entries with that number, of the factorial of their count.
fn arranged<T: Copy>(entries: &[T], mut number: usize) -> Vec<T> {
    let mut left = entries.to_vec();
    let mut arranged = Vec::new();
    while !left.is_empty() {
        let at = number % left.len();
        number /= left.len();
        arranged.push(left.remove(at));
    }
    arranged
}

/// Transfers as the numbers of a list.
pub fn numbers(list: &[Transfer]) -> Vec<usize> {
    list.iter().flat_map(|&(sender, receiver)| [sender, receiver]).collect()
}

/// "The list is lent as numbers, sender then receiver; an odd count of them is 4 .. 13, in place of a no, when the list
/// breaks one of these rules, judged after 4."
pub fn may_run(lists: &Lists, numbers: &[usize]) -> Result<(), Number> {
    judge_shape(lists.shape)?;
    judge_lists(lists.shape, &lists.dead, &lists.helpers)?;
    judge_layers(lists.shape, lists.dead.len())?;
    refuse_unless(numbers.len().is_multiple_of(2), 4)?;
    let list: Vec<Transfer> = numbers.chunks_exact(2).map(|pair| (pair[0], pair[1])).collect();
    refuse_unless(is_plan(lists, &list) && exchanges_wait(lists, &list), 13)
}

/// "Every transfer of the plan stands there once, nothing else does."
fn is_plan(lists: &Lists, list: &[Transfer]) -> bool {
    let plan = lists.transfers();
    let times = |transfer| list.iter().filter(|&listed| listed == transfer).count();
    plan.iter().all(|transfer| times(transfer) == 1) && list.iter().all(|listed| plan.contains(listed))
}

/// "Each exchange comes after all k+1 messages to its sender."
fn exchanges_wait(lists: &Lists, list: &[Transfer]) -> bool {
    let has_received = |at: usize, sender| lists.helpers.iter().all(|&helper| list[..at].contains(&(helper, sender)));
    (list.iter().enumerate()).all(|(at, &(sender, _))| !lists.dead.contains(&sender) || has_received(at, sender))
}

/// The calls that messages and new nodes are made by, on buffers of the exact lengths.
pub trait Calls {
    fn helper_message(&self, helper: usize, new: usize, symbols: &[u16]) -> Vec<u16>;
    /// The own pairs, and the sums for the other dead nodes.
    fn first_step(&self, new: usize, messages: &[u16]) -> (Vec<u16>, Vec<u16>);
    fn second_step(&self, new: usize, pairs: &[u16], received: &[u16]) -> Vec<u16>;
}

/// The naive calls.
impl Calls for Lists {
    fn helper_message(&self, helper: usize, new: usize, symbols: &[u16]) -> Vec<u16> {
        let Lists { shape, dead, helpers } = self;
        helper_message(*shape, dead, helpers, helper, new, symbols, self.message_length()).unwrap()
    }

    fn first_step(&self, new: usize, messages: &[u16]) -> (Vec<u16>, Vec<u16>) {
        let (Lists { shape, dead, helpers }, length) = (self, self.message_length());
        first_step(*shape, dead, helpers, new, messages, 2 * length, (dead.len() - 1) * length).unwrap()
    }

    fn second_step(&self, new: usize, pairs: &[u16], received: &[u16]) -> Vec<u16> {
        let Lists { shape, dead, helpers } = self;
        second_step(*shape, dead, helpers, new, pairs, received, shape.symbols()).unwrap()
    }
}

/// A repair that runs one transfer after the other, by these calls.
struct Running<'a, C> {
    lists: &'a Lists,
    calls: &'a C,
    /// The nodes before the repair: of these, helpers read their own symbols.
    nodes: &'a [u16],
    sent: HashMap<Transfer, Vec<u16>>,
}

/// The nodes and the wire after the plan's transfers, in the order of the list, as `repair` gives them. None where a sender
/// does not yet hold what its message is made from.
pub fn run(lists: &Lists, calls: &impl Calls, nodes: &[u16], list: &[Transfer]) -> Option<(Vec<u16>, Vec<u16>)> {
    let mut running = Running { lists, calls, nodes, sent: HashMap::new() };
    for &transfer in list {
        let message = running.message(transfer)?;
        running.sent.insert(transfer, message);
    }
    let wire = running.messages(&lists.transfers())?;
    Some((running.repaired()?, wire))
}

impl<C: Calls> Running<'_, C> {
    /// The message of a transfer from what its sender holds now: its own symbols if it helps, and else what it received.
    fn message(&self, (sender, receiver): Transfer) -> Option<Vec<u16>> {
        let size = self.lists.shape.symbols();
        if self.lists.helpers.contains(&sender) {
            let own = &self.nodes[sender * size..(sender + 1) * size];
            return Some(self.calls.helper_message(sender, receiver, own));
        }
        let (_, sums) = self.calls.first_step(sender, &self.received(&self.lists.helpers, sender)?);
        let place = self.lists.fellows(sender).iter().position(|&fellow| fellow == receiver)?;
        sums.chunks_exact(self.lists.message_length()).nth(place).map(<[u16]>::to_vec)
    }

    /// The messages of these transfers, one behind the other. None where one has not been sent.
    fn messages(&self, transfers: &[Transfer]) -> Option<Vec<u16>> {
        let mut messages = Vec::new();
        for transfer in transfers {
            messages.extend(self.sent.get(transfer)?);
        }
        Some(messages)
    }

    /// What a node received from these senders.
    fn received(&self, senders: &[usize], receiver: usize) -> Option<Vec<u16>> {
        let transfers: Vec<Transfer> = senders.iter().map(|&sender| (sender, receiver)).collect();
        self.messages(&transfers)
    }

    /// The nodes, each dead one after its second step.
    fn repaired(&self) -> Option<Vec<u16>> {
        let size = self.lists.shape.symbols();
        let mut nodes = self.nodes.to_vec();
        for &new in &self.lists.dead {
            let (pairs, _) = self.calls.first_step(new, &self.received(&self.lists.helpers, new)?);
            let received = self.received(&self.lists.fellows(new), new)?;
            nodes[new * size..(new + 1) * size].copy_from_slice(&self.calls.second_step(new, &pairs, &received));
        }
        Some(nodes)
    }
}
