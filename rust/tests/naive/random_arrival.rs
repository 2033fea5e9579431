//! Random messages to a new node and what it keeps of them (document 02 §8), accepted ones and ones that are wrong.

use super::random::Random;
use super::{Arrival, Finished, Heard, Kept, Lists};

impl Random {
    /// An accepted hearing: of any helper, after any number of the others.
    pub fn heard(&mut self, lists: Lists) -> Heard {
        let order = self.shuffled(&lists.helpers);
        let before = self.one_of(order.len());
        let kept = self.kept(&lists, &order[..before]);
        let (new, message) = (self.choose(&lists.dead), self.symbols(lists.message_length()));
        Heard { lists, new, helper: order[before], message, kept }
    }

    /// An accepted finishing, after hearing the helpers in any order.
    pub fn finished(&mut self, lists: Lists) -> Finished {
        let order = self.shuffled(&lists.helpers);
        let (new, kept) = (self.choose(&lists.dead), self.kept(&lists, &order));
        let length = lists.message_length();
        let (pairs_length, exchanges_length) = (2 * length, (lists.dead.len() - 1) * length);
        Finished { lists, new, kept, pairs_length, exchanges_length }
    }

    /// Any sums, and a record of these helpers. What stands behind them in the record is not looked at: helpers too.
    pub fn kept(&mut self, lists: &Lists, heard: &[usize]) -> Kept {
        let mut record = [&[heard.len()], heard].concat();
        while record.len() < lists.shape.k + 2 {
            let (any, helper) = (self.next() as usize, self.choose(&lists.helpers));
            record.push(self.choose(&[0, any, helper, helper, usize::MAX]));
        }
        Kept { sums: self.symbols(lists.kept_length()), record }
    }

    /// Changes a record in one of the ways in which it can be wrong; some changes may leave it right.
    fn spoil_record(&mut self, lists: &Lists, record: &mut Vec<usize>) {
        if record.is_empty() {
            return record.push(0);
        }
        let (at, other) = (self.below(record.len()), self.below(record.len()));
        let most = lists.helpers.len();
        match self.below(9) {
            0 => record[0] = self.choose(&[most + 1, most + 2, 1 << 63, usize::MAX, record[0].wrapping_add(1 << 32)]),
            1 => record[0] = self.below(most + 1),
            2 => record[at] = self.below(lists.shape.n + 1),
            3 => record[at] = self.hostile(record[at]),
            4 => record[at] = record[other],
            5 => record.swap(at, other),
            6 => drop(record.pop()),
            7 => record.push(self.choose(&[0, usize::MAX, record[at]])),
            _ => record.truncate(at),
        }
    }

    /// Makes what is kept wrong, the record more often than the sums.
    fn spoil_kept(&mut self, lists: &Lists, kept: &mut Kept) {
        match self.below(5) {
            0 => self.spoil_symbols(&mut kept.sums),
            1 => self.spoil_count(&mut kept.sums),
            _ => self.spoil_record(lists, &mut kept.record),
        }
    }

    /// Another count of symbols.
    fn spoil_count(&mut self, symbols: &mut Vec<u16>) {
        let mut length = symbols.len();
        self.spoil_length(&mut length);
        symbols.resize(length, 256);
    }

    /// Makes the message, the helper's name or what is kept wrong; some changes may leave it right.
    pub fn spoil_heard(&mut self, call: &mut Heard) {
        match self.below(6) {
            0 => self.spoil_symbols(&mut call.message),
            1 => self.spoil_count(&mut call.message),
            2 if !call.kept.heard().is_empty() => call.helper = self.choose(call.kept.heard()),
            _ => self.spoil_kept(&call.lists, &mut call.kept),
        }
    }

    /// Makes a buffer's length or what is kept wrong; some changes may leave it right.
    pub fn spoil_finished(&mut self, call: &mut Finished) {
        match self.below(6) {
            0 => self.spoil_length(&mut call.pairs_length),
            1 => self.spoil_length(&mut call.exchanges_length),
            _ => self.spoil_kept(&call.lists, &mut call.kept),
        }
    }

    /// The messages of all helpers in any order, and often some between them that are refused, or whose helper is
    /// refused later for being heard already; now and then one is left out.
    pub fn arrival(&mut self, lists: Lists) -> Arrival {
        let (new, length) = (self.choose(&lists.dead), lists.message_length());
        let order = self.shuffled(&lists.helpers);
        let mut messages: Vec<_> = order.into_iter().map(|helper| (helper, self.symbols(length))).collect();
        for _ in 0..self.choose(&[0, 1, 3, 6]) {
            let extra = self.other_message(&lists);
            let at = self.below(messages.len() + 1);
            messages.insert(at, extra);
        }
        if self.once_in(4) {
            messages.remove(self.below(messages.len()));
        }
        Arrival { lists, new, messages }
    }

    /// A message that is refused, but where it is a helper's and comes first.
    fn other_message(&mut self, lists: &Lists) -> (usize, Vec<u16>) {
        let (helper, mut message) = (self.choose(&lists.helpers), self.symbols(lists.message_length()));
        let (node, far) = (self.below(lists.shape.n + 1), self.hostile(helper));
        match self.below(4) {
            0 => self.spoil_symbols(&mut message),
            1 => self.spoil_count(&mut message),
            2 => return (self.choose(&[node, far]), message),
            _ => {}
        }
        (helper, message)
    }
}
