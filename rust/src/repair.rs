//! The repair of dead nodes: a helper's message, the two steps of a new node, and the whole of them.
use crate::ffi;
use crate::refusal::answer;
use crate::{Refusal, Shape};

/// A repair of an archive, whose calls are made by the helpers and the new nodes, each by itself, or all in one. The
/// fields may hold anything: each call judges them. Below, h is the number of dead nodes.
///
/// ```
/// use hmsr::{FirstStep, Repair, Shape};
/// let repair = Repair { shape: Shape::new(3, 1, 1)?, dead: &[0], helpers: &[1, 2] };
/// let from_1 = repair.helper_message_to_vec(1, 0, &[253, 247, 0, 0, 0, 0, 0, 0])?;
/// let from_2 = repair.helper_message_to_vec(2, 0, &[1, 4, 0, 0, 0, 0, 0, 0])?;
/// let FirstStep { pairs, sums } = repair.first_step_to_vec(0, &[from_1, from_2].concat())?;
/// assert!(sums.is_empty()); // no other node is dead
/// assert_eq!(repair.second_step_to_vec(0, &pairs, &[])?, [3, 6, 0, 0, 0, 0, 0, 0]);
/// # Ok::<(), hmsr::Refusal>(())
/// ```
#[derive(Clone, Copy, Debug, PartialEq, Eq, Hash)]
#[must_use = "a repair does nothing before one of its calls is made"]
pub struct Repair<'a> {
    /// The shape of the archive.
    pub shape: Shape,
    /// The dead nodes, which are made anew: 1 to nodes - data - 1 of them, rising.
    pub dead: &'a [usize],
    /// The nodes that help: data + 1 of them, rising, none of them dead.
    pub helpers: &'a [usize],
}

/// What the first step of a new node gives.
#[derive(Clone, Debug, PartialEq, Eq, Hash)]
#[must_use]
pub struct FirstStep {
    /// The new node's own pairs, for its second step: 2 × N/(h+1) symbols.
    pub pairs: Vec<u16>,
    /// Its message to each other new node, rising: (h - 1) × N/(h+1) symbols.
    pub sums: Vec<u16>,
}

impl Repair<'_> {
    /// The message (N/(h+1) symbols) of a helper, from its own N symbols, to a new node.
    ///
    /// ```
    /// use hmsr::{Repair, Shape};
    /// let repair = Repair { shape: Shape::new(3, 1, 1)?, dead: &[0], helpers: &[1, 2] };
    /// let mut message = [0; 4];
    /// repair.helper_message(1, 0, &[253, 247, 0, 0, 0, 0, 0, 0], &mut message)?;
    /// assert_eq!(message, [243, 0, 0, 0]);
    /// # Ok::<(), hmsr::Refusal>(())
    /// ```
    ///
    /// # Errors
    ///
    /// [`Refusal::BadShape`]; [`Refusal::BadNodes`], also where the helper or the new node is not in its list;
    /// [`Refusal::PartBatch`]; [`Refusal::WrongLength`]; [`Refusal::BadSymbol`].
    pub fn helper_message(
        &self, helper: usize, new_node: usize, symbols: &[u16], message: &mut [u16],
    ) -> Result<(), Refusal> {
        answer(ffi::helper_message(*self, helper, new_node, symbols, message))
    }

    /// The message of a helper, in a new buffer.
    ///
    /// # Errors
    ///
    /// As [`Repair::helper_message`].
    pub fn helper_message_to_vec(&self, helper: usize, new_node: usize, symbols: &[u16]) -> Result<Vec<u16>, Refusal> {
        let mut message = vec![0; self.message_symbols()];
        self.helper_message(helper, new_node, symbols, &mut message)?;
        Ok(message)
    }

    /// The first step of a new node: from the messages of the helpers, rising, (data + 1) × N/(h+1) symbols, its own
    /// pairs (2 × N/(h+1)) and its message to each other new node, rising ((h - 1) × N/(h+1)).
    ///
    /// # Errors
    ///
    /// [`Refusal::BadShape`]; [`Refusal::BadNodes`], also where the new node is not a dead one;
    /// [`Refusal::PartBatch`]; [`Refusal::WrongLength`]; [`Refusal::BadSymbol`].
    pub fn first_step(
        &self, new_node: usize, messages: &[u16], pairs: &mut [u16], sums: &mut [u16],
    ) -> Result<(), Refusal> {
        answer(ffi::first_step(*self, new_node, messages, pairs, sums))
    }

    /// The first step of a new node, in new buffers.
    ///
    /// # Errors
    ///
    /// As [`Repair::first_step`].
    pub fn first_step_to_vec(&self, new_node: usize, messages: &[u16]) -> Result<FirstStep, Refusal> {
        let FirstStep { mut pairs, mut sums } = self.first_step_buffers();
        self.first_step(new_node, messages, &mut pairs, &mut sums)?;
        Ok(FirstStep { pairs, sums })
    }

    /// Hears a helper for the first step of a new node, which takes the helpers' messages one by one, in any order: adds
    /// the message (N/(h+1) symbols) to the sums, and the helper to the record. [`Repair::finish`] ends the step;
    /// [`Hearing`](crate::Hearing) does the same with buffers of its own.
    ///
    /// Both buffers are kept from call to call. They begin as zeros, and only this call writes them. The sums are
    /// (nodes - data) × N/(h+1) symbols: of the message's sum x, the sum t, from 0 to nodes - data - 1, stands at
    /// x × (nodes - data) + t, and is the sum over the helpers heard of point^t × message symbol, modulo 257. The record
    /// is data + 2 numbers: how many helpers were heard, then their nodes in the order heard; what stands behind these
    /// has no effect and stays.
    ///
    /// ```
    /// use hmsr::{Refusal, Repair, Shape};
    /// let repair = Repair { shape: Shape::new(3, 1, 1)?, dead: &[0], helpers: &[1, 2] };
    /// let (mut sums, mut heard) = ([0; 8], [0; 3]);
    /// repair.hear(0, 2, &[5, 0, 0, 0], &mut sums, &mut heard)?;
    /// assert_eq!((sums, heard), ([5, 45, 0, 0, 0, 0, 0, 0], [1, 2, 0])); // the point of node 2 is 9
    /// assert_eq!(repair.hear(0, 2, &[5, 0, 0, 0], &mut sums, &mut heard), Err(Refusal::BadNodes));
    /// repair.hear(0, 1, &[243, 0, 0, 0], &mut sums, &mut heard)?;
    /// assert_eq!((sums, heard), ([248, 3, 0, 0, 0, 0, 0, 0], [2, 2, 1]));
    /// # Ok::<(), hmsr::Refusal>(())
    /// ```
    ///
    /// # Errors
    ///
    /// [`Refusal::BadShape`]; [`Refusal::BadNodes`], also where the helper or the new node is not in its list, where the
    /// helper is heard already, where the record counts more than data + 1, or where a node that it counts, as far as the
    /// buffer has them, is no helper or stands there twice; [`Refusal::PartBatch`]; [`Refusal::WrongLength`];
    /// [`Refusal::BadSymbol`] in the message or in the sums. Judged in this order.
    pub fn hear(
        &self, new_node: usize, helper: usize, message: &[u16], sums: &mut [u16], heard: &mut [usize],
    ) -> Result<(), Refusal> {
        answer(ffi::hear(*self, new_node, helper, message, sums, heard))
    }

    /// Finishes the first step of a new node once all data + 1 helpers are heard: from the sums and the record that
    /// [`Repair::hear`] kept, its own pairs (2 × N/(h+1) symbols) and its message to each other new node, rising
    /// ((h - 1) × N/(h+1)). In whatever order the helpers were heard, these are what [`Repair::first_step`] makes of the
    /// same messages.
    ///
    /// ```
    /// use hmsr::{Refusal, Repair, Shape};
    /// let repair = Repair { shape: Shape::new(3, 1, 1)?, dead: &[0], helpers: &[1, 2] };
    /// let (mut sums, mut heard, mut pairs) = ([0; 8], [0; 3], [0; 8]);
    /// repair.hear(0, 2, &[5, 0, 0, 0], &mut sums, &mut heard)?;
    /// assert_eq!(repair.finish(0, &sums, &heard, &mut pairs, &mut []), Err(Refusal::WrongLength)); // 1 is not heard
    /// repair.hear(0, 1, &[243, 0, 0, 0], &mut sums, &mut heard)?;
    /// repair.finish(0, &sums, &heard, &mut pairs, &mut [])?;
    /// assert_eq!(pairs, [3, 6, 0, 0, 0, 0, 0, 0]);
    /// # Ok::<(), hmsr::Refusal>(())
    /// ```
    ///
    /// # Errors
    ///
    /// [`Refusal::BadShape`]; [`Refusal::BadNodes`], also where the new node is not a dead one, or for the record, as
    /// [`Repair::hear`]; [`Refusal::PartBatch`]; [`Refusal::WrongLength`], also where fewer than data + 1 helpers are
    /// heard; [`Refusal::BadSymbol`] in the sums. Judged in this order.
    pub fn finish(
        &self, new_node: usize, sums: &[u16], heard: &[usize], pairs: &mut [u16], exchanges: &mut [u16],
    ) -> Result<(), Refusal> {
        answer(ffi::finish(*self, new_node, sums, heard, pairs, exchanges))
    }

    /// The second step of a new node: from its own pairs (2 × N/(h+1) symbols) and the messages of the other new
    /// nodes, rising ((h - 1) × N/(h+1)), its N symbols.
    ///
    /// # Errors
    ///
    /// As [`Repair::first_step`].
    pub fn second_step(
        &self, new_node: usize, pairs: &[u16], received: &[u16], symbols: &mut [u16],
    ) -> Result<(), Refusal> {
        answer(ffi::second_step(*self, new_node, pairs, received, symbols))
    }

    /// The second step of a new node: its symbols, in a new buffer.
    ///
    /// # Errors
    ///
    /// As [`Repair::first_step`].
    pub fn second_step_to_vec(&self, new_node: usize, pairs: &[u16], received: &[u16]) -> Result<Vec<u16>, Refusal> {
        let mut symbols = vec![0; self.shape.node_symbols()?];
        self.second_step(new_node, pairs, received, &mut symbols)?;
        Ok(symbols)
    }

    /// A whole repair of the dead nodes in place (nodes × N symbols), which leaves every message in the wire buffer
    /// (h(k+h)N/(h+1) symbols), in the plan's order. The dead nodes and those that do not help are not read.
    ///
    /// ```
    /// use hmsr::{Repair, Shape};
    /// let shape = Shape::new(3, 1, 1)?;
    /// let mut nodes = shape.write_to_nodes(&[3, 6])?;
    /// nodes[..8].fill(65535);
    /// let mut wire = [0; 8];
    /// Repair { shape, dead: &[0], helpers: &[1, 2] }.repair(&mut nodes, &mut wire)?;
    /// assert_eq!(nodes[..8], [3, 6, 0, 0, 0, 0, 0, 0]);
    /// assert_eq!(wire, [243, 0, 0, 0, 5, 0, 0, 0]);
    /// # Ok::<(), hmsr::Refusal>(())
    /// ```
    ///
    /// # Errors
    ///
    /// [`Refusal::BadShape`], [`Refusal::BadNodes`], [`Refusal::PartBatch`], [`Refusal::WrongLength`],
    /// [`Refusal::BadSymbol`] for a helper's symbol.
    pub fn repair(&self, nodes: &mut [u16], wire: &mut [u16]) -> Result<(), Refusal> {
        answer(ffi::repair(*self, nodes, wire))
    }

    /// A whole repair in place; the wire, in a new buffer.
    ///
    /// # Errors
    ///
    /// As [`Repair::repair`].
    pub fn repair_nodes(&self, nodes: &mut [u16]) -> Result<Vec<u16>, Refusal> {
        let mut wire = vec![0; self.shape.wire_symbols(self.dead.len()).unwrap_or(0)];
        self.repair(nodes, &mut wire)?;
        Ok(wire)
    }

    /// Whether the transfers of this repair may run one by one in the order of a list of numbers, sender then receiver:
    /// `Ok` exactly if every transfer of the plan stands there once, nothing else does, and each exchange (a transfer
    /// between dead nodes) comes after all data + 1 helpers' messages to its sender.
    ///
    /// Running such a list, each message made by [`Repair::helper_message`] or [`Repair::first_step`] from what its
    /// sender holds by then, and each new node finishing with [`Repair::second_step`], leaves every dead node as
    /// [`Repair::repair`] does. The list may have any length and any numbers.
    ///
    /// ```
    /// use hmsr::{Refusal, Repair, Shape};
    /// let repair = Repair { shape: Shape::new(4, 1, 3)?, dead: &[0, 1], helpers: &[2, 3] };
    /// // node 1 sends to node 0 as soon as both helpers have sent to it
    /// repair.may_run(&[3, 1, 2, 1, 1, 0, 2, 0, 3, 0, 0, 1])?;
    /// // it sends before helper 2 has
    /// assert_eq!(repair.may_run(&[3, 1, 1, 0, 2, 1, 2, 0, 3, 0, 0, 1]), Err(Refusal::BadOrder));
    /// # Ok::<(), hmsr::Refusal>(())
    /// ```
    ///
    /// # Errors
    ///
    /// [`Refusal::BadShape`], [`Refusal::BadNodes`], [`Refusal::PartBatch`]; [`Refusal::WrongLength`] where the count of
    /// numbers is odd; [`Refusal::BadOrder`] where they may not run in this order. Judged in this order.
    pub fn may_run(&self, numbers: &[usize]) -> Result<(), Refusal> {
        answer(ffi::may_run(*self, numbers))
    }

    /// Whether the transfers of this repair may run in the order of a list of sender and receiver pairs, which is
    /// copied into numbers for [`Repair::may_run`].
    ///
    /// ```
    /// use hmsr::{Repair, Shape};
    /// let repair = Repair { shape: Shape::new(3, 1, 1)?, dead: &[0], helpers: &[1, 2] };
    /// repair.may_run_pairs(&[(2, 0), (1, 0)])?;
    /// # Ok::<(), hmsr::Refusal>(())
    /// ```
    ///
    /// # Errors
    ///
    /// As [`Repair::may_run`], but for [`Refusal::WrongLength`]: pairs are never odd.
    pub fn may_run_pairs(&self, pairs: &[(usize, usize)]) -> Result<(), Refusal> {
        let numbers: Vec<usize> = pairs.iter().flat_map(|&(sender, receiver)| [sender, receiver]).collect();
        self.may_run(&numbers)
    }

    /// What a first step is put into, in the sizes that it has.
    pub(crate) fn first_step_buffers(&self) -> FirstStep {
        let size = self.message_symbols();
        FirstStep { pairs: vec![0; 2 * size], sums: vec![0; self.dead.len().saturating_sub(1) * size] }
    }

    /// N/(h+1), and 0 where there is no such size: the library then turns back for the shape, the lists or the layers,
    /// which it judges before any buffer's length.
    fn message_symbols(&self) -> usize {
        self.shape.message_symbols(self.dead.len()).unwrap_or(0)
    }
}
