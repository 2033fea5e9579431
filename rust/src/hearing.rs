//! The first step of a new node with the helpers' messages taken one by one, and what is kept between them.
use crate::{FirstStep, Refusal, Repair};

/// The helpers that a new node has heard so far, and the sums of their messages: its first step, which takes the
/// messages in the order in which they arrive. The calls are [`Repair::hear`] and [`Repair::finish`]; this owns what
/// they keep, so that nothing else writes it.
///
/// ```
/// use hmsr::{Hearing, Refusal, Repair, Shape};
/// let shape = Shape::new(5, 2, 3)?;
/// let nodes = shape.write_to_nodes(b"the witness was sworn")?;
/// let repair = Repair { shape, dead: &[1, 3], helpers: &[0, 2, 4] };
/// let message = |helper| repair.helper_message_to_vec(helper, 3, &nodes[helper * 96..(helper + 1) * 96]);
///
/// let mut hearing = Hearing::new(repair, 3);
/// hearing.hear(4, &message(4)?)?;
/// hearing.hear(0, &message(0)?)?;
/// assert_eq!(hearing.hear(4, &message(4)?), Err(Refusal::BadNodes)); // it is heard already
/// assert_eq!(hearing.finish_to_vec(), Err(Refusal::WrongLength)); // node 2 is not
/// hearing.hear(2, &message(2)?)?;
/// assert_eq!(hearing.heard(), [4, 0, 2]);
///
/// let rising = [message(0)?, message(2)?, message(4)?].concat();
/// assert_eq!(hearing.finish_to_vec()?, repair.first_step_to_vec(3, &rising)?);
/// # Ok::<(), hmsr::Refusal>(())
/// ```
#[derive(Clone, Debug, PartialEq, Eq, Hash)]
#[must_use]
pub struct Hearing<'a> {
    repair: Repair<'a>,
    new_node: usize,
    sums: Vec<u16>,
    /// The record: how many were heard, then their nodes, then zeros.
    heard: Vec<usize>,
}

impl<'a> Hearing<'a> {
    /// The first step of a new node that has heard nobody. Nothing is judged here: each call does.
    pub fn new(repair: Repair<'a>, new_node: usize) -> Hearing<'a> {
        // Where there is no such size, every call turns back for what it judges before the buffers' lengths.
        let (sums, heard) = match repair.shape.kept_symbols(repair.dead.len()) {
            Ok(kept) => (vec![0; kept], vec![0; repair.shape.data + 2]),
            Err(_) => (Vec::new(), Vec::new()),
        };
        Hearing { repair, new_node, sums, heard }
    }

    /// Hears a helper: takes its message (N/(h+1) symbols).
    ///
    /// # Errors
    ///
    /// As [`Repair::hear`]; what was heard before stays as it was.
    pub fn hear(&mut self, helper: usize, message: &[u16]) -> Result<(), Refusal> {
        self.repair.hear(self.new_node, helper, message, &mut self.sums, &mut self.heard)
    }

    /// The helpers heard so far, in their order.
    ///
    /// ```
    /// use hmsr::{Hearing, Repair, Shape};
    /// let repair = Repair { shape: Shape::new(3, 1, 1)?, dead: &[0], helpers: &[1, 2] };
    /// let mut hearing = Hearing::new(repair, 0);
    /// assert_eq!(hearing.heard(), []);
    /// hearing.hear(2, &[5, 0, 0, 0])?;
    /// assert_eq!(hearing.heard(), [2]);
    /// # Ok::<(), hmsr::Refusal>(())
    /// ```
    #[must_use]
    pub fn heard(&self) -> &[usize] {
        match self.heard.split_first() {
            Some((&count, nodes)) => &nodes[..count],
            None => &[],
        }
    }

    /// Finishes the first step, once all data + 1 helpers are heard: puts the own pairs (2 × N/(h+1) symbols) and the
    /// message to each other new node, rising ((h - 1) × N/(h+1)), into lent buffers.
    ///
    /// ```
    /// use hmsr::{Hearing, Repair, Shape};
    /// let repair = Repair { shape: Shape::new(3, 1, 1)?, dead: &[0], helpers: &[1, 2] };
    /// let mut hearing = Hearing::new(repair, 0);
    /// hearing.hear(2, &[5, 0, 0, 0])?;
    /// hearing.hear(1, &[243, 0, 0, 0])?;
    /// let mut pairs = [0; 8];
    /// hearing.finish(&mut pairs, &mut [])?; // no other node is dead
    /// assert_eq!(pairs, [3, 6, 0, 0, 0, 0, 0, 0]);
    /// # Ok::<(), hmsr::Refusal>(())
    /// ```
    ///
    /// # Errors
    ///
    /// As [`Repair::finish`].
    pub fn finish(&self, pairs: &mut [u16], exchanges: &mut [u16]) -> Result<(), Refusal> {
        self.repair.finish(self.new_node, &self.sums, &self.heard, pairs, exchanges)
    }

    /// Finishes the first step: own pairs and messages, in new buffers.
    ///
    /// # Errors
    ///
    /// As [`Repair::finish`] with buffers of the exact lengths.
    pub fn finish_to_vec(&self) -> Result<FirstStep, Refusal> {
        let FirstStep { mut pairs, mut sums } = self.repair.first_step_buffers();
        self.finish(&mut pairs, &mut sums)?;
        Ok(FirstStep { pairs, sums })
    }
}
