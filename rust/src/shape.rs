//! The shape of an archive, and the sizes that follow from it.
use crate::ffi;
use crate::refusal::{found, Refusal};

/// How an archive is laid out. The fields may hold anything: each call judges them, and refuses a shape outside the
/// ranges with [`Refusal::BadShape`].
#[derive(Clone, Copy, Debug, PartialEq, Eq, Hash)]
#[must_use]
pub struct Shape {
    /// n, the number of nodes: 3 to 14.
    pub nodes: usize,
    /// k, the number of nodes that give the transcript back: 1 to n - 2.
    pub data: usize,
    /// L, the number of layers: 1 to 15.
    pub layers: usize,
}

impl Shape {
    /// A shape within the ranges.
    ///
    /// ```
    /// use hmsr::{Refusal, Shape};
    /// assert!(Shape::new(14, 12, 15).is_ok());
    /// assert_eq!(Shape::new(15, 12, 15), Err(Refusal::BadShape));
    /// assert_eq!(Shape::new(14, 13, 15), Err(Refusal::BadShape));
    /// ```
    ///
    /// # Errors
    ///
    /// [`Refusal::BadShape`].
    pub fn new(nodes: usize, data: usize, layers: usize) -> Result<Shape, Refusal> {
        let shape = Shape { nodes, data, layers };
        shape.judge().map(|()| shape)
    }

    /// The shape with the fewest layers that serves each of these losses: an archive of it can have that many nodes
    /// repaired in one go. The list may have any length, in any order, with repeats; no losses need one layer.
    ///
    /// ```
    /// use hmsr::{Refusal, Shape};
    /// assert_eq!(Shape::for_losses(12, 6, &[2, 4]), Shape::new(12, 6, 15));
    /// assert_eq!(Shape::for_losses(12, 6, &[]), Shape::new(12, 6, 1));
    /// assert_eq!(Shape::for_losses(4, 1, &[3]), Err(Refusal::BadNodes));
    /// assert_eq!(Shape::for_losses(12, 5, &[2, 6]), Err(Refusal::NoLayers)); // they need 21
    /// ```
    ///
    /// # Errors
    ///
    /// [`Refusal::BadShape`] where `nodes` or `data` is outside its range; [`Refusal::BadNodes`] where a loss is not
    /// 1 to nodes - data - 1; [`Refusal::NoLayers`] where no number of layers up to 15 serves them all. Judged in this
    /// order.
    pub fn for_losses(nodes: usize, data: usize, losses: &[usize]) -> Result<Shape, Refusal> {
        let layers = found(ffi::layers(nodes, data, losses))?;
        Ok(Shape { nodes, data, layers })
    }

    /// Refuses a shape outside the ranges. The library says so: the check of no symbols judges the shape first, and
    /// refuses any shape within the ranges for the length.
    fn judge(&self) -> Result<(), Refusal> {
        match ffi::check(*self, &[]) {
            1 => Err(Refusal::BadShape),
            _ => Ok(()),
        }
    }

    /// N = layers × 2^nodes, the symbols of a node: at most 245 760.
    ///
    /// # Errors
    ///
    /// [`Refusal::BadShape`].
    pub fn node_symbols(&self) -> Result<usize, Refusal> {
        self.judge()?;
        Ok(self.layers << self.nodes)
    }

    /// nodes × N, the symbols of all nodes.
    ///
    /// # Errors
    ///
    /// [`Refusal::BadShape`].
    pub fn archive_symbols(&self) -> Result<usize, Refusal> {
        Ok(self.nodes * self.node_symbols()?)
    }

    /// data × N: the symbols of any k nodes, and the bytes of the longest transcript.
    ///
    /// ```
    /// assert_eq!(hmsr::Shape { nodes: 14, data: 12, layers: 15 }.capacity(), Ok(2_949_120));
    /// ```
    ///
    /// # Errors
    ///
    /// [`Refusal::BadShape`].
    pub fn capacity(&self) -> Result<usize, Refusal> {
        Ok(self.data * self.node_symbols()?)
    }

    /// 15 + 2 × N, the bytes of the buffer that a card is packed into.
    ///
    /// # Errors
    ///
    /// [`Refusal::BadShape`].
    pub fn card_room(&self) -> Result<usize, Refusal> {
        Ok(15 + 2 * self.node_symbols()?)
    }

    /// s, the odd part of h + 1: a repair of h dead nodes goes through the layers in batches of s.
    ///
    /// ```
    /// let shape = hmsr::Shape { nodes: 12, data: 6, layers: 15 };
    /// assert_eq!((1..6).map(|h| shape.batch_layers(h).unwrap()).collect::<Vec<_>>(), [1, 3, 1, 5, 3]);
    /// ```
    ///
    /// # Errors
    ///
    /// [`Refusal::BadShape`]; [`Refusal::BadNodes`] where h is not 1 to nodes - data - 1.
    pub fn batch_layers(&self, dead_count: usize) -> Result<usize, Refusal> {
        self.judge()?;
        if !(1..self.nodes - self.data).contains(&dead_count) {
            return Err(Refusal::BadNodes);
        }
        let parts = dead_count + 1;
        Ok(parts >> parts.trailing_zeros())
    }

    /// N/(h+1), the symbols of each message in a repair of h dead nodes.
    ///
    /// # Errors
    ///
    /// [`Refusal::BadShape`]; [`Refusal::BadNodes`] where h is not 1 to nodes - data - 1; [`Refusal::PartBatch`].
    pub fn message_symbols(&self, dead_count: usize) -> Result<usize, Refusal> {
        if !self.layers.is_multiple_of(self.batch_layers(dead_count)?) {
            return Err(Refusal::PartBatch);
        }
        Ok(self.node_symbols()? / (dead_count + 1))
    }

    /// (nodes - data) × N/(h+1), the sums that a new node keeps while it hears its helpers one by one. The record that it
    /// keeps beside them has data + 2 numbers.
    ///
    /// ```
    /// assert_eq!(hmsr::Shape { nodes: 4, data: 1, layers: 3 }.kept_symbols(2), Ok(48));
    /// ```
    ///
    /// # Errors
    ///
    /// As [`Shape::message_symbols`].
    pub fn kept_symbols(&self, dead_count: usize) -> Result<usize, Refusal> {
        let message = self.message_symbols(dead_count)?;
        Ok((self.nodes - self.data) * message)
    }

    /// h(k+h)N/(h+1), the symbols that a repair of h dead nodes sends in all.
    ///
    /// ```
    /// assert_eq!(hmsr::Shape { nodes: 4, data: 1, layers: 3 }.wire_symbols(2), Ok(96));
    /// ```
    ///
    /// # Errors
    ///
    /// As [`Shape::message_symbols`].
    pub fn wire_symbols(&self, dead_count: usize) -> Result<usize, Refusal> {
        let message = self.message_symbols(dead_count)?;
        Ok(dead_count * (self.data + dead_count) * message)
    }
}
