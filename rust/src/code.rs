//! Writing a transcript, checking all nodes, restoring or opening from any k of them, and correcting one byte.
use crate::ffi;
use crate::refusal::{answer, found};
use crate::{Refusal, Shape};

/// What the check of all nodes answers. That a check was made says nothing: its answer has to be looked at.
///
/// ```compile_fail
/// #![deny(unused_must_use)]
/// # let shape = hmsr::Shape::new(3, 1, 1)?;
/// shape.check(&[0; 24])?;
/// # Ok::<(), hmsr::Refusal>(())
/// ```
#[derive(Clone, Copy, Debug, PartialEq, Eq, Hash)]
#[must_use = "an unmet equation is an answer, not a refusal"]
pub enum Checked {
    /// The nodes are what writing some transcript of data × N bytes gives: every parity equation is met, and nodes 0 to
    /// data - 1 hold nothing above 255.
    Sound,
    /// The nodes do not agree: the first equation that is not met, by layer, then a, then t.
    Unmet {
        /// The layer.
        layer: usize,
        /// The place within the layer, below 2^nodes.
        a: usize,
        /// The power of the points, below nodes - data.
        t: usize,
    },
    /// The nodes agree, but they hold no transcript: every equation is met, and this is the first symbol of nodes 0 to
    /// data - 1 that is above 255, by node, then place. Whichever nodes it is opened from, and with whichever length, the
    /// answer is [`Refusal::NoTranscript`].
    HighData {
        /// The node, below data.
        node: usize,
        /// The symbol's place on that node, below N.
        place: usize,
    },
}

impl Shape {
    /// Writes the transcript (at most data × N bytes) into all nodes (nodes × N symbols).
    ///
    /// ```
    /// let shape = hmsr::Shape::new(3, 1, 1)?;
    /// let mut nodes = [0; 24];
    /// shape.write(&[3, 6], &mut nodes)?;
    /// assert_eq!(nodes[..8], [3, 6, 0, 0, 0, 0, 0, 0]);
    /// assert_eq!(nodes[8..16], [253, 247, 0, 0, 0, 0, 0, 0]);
    /// assert_eq!(nodes[16..], [1, 4, 0, 0, 0, 0, 0, 0]);
    /// # Ok::<(), hmsr::Refusal>(())
    /// ```
    ///
    /// # Errors
    ///
    /// [`Refusal::BadShape`], [`Refusal::WrongLength`].
    pub fn write(&self, transcript: &[u8], nodes: &mut [u16]) -> Result<(), Refusal> {
        answer(ffi::write(*self, transcript, nodes))
    }

    /// All nodes of the transcript, in a new buffer.
    ///
    /// # Errors
    ///
    /// As [`Shape::write`].
    pub fn write_to_nodes(&self, transcript: &[u8]) -> Result<Vec<u16>, Refusal> {
        let mut nodes = vec![0; self.archive_symbols()?];
        self.write(transcript, &mut nodes)?;
        Ok(nodes)
    }

    /// Whether all nodes (nodes × N symbols) meet the parity equations, and then whether they hold a transcript.
    ///
    /// ```
    /// use hmsr::{Checked, Shape};
    /// let shape = Shape::new(3, 1, 1)?;
    /// let mut nodes = shape.write_to_nodes(&[3, 6])?;
    /// assert_eq!(shape.check(&nodes)?, Checked::Sound);
    /// nodes[17] = 5;
    /// assert_eq!(shape.check(&nodes)?, Checked::Unmet { layer: 0, a: 1, t: 0 });
    /// let nodes = shape.restore_nodes(&[0], &[3, 256, 0, 0, 0, 0, 0, 0])?;
    /// assert_eq!(shape.check(&nodes)?, Checked::HighData { node: 0, place: 1 });
    /// # Ok::<(), hmsr::Refusal>(())
    /// ```
    ///
    /// # Errors
    ///
    /// [`Refusal::BadShape`], [`Refusal::WrongLength`], [`Refusal::BadSymbol`]. An equation that is not met is no
    /// error, but [`Checked::Unmet`], and neither is a data symbol above 255: [`Checked::HighData`].
    pub fn check(&self, nodes: &[u16]) -> Result<Checked, Refusal> {
        match ffi::check(*self, nodes) {
            0 => Ok(Checked::Sound),
            number => found(number).map(|fault| self.fault(fault)),
        }
    }

    /// The fault with that number, of a shape within the ranges: an equation, (layer × 2^nodes + a) × (nodes - data) + t,
    /// or, behind all of them, a symbol, node × N + place.
    fn fault(&self, number: usize) -> Checked {
        let (r, size) = (self.nodes - self.data, self.layers << self.nodes);
        match number.checked_sub(r * size) {
            Some(symbol) => Checked::HighData { node: symbol / size, place: symbol % size },
            None => {
                let place = number / r;
                Checked::Unmet { layer: place >> self.nodes, a: place % (1 << self.nodes), t: number % r }
            }
        }
    }

    /// Restores all nodes (nodes × N symbols) from the k that are listed, rising, with their symbols (data × N).
    ///
    /// ```
    /// let shape = hmsr::Shape::new(3, 1, 1)?;
    /// let mut nodes = [0; 24];
    /// shape.restore(&[2], &[1, 4, 0, 0, 0, 0, 0, 0], &mut nodes)?;
    /// assert_eq!(nodes[..2], [3, 6]);
    /// # Ok::<(), hmsr::Refusal>(())
    /// ```
    ///
    /// # Errors
    ///
    /// [`Refusal::BadShape`], [`Refusal::BadNodes`], [`Refusal::WrongLength`], [`Refusal::BadSymbol`].
    pub fn restore(&self, list: &[usize], symbols: &[u16], nodes: &mut [u16]) -> Result<(), Refusal> {
        answer(ffi::restore(*self, list, symbols, nodes))
    }

    /// All nodes, from the k that are listed, in a new buffer.
    ///
    /// # Errors
    ///
    /// As [`Shape::restore`].
    pub fn restore_nodes(&self, list: &[usize], symbols: &[u16]) -> Result<Vec<u16>, Refusal> {
        let mut nodes = vec![0; self.archive_symbols()?];
        self.restore(list, symbols, &mut nodes)?;
        Ok(nodes)
    }

    /// Opens the transcript of that length from the k nodes that are listed, rising, with their symbols (data × N).
    ///
    /// ```
    /// use hmsr::{Refusal, Shape};
    /// let shape = Shape::new(3, 1, 1)?;
    /// let mut transcript = [0; 2];
    /// shape.open(&[1], &[253, 247, 0, 0, 0, 0, 0, 0], 2, &mut transcript)?;
    /// assert_eq!(transcript, [3, 6]);
    /// assert_eq!(shape.open(&[1], &[87, 0, 0, 0, 0, 0, 0, 0], 1, &mut [0]), Err(Refusal::NoTranscript));
    /// # Ok::<(), hmsr::Refusal>(())
    /// ```
    ///
    /// # Errors
    ///
    /// [`Refusal::BadShape`], [`Refusal::BadNodes`], [`Refusal::WrongLength`], [`Refusal::BadSymbol`],
    /// [`Refusal::NoTranscript`].
    pub fn open(&self, list: &[usize], symbols: &[u16], length: usize, transcript: &mut [u8]) -> Result<(), Refusal> {
        answer(ffi::open(*self, list, symbols, length, transcript))
    }

    /// The transcript of that length, in a new buffer.
    ///
    /// # Errors
    ///
    /// As [`Shape::open`].
    pub fn open_to_vec(&self, list: &[usize], symbols: &[u16], length: usize) -> Result<Vec<u8>, Refusal> {
        // A length above the capacity is refused whatever is lent, so nothing is.
        let room = if length <= self.capacity()? { length } else { 0 };
        let mut transcript = vec![0; room];
        self.open(list, symbols, length, &mut transcript)?;
        Ok(transcript)
    }

    /// Corrects one byte of a transcript of that length in all nodes (nodes × N symbols): the byte's own symbol and one
    /// symbol of each check node, data to nodes - 1, whatever N is. Where the nodes are what writing the transcript
    /// gives, they are then what writing the corrected one gives. All other symbols stay, and are not looked at but
    /// for those that stand at the byte's place.
    ///
    /// ```
    /// use hmsr::{Refusal, Shape};
    /// let shape = Shape::new(3, 1, 2)?;
    /// let mut nodes = shape.write_to_nodes(b"he said na")?;
    /// shape.correct(&mut nodes, 10, 9, i64::from(b'o') - i64::from(b'a'))?;
    /// assert_eq!(nodes, shape.write_to_nodes(b"he said no")?);
    /// assert_eq!(shape.correct(&mut nodes, 10, 10, 1), Err(Refusal::PastEnd));
    /// assert_eq!(shape.correct(&mut nodes, 10, 9, -256), Err(Refusal::BadChange));
    /// # Ok::<(), hmsr::Refusal>(())
    /// ```
    ///
    /// # Errors
    ///
    /// [`Refusal::BadShape`]; [`Refusal::WrongLength`] for the nodes, or for a length above data × N;
    /// [`Refusal::PastEnd`]; [`Refusal::BadSymbol`] at the byte's place; [`Refusal::BadChange`]. Judged in this order.
    pub fn correct(&self, nodes: &mut [u16], length: usize, byte: usize, change: i64) -> Result<(), Refusal> {
        answer(ffi::correct(*self, nodes, length, byte, change))
    }

    /// All nodes with that byte corrected, in a new buffer.
    ///
    /// # Errors
    ///
    /// As [`Shape::correct`].
    pub fn correct_to_nodes(
        &self, nodes: &[u16], length: usize, byte: usize, change: i64,
    ) -> Result<Vec<u16>, Refusal> {
        let mut corrected = nodes.to_vec();
        self.correct(&mut corrected, length, byte, change)?;
        Ok(corrected)
    }
}
