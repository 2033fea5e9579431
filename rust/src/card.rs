//! Cards, the files of nodes: packing and unpacking.
use crate::ffi;
use crate::refusal::{answer, found};
use crate::{Refusal, Shape};

/// What a card says before its symbols.
#[derive(Clone, Copy, Debug, PartialEq, Eq, Hash)]
#[must_use]
pub struct Header {
    /// The shape of the archive.
    pub shape: Shape,
    /// The node whose card it is.
    pub node: usize,
    /// The transcript's length in bytes.
    pub length: usize,
    /// The hearing number: 0 for none, otherwise 1 to 999 999.
    pub hearing: usize,
}

impl Header {
    /// Packs a node's N symbols into a card buffer of 15 + 2 × N bytes. Gives the card's length; the bytes behind the
    /// card are as they were. With a hearing number the card starts with the number 1, and has the hearing number behind
    /// the length.
    ///
    /// ```
    /// let shape = hmsr::Shape::new(3, 1, 1)?;
    /// let header = hmsr::Header { shape, node: 1, length: 2, hearing: 0 };
    /// let mut card = [0; 31];
    /// let length = header.pack(&[253, 247, 0, 0, 0, 0, 0, 0], &mut card)?;
    /// assert_eq!(card[..length], [3, 1, 1, 1, 2, 253, 1, 247, 1, 0, 0, 0, 0, 0, 0]);
    /// # Ok::<(), hmsr::Refusal>(())
    /// ```
    ///
    /// # Errors
    ///
    /// [`Refusal::BadShape`], [`Refusal::BadNodes`], [`Refusal::Malformed`] for a length above data × N or a hearing
    /// number above 999 999, [`Refusal::WrongLength`], [`Refusal::BadSymbol`].
    pub fn pack(&self, symbols: &[u16], card: &mut [u8]) -> Result<usize, Refusal> {
        found(ffi::pack(*self, symbols, card))
    }

    /// A node's card, in a new buffer of its length.
    ///
    /// ```
    /// let shape = hmsr::Shape::new(3, 1, 1)?;
    /// let header = hmsr::Header { shape, node: 1, length: 2, hearing: 700 };
    /// let card = header.pack_to_vec(&[253, 247, 0, 0, 0, 0, 0, 0])?;
    /// assert_eq!(card, [1, 3, 1, 1, 1, 2, 188, 5, 253, 1, 247, 1, 0, 0, 0, 0, 0, 0]);
    /// # Ok::<(), hmsr::Refusal>(())
    /// ```
    ///
    /// # Errors
    ///
    /// As [`Header::pack`].
    pub fn pack_to_vec(&self, symbols: &[u16]) -> Result<Vec<u8>, Refusal> {
        let mut card = vec![0; self.shape.card_room()?];
        let packed = self.pack(symbols, &mut card)?;
        card.truncate(packed);
        Ok(card)
    }
}

/// Unpacks a card, with a hearing number or without, into a buffer of the N symbols of its shape.
///
/// ```
/// let mut symbols = [0; 8];
/// let header = hmsr::unpack(&[3, 1, 1, 1, 2, 253, 1, 247, 1, 0, 0, 0, 0, 0, 0], &mut symbols)?;
/// assert_eq!((header.node, header.length, header.hearing), (1, 2, 0));
/// assert_eq!(symbols, [253, 247, 0, 0, 0, 0, 0, 0]);
/// # Ok::<(), hmsr::Refusal>(())
/// ```
///
/// # Errors
///
/// [`Refusal::Malformed`], [`Refusal::BadShape`], [`Refusal::BadNodes`], [`Refusal::WrongLength`],
/// [`Refusal::BadSymbol`].
pub fn unpack(card: &[u8], symbols: &mut [u16]) -> Result<Header, Refusal> {
    let mut numbers = [0; 6];
    unpack_into(card, symbols, &mut numbers)?;
    let [nodes, data, layers, node, length, hearing] = numbers;
    Ok(Header { shape: Shape { nodes, data, layers }, node, length, hearing })
}

/// Unpacks a card as the library's own call does, with the header as six numbers: nodes, data nodes, layers, the node,
/// the transcript's length, the hearing number.
///
/// # Errors
///
/// As [`unpack`], and [`Refusal::WrongLength`] for a header buffer of another length.
pub fn unpack_into(card: &[u8], symbols: &mut [u16], header: &mut [usize]) -> Result<(), Refusal> {
    answer(ffi::unpack(card, symbols, header))
}

/// A card's header and symbols, in a new buffer.
///
/// ```
/// use hmsr::{unpack_to_vec, Refusal};
/// let (header, symbols) = unpack_to_vec(&[3, 1, 1, 1, 2, 253, 1, 247, 1, 0, 0, 0, 0, 0, 0])?;
/// assert_eq!(header.shape.data, 1);
/// assert_eq!(symbols, [253, 247, 0, 0, 0, 0, 0, 0]);
/// assert_eq!(unpack_to_vec(&[3, 1, 1]), Err(Refusal::Malformed));
/// # Ok::<(), Refusal>(())
/// ```
///
/// # Errors
///
/// As [`unpack`].
pub fn unpack_to_vec(card: &[u8]) -> Result<(Header, Vec<u16>), Refusal> {
    let mut symbols = vec![0; symbols_announced(card)?];
    let header = unpack(card, &mut symbols)?;
    Ok((header, symbols))
}

/// The N of a card's header. The library judges the header before the symbols' buffer, so with no room it refuses a
/// bad header for what is wrong with it and a good one for the length. In a good one, the nodes, data nodes and layers
/// are below 128 and take a byte each, behind a leading 1 where there is a hearing number, and no archive has 1 node; N
/// is at most 245 760, whatever the card says.
fn symbols_announced(card: &[u8]) -> Result<usize, Refusal> {
    match unpack(card, &mut []) {
        Err(Refusal::WrongLength) => {}
        Err(refusal) => return Err(refusal),
        Ok(_) => return Ok(0),
    }
    match card {
        [1, nodes, data, layers, ..] | [nodes, data, layers, ..] => {
            Shape { nodes: (*nodes).into(), data: (*data).into(), layers: (*layers).into() }.node_symbols()
        }
        _ => Err(Refusal::Malformed),
    }
}
