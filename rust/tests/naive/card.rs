//! Cards: numbers in seven-bit groups, pack and unpack, with a hearing number or without (document 02 §9).

use super::judge::{judge_lengths, judge_node, judge_shape, judge_symbols, Number, Shape};

#[derive(Clone, Copy, Debug, PartialEq, Eq)]
pub struct Header {
    pub shape: Shape,
    pub node: usize,
    pub length: usize,
    /// "0 for none, otherwise 1 to 999,999" (document 02 §9).
    pub hearing: usize,
}

/// "Groups of seven bits, least first; every byte but the last has 128 added."
pub fn put_number(bytes: &mut Vec<u8>, mut number: usize) {
    while number >= 128 {
        bytes.push((number % 128 + 128) as u8);
        number /= 128;
    }
    bytes.push(number as u8);
}

/// Takes a number off the front: "Only the shortest form is read", and "up to four" groups (document 02 §7).
pub fn take_number(bytes: &mut &[u8]) -> Result<usize, Number> {
    let count = bytes.iter().take_while(|&&byte| byte >= 128).count() + 1;
    if count > 4 || count > bytes.len() || (count > 1 && bytes[count - 1] == 0) {
        return Err(6);
    }
    let (groups, rest) = bytes.split_at(count);
    *bytes = rest;
    Ok((groups.iter().rev()).fold(0, |number, &group| number * 128 + usize::from(group % 128)))
}

/// Shape, node, and the length against k × N.
fn judge_header(header: Header) -> Result<(), Number> {
    judge_shape(header.shape)?;
    judge_node(header.shape, header.node)?;
    if header.length <= header.shape.capacity() {
        Ok(())
    } else {
        Err(6)
    }
}

/// "A leading 1 followed later by hearing 0, or a value above 999,999 in either direction, is 6, judged after the length"
/// (document 02 §9).
fn judge_hearing(least: usize, hearing: usize) -> Result<(), Number> {
    if (least..=999_999).contains(&hearing) {
        Ok(())
    } else {
        Err(6)
    }
}

/// "Its card buffer has 15 + 2 × N bytes"; then the symbols.
fn judge_packed(shape: Shape, symbols: &[u16], card_length: usize) -> Result<(), Number> {
    judge_lengths(&[(symbols.len(), shape.symbols()), (card_length, 15 + 2 * shape.symbols())])?;
    judge_symbols(symbols)
}

/// The numbers of a header on a card. "With 0 a card is packed as today. Otherwise the card starts with the number 1, then
/// n, k, L, node, length, hearing number, symbols" (document 02 §9).
pub fn header_numbers(header: Header) -> Vec<usize> {
    let Header { shape: Shape { n, k, layers }, node, length, hearing } = header;
    match hearing {
        0 => vec![n, k, layers, node, length],
        _ => vec![1, n, k, layers, node, length, hearing],
    }
}

/// The bytes of the numbers of a header, and of symbols behind them.
fn card_of(header: &[usize], symbols: &[u16]) -> Vec<u8> {
    let mut card = Vec::new();
    header.iter().for_each(|&number| put_number(&mut card, number));
    symbols.iter().for_each(|&symbol| put_number(&mut card, usize::from(symbol)));
    card
}

/// The bytes of the card.
pub fn pack(header: Header, symbols: &[u16], card_length: usize) -> Result<Vec<u8>, Number> {
    judge_header(header)?;
    judge_hearing(0, header.hearing)?;
    judge_packed(header.shape, symbols, card_length)?;
    Ok(card_of(&header_numbers(header), symbols))
}

/// The bytes of the card, as until document 02 §9 ("as today"): no hearing number is known.
pub fn pack_before(header: Header, symbols: &[u16], card_length: usize) -> Result<Vec<u8>, Number> {
    let Header { shape, node, length, .. } = header;
    judge_header(header)?;
    judge_packed(shape, symbols, card_length)?;
    Ok(card_of(&[shape.n, shape.k, shape.layers, node, length], symbols))
}

/// "The form of all header numbers, the hearing number's too, is judged first" (document 02 §9).
pub fn unpack(card: &[u8], symbols_length: usize) -> Result<(Header, Vec<u16>), Number> {
    let mut rest = card;
    let leading = starts_with_1(card);
    if leading {
        take_number(&mut rest)?;
    }
    let mut header = take_header(&mut rest)?;
    if leading {
        header.hearing = take_number(&mut rest)?;
    }
    judge_header(header)?;
    if leading {
        judge_hearing(1, header.hearing)?;
    }
    Ok((header, take_symbols(rest, header.shape, symbols_length)?))
}

/// Whether the first number is 1, so that the header has seven numbers.
pub fn starts_with_1(card: &[u8]) -> bool {
    take_number(&mut &card[..]) == Ok(1)
}

/// Reading until document 02 §9: five header numbers, whatever they are ("Programs from before §9 meet that leading 1 as a
/// bad n and return 1").
pub fn unpack_before(card: &[u8], symbols_length: usize) -> Result<(Header, Vec<u16>), Number> {
    let mut rest = card;
    let header = take_header(&mut rest)?;
    judge_header(header)?;
    Ok((header, take_symbols(rest, header.shape, symbols_length)?))
}

/// n, k, L, node, length; no hearing number.
fn take_header(bytes: &mut &[u8]) -> Result<Header, Number> {
    let shape = take_shape(bytes)?;
    Ok(Header { shape, node: take_number(bytes)?, length: take_number(bytes)?, hearing: 0 })
}

pub fn take_shape(bytes: &mut &[u8]) -> Result<Shape, Number> {
    Ok(Shape { n: take_number(bytes)?, k: take_number(bytes)?, layers: take_number(bytes)? })
}

/// "The size of the lent buffer, each symbol's form (6) then value (5) in turn, bytes left over (6)."
fn take_symbols(mut bytes: &[u8], shape: Shape, symbols_length: usize) -> Result<Vec<u16>, Number> {
    judge_lengths(&[(symbols_length, shape.symbols())])?;
    let mut symbols = Vec::new();
    for _ in 0..shape.symbols() {
        let number = take_number(&mut bytes)?;
        symbols.push(u16::try_from(number).ok().filter(|&s| s <= 256).ok_or(5usize)?);
    }
    if bytes.is_empty() {
        Ok(symbols)
    } else {
        Err(6)
    }
}
