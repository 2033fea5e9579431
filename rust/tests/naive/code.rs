//! Write, check, restore and open.

use super::field::{multiply, solve_parity, MODULUS, POINTS};
use super::judge::{judge_lengths, judge_list, judge_shape, judge_symbols, judge_transcript, Number, Shape};

/// "p(i) where bit i of a is 0, and 257−p(i) where it is 1."
pub fn point(node: usize, a: usize) -> u32 {
    if a >> node & 1 == 0 {
        POINTS[node]
    } else {
        MODULUS - POINTS[node]
    }
}

pub fn write(shape: Shape, transcript: &[u8], nodes_length: usize) -> Result<Vec<u16>, Number> {
    judge_shape(shape)?;
    judge_lengths(&[(nodes_length, shape.n * shape.symbols())])?;
    judge_transcript(shape, transcript.len())?;
    let mut data: Vec<u16> = transcript.iter().map(|&byte| u16::from(byte)).collect();
    data.resize(shape.capacity(), 0);
    let list: Vec<usize> = (0..shape.k).collect();
    Ok(restored(shape, &list, &data))
}

/// Why nodes are not sound.
#[derive(Clone, Copy, Debug, PartialEq, Eq)]
pub enum Fault {
    Equation { layer: usize, a: usize, t: usize },
    Symbol { node: usize, place: usize },
}

/// None if sound, otherwise the first unmet equation, or, where all are met, the first symbol above 255 of nodes 0 to k−1,
/// by node then place (document 02 §5).
pub fn check(shape: Shape, nodes: &[u16]) -> Result<Option<Fault>, Number> {
    judge_shape(shape)?;
    judge_lengths(&[(nodes.len(), shape.n * shape.symbols())])?;
    judge_symbols(nodes)?;
    for layer in 0..shape.layers {
        for a in 0..shape.width() {
            if let Some(t) = first_unmet(shape, nodes, layer, a) {
                return Ok(Some(Fault::Equation { layer, a, t }));
            }
        }
    }
    for (node, symbols) in nodes.chunks(shape.symbols()).enumerate().take(shape.k) {
        if let Some(place) = symbols.iter().position(|&symbol| symbol > 255) {
            return Ok(Some(Fault::Symbol { node, place }));
        }
    }
    Ok(None)
}

fn first_unmet(shape: Shape, nodes: &[u16], layer: usize, a: usize) -> Option<usize> {
    let place = layer * shape.width() + a;
    let points: Vec<u32> = (0..shape.n).map(|node| point(node, a)).collect();
    let mut terms: Vec<u32> = (0..shape.n).map(|node| u32::from(nodes[node * shape.symbols() + place])).collect();
    for t in 0..shape.equations() {
        if terms.iter().sum::<u32>() % MODULUS != 0 {
            return Some(t);
        }
        for (term, &point) in terms.iter_mut().zip(&points) {
            *term = multiply(*term, point);
        }
    }
    None
}

pub fn restore(shape: Shape, list: &[usize], symbols: &[u16], nodes_length: usize) -> Result<Vec<u16>, Number> {
    judge_shape(shape)?;
    judge_list(shape, list)?;
    judge_lengths(&[(symbols.len(), shape.capacity()), (nodes_length, shape.n * shape.symbols())])?;
    judge_symbols(symbols)?;
    Ok(restored(shape, list, symbols))
}

/// All nodes from the listed ones, place by place.
fn restored(shape: Shape, list: &[usize], symbols: &[u16]) -> Vec<u16> {
    let size = shape.symbols();
    let missing: Vec<usize> = (0..shape.n).filter(|node| !list.contains(node)).collect();
    let mut nodes = vec![0; shape.n * size];
    for place in 0..size {
        let a = place % shape.width();
        let mut known = Vec::new();
        for (rank, &node) in list.iter().enumerate() {
            let symbol = symbols[rank * size + place];
            known.push((point(node, a), u32::from(symbol)));
            nodes[node * size + place] = symbol;
        }
        let unknown: Vec<u32> = missing.iter().map(|&node| point(node, a)).collect();
        let values = solve_parity(&known, &unknown);
        for (&node, &value) in missing.iter().zip(&values) {
            nodes[node * size + place] = value as u16;
        }
    }
    nodes
}

pub fn open(
    shape: Shape, list: &[usize], symbols: &[u16], length: usize, transcript_length: usize,
) -> Result<Vec<u8>, Number> {
    judge_shape(shape)?;
    judge_list(shape, list)?;
    judge_transcript(shape, length)?;
    judge_lengths(&[(symbols.len(), shape.capacity()), (transcript_length, length)])?;
    judge_symbols(symbols)?;
    let nodes = restored(shape, list, symbols);
    let (within, rest) = nodes[..shape.capacity()].split_at(length);
    if rest.iter().any(|&symbol| symbol != 0) {
        return Err(7);
    }
    let bytes: Option<Vec<u8>> = within.iter().map(|&s| u8::try_from(s).ok()).collect();
    bytes.ok_or(7)
}
