//! Which number of layers an archive gets, and which losses are repaired in one go with it.
use hmsr::{Refusal, Shape};

use super::text::{counted, listed};
use super::Failure;

/// "L, the number of layers, is 1 to 15".
pub const MOST_LAYERS: usize = 15;

/// The layers that the user asks for.
#[derive(Clone, Copy)]
pub enum Layers {
    /// Those with which the most sizes of loss are repaired in one go.
    Best,
    Named(usize),
    /// A multiple of the fewest that serve some losses. These are the least common multiple of what each loss needs, so
    /// the numbers that serve them all are their multiples.
    MultipleOf(usize),
}

/// The shape that an archive for a transcript of this length gets.
pub fn choose(nodes: usize, data: usize, layers: Layers, length: usize) -> Result<Shape, Failure> {
    match layers {
        Layers::Best => best(judged(nodes, data, 1)?, length),
        Layers::Named(layers) => named(judged(nodes, data, layers)?, length),
        Layers::MultipleOf(layers) => {
            let fewest = judged(nodes, data, layers)?;
            smallest_multiple(fewest, length).ok_or_else(|| too_long_for_losses(fewest, length))
        }
    }
}

/// The most bytes that any archive of these nodes holds.
pub fn most_bytes(nodes: usize, data: usize) -> Result<usize, Failure> {
    judged(nodes, data, MOST_LAYERS).map(capacity)
}

/// The numbers of dead nodes that a repair in one go can have.
pub fn repairable(shape: Shape) -> Vec<usize> {
    (1..shape.nodes - shape.data).filter(|&dead_count| shape.message_symbols(dead_count).is_ok()).collect()
}

/// What the user is told about a number of layers: the bytes that fit, and the losses that one go repairs.
pub fn described(shape: Shape) -> String {
    let all = shape.nodes - shape.data - 1;
    let (most, sizes) = (capacity(shape), repairable(shape));
    if sizes.len() == all {
        return format!("{most} bytes at most: any loss of up to {} is repaired in one go", counted(all, "node"));
    }
    let nodes = if sizes == [1] { "node" } else { "nodes" };
    let sizes = listed(&sizes);
    format!("{most} bytes at most: a loss of {sizes} {nodes} is repaired in one go, of up to {all} in several")
}

/// The fewest layers among those that hold the transcript and let the most sizes of loss be repaired in one go. Where
/// every size can be, the library names the fewest layers for that.
fn best(one_layer: Shape, length: usize) -> Result<Shape, Failure> {
    let Shape { nodes, data, .. } = one_layer;
    let every_loss: Vec<usize> = (1..nodes - data).collect();
    let fewest = Shape::for_losses(nodes, data, &every_loss).ok();
    let serving_all = fewest.and_then(|fewest| smallest_multiple(fewest, length));
    serving_all.or_else(|| serving_most(one_layer, length)).ok_or_else(|| too_long(one_layer))
}

/// The same, by trying every number of layers.
fn serving_most(one_layer: Shape, length: usize) -> Option<Shape> {
    let holding = multiples(one_layer).filter(|&shape| holds(shape, length));
    // Of several that let as many be repaired the last is taken: the one with the fewest layers.
    holding.rev().max_by_key(|&shape| repairable(shape).len())
}

fn named(shape: Shape, length: usize) -> Result<Shape, Failure> {
    if holds(shape, length) {
        return Ok(shape);
    }
    let one_layer = Shape { layers: 1, ..shape };
    let Some(fewest) = smallest_multiple(one_layer, length) else {
        return Err(too_long(one_layer));
    };
    let (layers, fewest) = (counted(shape.layers, "layer"), fewest.layers);
    Err(Failure::Usage(format!("{length} bytes do not fit into {layers}: use --layers {fewest} or more")))
}

/// The fewest layers that are a multiple of the shape's and hold the transcript.
fn smallest_multiple(shape: Shape, length: usize) -> Option<Shape> {
    multiples(shape).find(|&multiple| holds(multiple, length))
}

/// The shapes whose layers are a multiple of this one's, rising.
fn multiples(shape: Shape) -> impl DoubleEndedIterator<Item = Shape> {
    let numbers = (1..=MOST_LAYERS).filter(move |layers| layers.is_multiple_of(shape.layers));
    numbers.map(move |layers| Shape { layers, ..shape })
}

fn holds(shape: Shape, length: usize) -> bool {
    length <= capacity(shape)
}

/// The most bytes that an archive of an accepted shape holds.
pub fn capacity(shape: Shape) -> usize {
    shape.capacity().unwrap_or(0)
}

fn judged(nodes: usize, data: usize, layers: usize) -> Result<Shape, Failure> {
    let advice = "choose --nodes, --data and --layers within these ranges";
    Shape::new(nodes, data, layers).map_err(|refusal| no_shape(refusal, advice))
}

/// The library refused the nodes, the data nodes or the layers.
pub fn no_shape(refusal: Refusal, advice: &str) -> Failure {
    Failure::refused(Failure::Usage, "no archive has this shape", refusal, advice)
}

/// No number of layers holds the transcript.
fn too_long(shape: Shape) -> Failure {
    let most_layers = Shape { layers: MOST_LAYERS, ..shape };
    holds_less(most_layers, "", "", "split it, or use more data nodes")
}

/// No number of layers that serves the losses holds it, and it is for them only where the most layers do not serve them.
/// More data nodes may leave no repair of these losses, so they are not advised.
fn too_long_for_losses(fewest: Shape, length: usize) -> Failure {
    let most_layers = Shape { layers: MOST_LAYERS, ..fewest };
    let largest = multiples(fewest).last().unwrap_or(fewest);
    let others = "split it, or choose other --nodes and --data";
    if largest == most_layers {
        return holds_less(largest, "", "", others);
    }
    let fewer = "split it, choose other --nodes and --data, or name fewer losses";
    let advice = if holds(most_layers, length) { fewer } else { others };
    holds_less(largest, " for these losses", " that serves them", advice)
}

/// The transcript is longer than what the largest shape in question holds.
fn holds_less(largest: Shape, cause: &str, which: &str, advice: &str) -> Failure {
    let Shape { nodes, data, .. } = largest;
    Failure::Usage(format!(
        "the transcript is too long{cause}: an archive with --nodes {nodes} --data {data}{which} holds at most {} bytes; \
         {advice}",
        capacity(largest)
    ))
}
