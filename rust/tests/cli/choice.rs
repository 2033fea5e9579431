//! The choice of layers beside its rules written out: for every n and k, at every length where it may change.
use hmsr::Shape;

use program::choice::{choose, Layers};

/// The program's own modules, as far as the choice of layers needs them.
#[path = "../../src/cli"]
#[allow(dead_code)] // the rest of them is used by the commands
mod program {
    pub mod choice;
    mod failure;
    mod text;

    pub use failure::Failure;
}

const MOST_LAYERS: usize = 15;

/// Every n and k.
fn every_shape() -> impl Iterator<Item = (usize, usize)> {
    (3..=14).flat_map(|nodes| (1..=nodes - 2).map(move |data| (nodes, data)))
}

/// The bytes that fit: k × L × 2^n.
fn room(nodes: usize, data: usize, layers: usize) -> usize {
    data * (layers << nodes)
}

/// No bytes, as many as fit into each number of layers, one more, and the length that stands for what was not read.
fn lengths(nodes: usize, data: usize) -> Vec<usize> {
    let edges = (1..=MOST_LAYERS).flat_map(|layers| [0, 1].map(|more| room(nodes, data, layers) + more));
    [0, usize::MAX].into_iter().chain(edges).collect()
}

/// Whether a loss of h nodes is repaired in one go: L is a multiple of s, h + 1 = s × 2^m with s odd.
fn serves(layers: usize, loss: usize) -> bool {
    let mut odd = loss + 1;
    while odd.is_multiple_of(2) {
        odd /= 2;
    }
    layers.is_multiple_of(odd)
}

/// The rule that stood before losses could be named: each number of layers in turn, and one that holds the transcript
/// is better than those before it where it serves more sizes of loss.
fn best(nodes: usize, data: usize, length: usize) -> Option<usize> {
    let served = |layers: usize| (1..nodes - data).filter(|&loss| serves(layers, loss)).count();
    let mut best: Option<usize> = None;
    for layers in 1..=MOST_LAYERS {
        let more = best.is_none_or(|best| served(layers) > served(best));
        if length <= room(nodes, data, layers) && more {
            best = Some(layers);
        }
    }
    best
}

#[test]
fn without_losses_the_choice_is_that_of_before() {
    for (nodes, data) in every_shape() {
        for length in lengths(nodes, data) {
            let chosen = choose(nodes, data, Layers::Best, length).ok().map(|shape| shape.layers);
            assert_eq!(chosen, best(nodes, data, length), "n = {nodes}, k = {data}, {length} bytes");
        }
    }
}

/// Every set of losses, by the bits of a number.
#[test]
fn with_losses_the_fewest_layers_that_serve_them_and_hold_the_transcript_are_chosen() {
    for (nodes, data) in every_shape() {
        for set in 0..1_u32 << (nodes - data - 1) {
            let losses: Vec<usize> = (1..nodes - data).filter(|&loss| set >> (loss - 1) & 1 == 1).collect();
            let serving = |layers: &usize| losses.iter().all(|&loss| serves(*layers, loss));
            let serving: Vec<usize> = (1..=MOST_LAYERS).filter(serving).collect();
            let fewest = Shape::for_losses(nodes, data, &losses).ok().map(|shape| shape.layers);
            assert_eq!(fewest, serving.first().copied(), "n = {nodes}, k = {data}, {losses:?}");
            let Some(fewest) = fewest else { continue };
            for length in lengths(nodes, data) {
                let chosen = choose(nodes, data, Layers::MultipleOf(fewest), length).ok().map(|shape| shape.layers);
                let expected = serving.iter().copied().find(|&layers| length <= room(nodes, data, layers));
                assert_eq!(chosen, expected, "n = {nodes}, k = {data}, {losses:?}, {length} bytes");
            }
        }
    }
}
