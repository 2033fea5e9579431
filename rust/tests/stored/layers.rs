//! Lists of losses (document 02 §6): for each n a digest of the answers, and how many were accepted, 1, 2 and 11.

use super::digest::{line, mixed};
use hmsr::{Refusal, Shape};

/// Each k, and each set of losses from 0 to n - k, rising and falling; where n or k is out of range, the sets of 0 and 1.
fn lists(nodes: usize) -> impl Iterator<Item = (usize, Vec<usize>)> {
    (0..16).flat_map(move |data| {
        let most = Shape::new(nodes, data, 1).map_or(1, |shape| shape.nodes - shape.data);
        (0..1usize << (most + 1)).flat_map(move |set| {
            let rising: Vec<usize> = (0..=most).filter(|h| set >> h & 1 == 1).collect();
            let falling = rising.iter().rev().copied().collect();
            [(data, rising), (data, falling)]
        })
    })
}

fn nodes_line(nodes: usize) -> String {
    let (mut digest, mut counts) = (0, [0; 12]);
    for (data, losses) in lists(nodes) {
        let chosen = Shape::for_losses(nodes, data, &losses);
        counts[chosen.err().map_or(0, Refusal::number)] += 1;
        digest = mixed(digest, chosen.map_or_else(Refusal::number, |shape| 256 + shape.layers));
    }
    line(&[nodes as u64, digest, counts[0], counts[1], counts[2], counts[11]])
}

pub fn lines() -> String {
    (0..17).map(nodes_line).collect()
}
