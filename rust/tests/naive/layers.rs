//! The smallest number of layers for a list of losses (document 02 §6).

use super::judge::{judge_dead_count, judge_layers, judge_shape, Number, Shape};

/// "From n, k and a list of values of h, return the smallest L from 1 to 15 that serves each value in the list .. A
/// value outside 1 to n−k−1 is 2 .. 11, no L up to 15 serves them all (2 and 6 need 21), judged after 2."
pub fn layers(n: usize, k: usize, losses: &[usize]) -> Result<usize, Number> {
    let with = |layers| Shape { n, k, layers };
    // n and k alone are judged: any layers within their range do.
    judge_shape(with(1))?;
    losses.iter().try_for_each(|&h| judge_dead_count(with(1), h))?;
    // "An archive written with that L shall be accepted for layers by repair for each value."
    let serves_each = |layers: &usize| losses.iter().all(|&h| judge_layers(with(*layers), h).is_ok());
    (1..=15).find(serves_each).ok_or(11)
}
