//! Orders of transfers (document 02 §12): for each n a digest of the answers, and how many were 0, 1, 2, 3, 4 and 13.

use super::digest::{line, mixed, number, numbers};
use super::trial::{nodes_of, Role, Trial};
use hmsr::{plan_text, Repair, Shape};

/// How a case's list or repair is changed, by the numbers from 0 on; and the cases of each kind.
const KINDS: usize = 13;
const ROUNDS: usize = 4;

/// A sender and a receiver.
type Transfer = [usize; 2];

/// What the call is given, but for the list.
struct Lists {
    shape: Shape,
    dead: Vec<usize>,
    helpers: Vec<usize>,
}

impl Lists {
    /// The nodes' roles are random; the layers are a multiple of s.
    fn new(nodes: usize, data: usize, dead: usize, seed: u64) -> Self {
        let s = Shape { nodes, data, layers: 1 }.batch_layers(dead).unwrap();
        let trial = Trial::new(nodes, data, dead, s * (1 + seed as usize % (15 / s)), false);
        let roles = trial.random_roles(seed);
        Lists { shape: trial.shape, dead: nodes_of(&roles, Role::Dead), helpers: nodes_of(&roles, Role::Helping) }
    }

    fn repair(&self) -> Repair<'_> {
        Repair { shape: self.shape, dead: &self.dead, helpers: &self.helpers }
    }

    /// The transfers that the plan prints: the lines of three numbers.
    fn plan(&self) -> Vec<Transfer> {
        let text = String::from_utf8(plan_text(&self.repair().plan_input())).unwrap();
        let words = text.lines().map(|line| line.split(' ').map(|word| word.parse().unwrap()).collect());
        words.filter(|words: &Vec<usize>| words.len() == 3).map(|words| [words[0], words[1]]).collect()
    }

    /// The plan's transfers by their keys, one of which stands for each. Where exchanges wait, theirs is at least that of
    /// each helper's message to their sender, which comes first where the keys are equal.
    fn by_keys(&self, plan: &[Transfer], keys: &[usize], exchanges_wait: bool) -> Vec<Transfer> {
        let helps = |node| self.helpers.contains(&node);
        let key = |at: usize| {
            let tells = |other: &usize| helps(plan[*other][0]) && plan[*other][1] == plan[at][0];
            let told = (0..plan.len()).filter(|other| exchanges_wait && tells(other)).map(|other| keys[other]).max();
            keys[at].max(told.unwrap_or(0))
        };
        let mut order: Vec<usize> = (0..plan.len()).collect();
        order.sort_by_cached_key(|&at| key(at));
        order.into_iter().map(|at| plan[at]).collect()
    }

    /// Kinds 9 to 12 have other layers, another node in one of the lists, or a shape that is none.
    fn change(&mut self, kind: usize, [x, y, _]: [usize; 3]) {
        let (shape, dead_count, helper_count) = (&mut self.shape, self.dead.len(), self.helpers.len());
        match (kind, x % 6) {
            (9, _) => shape.layers = 1 + x % 15,
            (10, _) => self.dead[x % dead_count] = y % (shape.nodes + 1),
            (11, _) => self.helpers[x % helper_count] = y % (shape.nodes + 1),
            (12, 0) => shape.nodes = 2,
            (12, 1) => shape.nodes = 15,
            (12, 2) => shape.data = 0,
            (12, 3) => shape.data = shape.nodes - 1,
            (12, 4) => shape.layers = 0,
            (12, _) => shape.layers = 16,
            _ => {}
        }
    }
}

/// Kinds 2 to 5 have two transfers swapped, one left out, one put in once more, one in place of another.
fn changed_list(mut list: Vec<Transfer>, kind: usize, [x, y, _]: [usize; 3]) -> Vec<Transfer> {
    let (at, other) = (x % list.len(), y % list.len());
    match kind {
        2 => list.swap(at, other),
        3 => drop(list.remove(at)),
        4 => list.insert(other, list[at]),
        5 => list[at] = list[other],
        _ => {}
    }
    list
}

/// Kinds 6 to 8 have another number in place of one, the last number left out, a number put in.
fn changed_numbers(mut numbers: Vec<usize>, nodes: usize, kind: usize, [x, y, z]: [usize; 3]) -> Vec<usize> {
    let at = x % numbers.len();
    match kind {
        6 => {
            let like = [8, 32, 63].map(|bit| numbers[at] + (1 << bit));
            numbers[at] = [y % (nodes + 2), like[0], like[1], like[2], usize::MAX][z % 5];
        }
        7 => drop(numbers.pop()),
        8 => numbers.insert(at, y % nodes),
        _ => {}
    }
    numbers
}

/// The answer of a case. Kind 0 has an order that may run, and kind 1 any.
fn answer(mut lists: Lists, kind: usize, seed: u64) -> usize {
    let nodes = lists.shape.nodes;
    // The roles took a number for each node.
    let mut drawn = numbers(seed).skip(nodes).map(|number| number as usize);
    let plan = lists.plan();
    let keys: Vec<usize> = drawn.by_ref().take(plan.len()).collect();
    let drawn = [0; 3].map(|_| drawn.next().unwrap());
    let list = changed_list(lists.by_keys(&plan, &keys, kind != 1), kind, drawn);
    let numbers = changed_numbers(list.concat(), nodes, kind, drawn);
    lists.change(kind, drawn);
    number(lists.repair().may_run(&numbers))
}

/// Each k and h, each kind so often; the cases are numbered from the seed on.
fn nodes_line(nodes: usize, seed: &mut u64) -> String {
    let (mut digest, mut counts) = (0, [0; 14]);
    let sizes = (1..=nodes - 2).flat_map(|data| (1..nodes - data).map(move |dead| (data, dead)));
    for ((data, dead), case) in sizes.flat_map(|size| (0..KINDS * ROUNDS).map(move |case| (size, case))) {
        *seed += 1;
        let answer = answer(Lists::new(nodes, data, dead, *seed), case % KINDS, *seed);
        counts[answer] += 1;
        digest = mixed(digest, answer);
    }
    line(&[nodes as u64, digest, counts[0], counts[1], counts[2], counts[3], counts[4], counts[13]])
}

pub fn lines() -> String {
    let mut seed = 0;
    (3..=14).map(|nodes| nodes_line(nodes, &mut seed)).collect()
}
