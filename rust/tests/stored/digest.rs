//! What the stored cases share: the generator of numbers and symbols, the digests, the tally of answers, the lines.

use hmsr::Refusal;
use std::iter::successors;

/// The next number of a linear congruential generator.
pub fn next(seed: u64) -> u64 {
    (seed * 17364 + 11) % 65521
}

/// The numbers behind a seed.
pub fn numbers(seed: u64) -> impl Iterator<Item = u64> {
    successors(Some(next(seed)), |&number| Some(next(number)))
}

/// The next number behind a seed, which it replaces.
pub fn drawn(seed: &mut u64) -> usize {
    *seed = next(*seed);
    *seed as usize
}

/// A number of two.
pub fn far_drawn(seed: &mut u64) -> usize {
    drawn(seed) * 65521 + drawn(seed)
}

/// A symbol: of seven numbers, `often` give the largest symbols, 256 downwards.
fn symbol(often: u64, number: u64) -> u16 {
    let symbol = if number % 7 < often { 256 - number % 7 } else { number % 257 };
    symbol as u16
}

pub fn random_symbols(often: u64, seed: u64, count: usize) -> Vec<u16> {
    numbers(seed).map(|number| symbol(often, number)).take(count).collect()
}

/// 0, or the number of the cause.
pub fn number(answer: Result<(), Refusal>) -> usize {
    answer.err().map_or(0, Refusal::number)
}

/// A digest with a number added to it.
pub fn mixed(digest: u64, number: usize) -> u64 {
    (digest * 31 + number as u64 + 1) % 1_000_003
}

/// A digest with symbols or bytes added to it.
pub fn mixed_all<T: Copy + Into<usize>>(digest: u64, elements: &[T]) -> u64 {
    elements.iter().fold(digest, |digest, &element| mixed(digest, element.into()))
}

/// A line of numbers, each with a space behind it.
pub fn line(numbers: &[u64]) -> String {
    let mut line: String = numbers.iter().map(|number| format!("{number} ")).collect();
    line.push('\n');
    line
}

/// The prime and the base of a tally's digest, a polynomial.
const PRIME: u64 = 4_294_967_291;
const BASE: u64 = 1_000_003;

/// A digest, and how often each number was answered, 0 to 8.
#[derive(Default)]
pub struct Tally {
    digest: u64,
    counts: [usize; 9],
}

impl Tally {
    pub fn take(&mut self, number: usize) {
        self.digest = (self.digest * BASE + number as u64) % PRIME;
    }

    pub fn take_all<T: Copy + Into<usize>>(&mut self, elements: &[T]) {
        for &element in elements {
            self.take(element.into());
        }
    }

    /// One more answer of a number.
    pub fn count(&mut self, number: usize) {
        self.counts[number] += 1;
        self.take(number);
    }

    pub fn line(&self, name: &str) -> String {
        let counts: String = self.counts.iter().map(|count| format!(" {count}")).collect();
        format!("{name} {}{counts}\n", self.digest)
    }
}

/// The line of a group of cases, which are tried by their index.
pub fn group_line(name: &str, cases: usize, attempt: impl Fn(&mut Tally, usize)) -> String {
    let mut tally = Tally::default();
    for index in 0..cases {
        attempt(&mut tally, index);
    }
    tally.line(name)
}
