//! Buffers lent to the library, and what has to stand in and around them afterwards.

use super::random::Random;
use std::fmt::Debug;

/// Elements on both sides of a lent slice, which no call may touch.
const MARGIN: usize = 8;

/// A lent buffer, and what was in and around it before.
pub struct Lent<T> {
    before: Vec<T>,
    now: Vec<T>,
}

impl Lent<u16> {
    /// Holds garbage, up to 65535.
    pub fn symbols(random: &mut Random, length: usize) -> Self {
        Lent::new(random.garbage(length + 2 * MARGIN))
    }
}

impl Lent<u8> {
    pub fn bytes(random: &mut Random, length: usize) -> Self {
        Lent::new(random.bytes(length + 2 * MARGIN))
    }
}

impl Lent<usize> {
    pub fn numbers(length: usize) -> Self {
        Lent::new(vec![4711; length + 2 * MARGIN])
    }
}

impl<T: Copy + PartialEq + Debug + From<u16>> Lent<T> {
    /// Holds these symbols or numbers, with garbage around.
    pub fn around(elements: &[T]) -> Self {
        Lent::new([&[T::from(65535); MARGIN], elements, &[T::from(4711); MARGIN]].concat())
    }
}

impl<T: Copy + PartialEq + Debug> Lent<T> {
    fn new(now: Vec<T>) -> Self {
        Lent { before: now.clone(), now }
    }

    pub fn slice(&mut self) -> &mut [T] {
        let end = self.now.len() - MARGIN;
        &mut self.now[MARGIN..end]
    }

    /// What the call made stands at the front of the slice (nothing where it turned back), and all else is as it was.
    pub fn assert_holds(mut self, made: &[T]) {
        self.before[MARGIN..MARGIN + made.len()].copy_from_slice(made);
        let difference = (0..self.now.len()).find(|&index| self.now[index] != self.before[index]);
        if let Some(index) = difference {
            let (now, expected) = (self.now[index], self.before[index]);
            panic!("at {} of the buffer: {now:?}, expected {expected:?}", index as isize - MARGIN as isize);
        }
    }
}
