//! The transfer plan of a repair, as text.
use crate::ffi;
use crate::refusal::found;
use crate::{Refusal, Repair, Shape};

/// The bytes that a text buffer has at least.
pub const PLAN_TEXT: usize = 2049;

/// Puts the plan for an input into a text buffer of at least [`PLAN_TEXT`] bytes, and gives the text's length; the
/// bytes behind it are as they were. An input that is refused has a plan too: one line with the refusal's number.
///
/// The input is nodes, data nodes, layers, h, the dead nodes and the helpers, each in the seven-bit form of cards.
///
/// # Errors
/// [`Refusal::WrongLength`] where the text buffer is shorter; nothing is put there.
pub fn plan(input: &[u8], text: &mut [u8]) -> Result<usize, Refusal> {
    found(ffi::plan(input, text))
}

/// The plan for an input.
///
/// ```
/// let text = hmsr::plan_text(&[4, 1, 3, 2, 0, 1, 2, 3]);
/// assert_eq!(text, b"4 1 3 2\n2 0 16\n3 0 16\n2 1 16\n3 1 16\n1 0 16\n0 1 16\n96\n");
/// assert_eq!(hmsr::plan_text(&[4]), b"6\n");
/// ```
#[must_use]
pub fn plan_text(input: &[u8]) -> Vec<u8> {
    let mut text = vec![0; PLAN_TEXT];
    let length = plan(input, &mut text).expect("the buffer has the bytes that a plan needs");
    text.truncate(length);
    text
}

impl Repair<'_> {
    /// The input of the repair's plan.
    ///
    /// ```
    /// use hmsr::{Repair, Shape};
    /// let repair = Repair { shape: Shape { nodes: 4, data: 1, layers: 3 }, dead: &[0, 1], helpers: &[2, 3] };
    /// assert_eq!(repair.plan_input(), [4, 1, 3, 2, 0, 1, 2, 3]);
    /// ```
    #[must_use]
    pub fn plan_input(&self) -> Vec<u8> {
        let Shape { nodes, data, layers } = self.shape;
        let front = [nodes, data, layers, self.dead.len()];
        let mut input = Vec::new();
        for &number in front.iter().chain(self.dead).chain(self.helpers) {
            put_number(number, &mut input);
        }
        input
    }
}

/// A number in groups of seven bits, least first; every byte but the last has 128 added.
fn put_number(mut number: usize, bytes: &mut Vec<u8>) {
    while number > 127 {
        bytes.push((number % 128) as u8 + 128);
        number /= 128;
    }
    bytes.push(number as u8);
}
