//! Forms of numbers, good and bad, that take the place of bytes in a card or in the plan's input.

/// Bytes that start, continue and end numbers.
const BYTES: [u8; 6] = [0, 1, 3, 128, 129, 255];

/// The byte for a digit of a code to the base 6, least first.
pub fn coded_byte(code: usize, place: u32) -> u8 {
    BYTES[code / 6usize.pow(place) % 6]
}

/// The first so many bytes of a code.
pub fn coded(count: usize, code: usize) -> Vec<u8> {
    (0..count as u32).map(|place| coded_byte(code, place)).collect()
}

/// The sample with a form in place of byte `at`, or behind it where it has no such byte.
pub fn with_form(sample: &[u8], at: usize, form: &[u8]) -> Vec<u8> {
    let behind = sample.get(at + 1..).unwrap_or(&[]);
    [&sample[..at], form, behind].concat()
}
