//! The C call that opens stretches, as a safe function on slices. The package takes ranges, of which the numbers are
//! never odd and no end wraps: the tests hand in any numbers.

use hmsr::Shape;

extern "C" {
    fn hmsr_open_stretches(
        n: usize, k: usize, layers: usize, list: *const usize, list_len: usize, symbols: *const u16,
        symbols_len: usize, length: usize, stretches: *const usize, stretches_len: usize, bytes: *mut u8,
        bytes_len: usize, columns: *mut usize, columns_len: usize,
    ) -> usize;
}

/// What the call returns: a refusal's number, or 256 + k × the count of touched columns.
pub fn open_stretches(
    shape: Shape, list: &[usize], symbols: &[u16], length: usize, numbers: &[usize], bytes: &mut [u8],
    columns: &mut [usize],
) -> usize {
    // SAFETY: every pointer and the length behind it come from one slice, and the two that are written overlap no
    // other; the call keeps none and stays within them.
    unsafe {
        hmsr_open_stretches(
            shape.nodes,
            shape.data,
            shape.layers,
            list.as_ptr(),
            list.len(),
            symbols.as_ptr(),
            symbols.len(),
            length,
            numbers.as_ptr(),
            numbers.len(),
            bytes.as_mut_ptr(),
            bytes.len(),
            columns.as_mut_ptr(),
            columns.len(),
        )
    }
}
