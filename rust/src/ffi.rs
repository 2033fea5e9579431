//! The library's C calls, each as a safe function on slices: the only unsafe code of this package.
//!
//! Why each is safe: every pointer and the length behind it come from one slice, so it is valid for that many elements
//! for the whole call, aligned and not null (empty slices too); `&mut` slices overlap nothing else that is handed in;
//! and the functions are proved to read and write only within the buffers they are lent, on all numbers, and keep none.
use crate::{Header, Repair, Shape};

extern "C" {
    fn hmsr_write(
        n: usize, k: usize, layers: usize, transcript: *const u8, transcript_len: usize, nodes: *mut u16,
        nodes_len: usize,
    ) -> usize;
    fn hmsr_check(n: usize, k: usize, layers: usize, nodes: *const u16, nodes_len: usize) -> usize;
    fn hmsr_restore(
        n: usize, k: usize, layers: usize, list: *const usize, list_len: usize, symbols: *const u16,
        symbols_len: usize, nodes: *mut u16, nodes_len: usize,
    ) -> usize;
    fn hmsr_open(
        n: usize, k: usize, layers: usize, list: *const usize, list_len: usize, symbols: *const u16,
        symbols_len: usize, length: usize, transcript: *mut u8, transcript_len: usize,
    ) -> usize;
    fn hmsr_open_stretches(
        n: usize, k: usize, layers: usize, list: *const usize, list_len: usize, symbols: *const u16,
        symbols_len: usize, length: usize, stretches: *const usize, stretches_len: usize, bytes: *mut u8,
        bytes_len: usize, columns: *mut usize, columns_len: usize,
    ) -> usize;
    fn hmsr_correct(
        n: usize, k: usize, layers: usize, nodes: *mut u16, nodes_len: usize, length: usize, byte: usize, change: i64,
    ) -> usize;
    fn hmsr_helper_message(
        n: usize, k: usize, layers: usize, dead: *const usize, dead_len: usize, helpers: *const usize,
        helpers_len: usize, helper: usize, new_node: usize, symbols: *const u16, symbols_len: usize, message: *mut u16,
        message_len: usize,
    ) -> usize;
    fn hmsr_first_step(
        n: usize, k: usize, layers: usize, dead: *const usize, dead_len: usize, helpers: *const usize,
        helpers_len: usize, new_node: usize, messages: *const u16, messages_len: usize, pairs: *mut u16,
        pairs_len: usize, sums: *mut u16, sums_len: usize,
    ) -> usize;
    fn hmsr_hear(
        n: usize, k: usize, layers: usize, dead: *const usize, dead_len: usize, helpers: *const usize,
        helpers_len: usize, new_node: usize, helper: usize, message: *const u16, message_len: usize, sums: *mut u16,
        sums_len: usize, heard: *mut usize, heard_len: usize,
    ) -> usize;
    fn hmsr_finish(
        n: usize, k: usize, layers: usize, dead: *const usize, dead_len: usize, helpers: *const usize,
        helpers_len: usize, new_node: usize, sums: *const u16, sums_len: usize, heard: *const usize, heard_len: usize,
        pairs: *mut u16, pairs_len: usize, exchanges: *mut u16, exchanges_len: usize,
    ) -> usize;
    fn hmsr_second_step(
        n: usize, k: usize, layers: usize, dead: *const usize, dead_len: usize, helpers: *const usize,
        helpers_len: usize, new_node: usize, pairs: *const u16, pairs_len: usize, received: *const u16,
        received_len: usize, symbols: *mut u16, symbols_len: usize,
    ) -> usize;
    fn hmsr_repair(
        n: usize, k: usize, layers: usize, dead: *const usize, dead_len: usize, helpers: *const usize,
        helpers_len: usize, nodes: *mut u16, nodes_len: usize, wire: *mut u16, wire_len: usize,
    ) -> usize;
    fn hmsr_may_run(
        n: usize, k: usize, layers: usize, dead: *const usize, dead_len: usize, helpers: *const usize,
        helpers_len: usize, pairs: *const usize, pairs_len: usize,
    ) -> usize;
    fn hmsr_pack(
        n: usize, k: usize, layers: usize, node: usize, length: usize, hearing: usize, symbols: *const u16,
        symbols_len: usize, card: *mut u8, card_len: usize,
    ) -> usize;
    fn hmsr_unpack(
        card: *const u8, card_len: usize, symbols: *mut u16, symbols_len: usize, header: *mut usize, header_len: usize,
    ) -> usize;
    fn hmsr_plan(input: *const u8, input_len: usize, text: *mut u8, text_len: usize) -> usize;
    fn hmsr_layers(n: usize, k: usize, losses: *const usize, losses_len: usize) -> usize;
}

pub(crate) fn write(s: Shape, transcript: &[u8], nodes: &mut [u16]) -> usize {
    // SAFETY: see the top of this file.
    unsafe {
        hmsr_write(s.nodes, s.data, s.layers, transcript.as_ptr(), transcript.len(), nodes.as_mut_ptr(), nodes.len())
    }
}

pub(crate) fn check(s: Shape, nodes: &[u16]) -> usize {
    // SAFETY: see the top of this file.
    unsafe { hmsr_check(s.nodes, s.data, s.layers, nodes.as_ptr(), nodes.len()) }
}

pub(crate) fn restore(s: Shape, list: &[usize], symbols: &[u16], nodes: &mut [u16]) -> usize {
    // SAFETY: see the top of this file.
    unsafe {
        hmsr_restore(
            s.nodes,
            s.data,
            s.layers,
            list.as_ptr(),
            list.len(),
            symbols.as_ptr(),
            symbols.len(),
            nodes.as_mut_ptr(),
            nodes.len(),
        )
    }
}

pub(crate) fn open(s: Shape, list: &[usize], symbols: &[u16], length: usize, transcript: &mut [u8]) -> usize {
    // SAFETY: see the top of this file.
    unsafe {
        hmsr_open(
            s.nodes,
            s.data,
            s.layers,
            list.as_ptr(),
            list.len(),
            symbols.as_ptr(),
            symbols.len(),
            length,
            transcript.as_mut_ptr(),
            transcript.len(),
        )
    }
}

pub(crate) fn open_stretches(
    s: Shape, list: &[usize], symbols: &[u16], length: usize, stretches: &[usize], bytes: &mut [u8],
    columns: &mut [usize],
) -> usize {
    // SAFETY: see the top of this file.
    unsafe {
        hmsr_open_stretches(
            s.nodes,
            s.data,
            s.layers,
            list.as_ptr(),
            list.len(),
            symbols.as_ptr(),
            symbols.len(),
            length,
            stretches.as_ptr(),
            stretches.len(),
            bytes.as_mut_ptr(),
            bytes.len(),
            columns.as_mut_ptr(),
            columns.len(),
        )
    }
}

pub(crate) fn correct(s: Shape, nodes: &mut [u16], length: usize, byte: usize, change: i64) -> usize {
    // SAFETY: see the top of this file.
    unsafe { hmsr_correct(s.nodes, s.data, s.layers, nodes.as_mut_ptr(), nodes.len(), length, byte, change) }
}

pub(crate) fn helper_message(r: Repair, helper: usize, new_node: usize, symbols: &[u16], message: &mut [u16]) -> usize {
    // SAFETY: see the top of this file.
    unsafe {
        hmsr_helper_message(
            r.shape.nodes,
            r.shape.data,
            r.shape.layers,
            r.dead.as_ptr(),
            r.dead.len(),
            r.helpers.as_ptr(),
            r.helpers.len(),
            helper,
            new_node,
            symbols.as_ptr(),
            symbols.len(),
            message.as_mut_ptr(),
            message.len(),
        )
    }
}

pub(crate) fn first_step(r: Repair, new_node: usize, messages: &[u16], pairs: &mut [u16], sums: &mut [u16]) -> usize {
    // SAFETY: see the top of this file.
    unsafe {
        hmsr_first_step(
            r.shape.nodes,
            r.shape.data,
            r.shape.layers,
            r.dead.as_ptr(),
            r.dead.len(),
            r.helpers.as_ptr(),
            r.helpers.len(),
            new_node,
            messages.as_ptr(),
            messages.len(),
            pairs.as_mut_ptr(),
            pairs.len(),
            sums.as_mut_ptr(),
            sums.len(),
        )
    }
}

pub(crate) fn hear(
    r: Repair, new_node: usize, helper: usize, message: &[u16], sums: &mut [u16], heard: &mut [usize],
) -> usize {
    // SAFETY: see the top of this file.
    unsafe {
        hmsr_hear(
            r.shape.nodes,
            r.shape.data,
            r.shape.layers,
            r.dead.as_ptr(),
            r.dead.len(),
            r.helpers.as_ptr(),
            r.helpers.len(),
            new_node,
            helper,
            message.as_ptr(),
            message.len(),
            sums.as_mut_ptr(),
            sums.len(),
            heard.as_mut_ptr(),
            heard.len(),
        )
    }
}

pub(crate) fn finish(
    r: Repair, new_node: usize, sums: &[u16], heard: &[usize], pairs: &mut [u16], exchanges: &mut [u16],
) -> usize {
    // SAFETY: see the top of this file.
    unsafe {
        hmsr_finish(
            r.shape.nodes,
            r.shape.data,
            r.shape.layers,
            r.dead.as_ptr(),
            r.dead.len(),
            r.helpers.as_ptr(),
            r.helpers.len(),
            new_node,
            sums.as_ptr(),
            sums.len(),
            heard.as_ptr(),
            heard.len(),
            pairs.as_mut_ptr(),
            pairs.len(),
            exchanges.as_mut_ptr(),
            exchanges.len(),
        )
    }
}

pub(crate) fn second_step(r: Repair, new_node: usize, pairs: &[u16], received: &[u16], symbols: &mut [u16]) -> usize {
    // SAFETY: see the top of this file.
    unsafe {
        hmsr_second_step(
            r.shape.nodes,
            r.shape.data,
            r.shape.layers,
            r.dead.as_ptr(),
            r.dead.len(),
            r.helpers.as_ptr(),
            r.helpers.len(),
            new_node,
            pairs.as_ptr(),
            pairs.len(),
            received.as_ptr(),
            received.len(),
            symbols.as_mut_ptr(),
            symbols.len(),
        )
    }
}

pub(crate) fn repair(r: Repair, nodes: &mut [u16], wire: &mut [u16]) -> usize {
    // SAFETY: see the top of this file.
    unsafe {
        hmsr_repair(
            r.shape.nodes,
            r.shape.data,
            r.shape.layers,
            r.dead.as_ptr(),
            r.dead.len(),
            r.helpers.as_ptr(),
            r.helpers.len(),
            nodes.as_mut_ptr(),
            nodes.len(),
            wire.as_mut_ptr(),
            wire.len(),
        )
    }
}

pub(crate) fn may_run(r: Repair, pairs: &[usize]) -> usize {
    // SAFETY: see the top of this file.
    unsafe {
        hmsr_may_run(
            r.shape.nodes,
            r.shape.data,
            r.shape.layers,
            r.dead.as_ptr(),
            r.dead.len(),
            r.helpers.as_ptr(),
            r.helpers.len(),
            pairs.as_ptr(),
            pairs.len(),
        )
    }
}

pub(crate) fn pack(h: Header, symbols: &[u16], card: &mut [u8]) -> usize {
    // SAFETY: see the top of this file.
    unsafe {
        hmsr_pack(
            h.shape.nodes,
            h.shape.data,
            h.shape.layers,
            h.node,
            h.length,
            h.hearing,
            symbols.as_ptr(),
            symbols.len(),
            card.as_mut_ptr(),
            card.len(),
        )
    }
}

pub(crate) fn unpack(card: &[u8], symbols: &mut [u16], header: &mut [usize]) -> usize {
    // SAFETY: see the top of this file.
    unsafe {
        hmsr_unpack(card.as_ptr(), card.len(), symbols.as_mut_ptr(), symbols.len(), header.as_mut_ptr(), header.len())
    }
}

pub(crate) fn plan(input: &[u8], text: &mut [u8]) -> usize {
    // SAFETY: see the top of this file.
    unsafe { hmsr_plan(input.as_ptr(), input.len(), text.as_mut_ptr(), text.len()) }
}

pub(crate) fn layers(nodes: usize, data: usize, losses: &[usize]) -> usize {
    // SAFETY: see the top of this file.
    unsafe { hmsr_layers(nodes, data, losses.as_ptr(), losses.len()) }
}
