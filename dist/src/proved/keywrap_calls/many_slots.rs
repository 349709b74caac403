// Written by generate/erase.py from crates/keywrap_calls/src/many_slots.rt, which has the contracts.

//! Slots of one length behind each other in one buffer.

// The length of each of `count` slots in `len` bytes.
pub(crate) fn slot_len(len: usize, count: usize) -> Option<usize> {
    if count > 0 && len % count == 0 {
        Some(len / count)
    } else {
        None
    }
}

// The byte of a status.
pub(crate) fn status_byte(status: i32) -> u8 {
    status as u8
}
