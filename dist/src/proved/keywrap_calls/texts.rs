// Written by generate/erase.py from crates/keywrap_calls/src/texts.rt, which has the contracts.

//! The texts of statuses.

use crate::proved::keywrap_calls::status::{BAD_IV, BAD_KEK, BAD_LENGTH, DONE, INTEGRITY, KEY_NOT_PLAIN, NO_MEMORY};

/// Writes the text of `status` into `text`, cut to fit, and a zero byte after it. Writes nothing if
/// `text` is empty. Returns the length of the whole text without the zero: if it is not less than
/// the buffer's length, the text was cut.
pub fn status_text(status: i32, text: &mut [u8]) -> usize {
    let words = words_of(status);
    if let Some(room) = text.len().checked_sub(1) {
        let cut = room.min(words.len());
        text[..cut].copy_from_slice(&words[..cut]);
        text[cut] = 0;
    }
    words.len()
}

// The text of a status.
fn words_of(status: i32) -> &'static [u8] {
    match status {
        DONE => b"done",
        BAD_IV => b"initial value is not 8 bytes, or is reserved for the padded form",
        BAD_KEK => b"key length is not 16, 24 or 32 bytes",
        BAD_LENGTH => b"bad length",
        INTEGRITY => b"integrity check failed",
        NO_MEMORY => b"out of memory",
        KEY_NOT_PLAIN => b"no plain key has the length of the key",
        _ => b"unknown status",
    }
}
