// Written by generate/erase.py from crates/lane_runs/src/ends.rt, which has the contracts.

//! The ends of unwrappings.

use crate::proved::block_lanes::BLOCK;
use crate::proved::key_wrap_core::{Form, InPlaceFault, InitialValue, WORD};
use crate::proved::key_wrap_steps::{end_unwrap, end_unwrap_padded};

// The status of a text whose key was found.
pub(crate) const DONE: u8 = 0;

// The status of a text that is no wrapped key.
pub(crate) const INTEGRITY: u8 = 5;

// Ends each unwrapping of a batch.
pub(crate) fn end_batch(
    form: Form,
    texts: &mut [u8],
    text_len: usize,
    blocks: &[u8],
    key_lens: &mut [usize],
    statuses: &mut [u8],
) {
    for lane in 0..statuses.len() {
        let start = text_len * lane;
        let place = BLOCK * lane;
        let (status, key_len) = end_lane(
            form,
            &mut texts[start..start + text_len],
            &blocks[place..place + BLOCK],
        );
        statuses[lane] = status;
        key_lens[lane] = key_len;
    }
}

// Ends one unwrapping. Returns its status and the length of its key.
fn end_lane(form: Form, text: &mut [u8], block: &[u8]) -> (u8, usize) {
    let mut last = [0; BLOCK];
    last.copy_from_slice(block);
    let ended = match form {
        Form::Plain => end_plain(text, &mut last),
        Form::Padded => end_padded(text, &mut last),
    };
    told(ended)
}

// The status of a result, and the length of its key.
fn told(ended: Result<usize, InPlaceFault>) -> (u8, usize) {
    match ended {
        Ok(len) => (DONE, len),
        Err(_) => (INTEGRITY, 0),
    }
}

// Ends a plain unwrapping.
fn end_plain(text: &mut [u8], block: &mut [u8; 16]) -> Result<usize, InPlaceFault> {
    clear_first(text);
    match end_unwrap(&InitialValue::default(), &mut text[WORD..], 0, block) {
        Ok(()) => Ok(text.len() - WORD),
        Err(fault) => Err(fault),
    }
}

// Ends a padded unwrapping.
fn end_padded(text: &mut [u8], block: &mut [u8; 16]) -> Result<usize, InPlaceFault> {
    clear_first(text);
    end_unwrap_padded(&mut text[WORD..], 0, block)
}

// The first word of a text becomes zeros.
fn clear_first(text: &mut [u8]) {
    text[..WORD].fill(0);
}
