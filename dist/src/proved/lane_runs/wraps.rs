// Written by generate/erase.py from crates/lane_runs/src/wraps.rt, which has the contracts.

//! Whole wrappings of many keys.

use crate::proved::lane_runs::LANES;
use crate::proved::lane_runs::steps::make_steps;
use crate::proved::block_lanes::{BLOCK, BlockLanes};
use crate::proved::key_wrap_core::{Form, InitialValue, WORD, step_count};
use crate::proved::key_wrap_lanes::{begin_wrap_many, end_wrap_many};
use crate::proved::key_wrap_steps::begin_wrap_padded;

/// Wraps the key of `key_len` bytes after the first 8 bytes of each of `count` texts, in this form
/// under the default initial value, into the whole text.
pub fn wrap_texts<B: BlockLanes>(
    pair: &B,
    form: Form,
    key_len: usize,
    texts: &mut [u8],
    text_len: usize,
    count: usize,
) {
    let mut blocks = [0; BLOCK * LANES];
    for batch in 0..count / LANES + 1 {
        let first = LANES * batch;
        let last = count.min(first + LANES);
        let lanes = &mut texts[text_len * first..text_len * last];
        wrap_batch(
            pair,
            form,
            key_len,
            lanes,
            text_len,
            &mut blocks[..BLOCK * (last - first)],
        );
    }
}

// Wraps the key in each text of a batch.
fn wrap_batch<B: BlockLanes>(
    pair: &B,
    form: Form,
    key_len: usize,
    texts: &mut [u8],
    text_len: usize,
    blocks: &mut [u8],
) {
    match form {
        Form::Plain => wrap_lanes(pair, &InitialValue::default(), texts, text_len, blocks),
        Form::Padded => wrap_padded_lanes(pair, key_len, texts, text_len, blocks),
    }
}

// Wraps the key after the first 8 bytes of each text, in the plain form under this initial value,
// into the whole text.
fn wrap_lanes<B: BlockLanes>(
    pair: &B,
    iv: &InitialValue,
    texts: &mut [u8],
    text_len: usize,
    blocks: &mut [u8],
) {
    let mut done = 0;
    let _begun = begin_wrap_many(iv, texts, text_len, &mut done, blocks);
    make_steps(pair, texts, text_len, blocks);
    let all = step_count(text_len - WORD);
    let _ended = end_wrap_many(texts, text_len, all, blocks);
}

// Wraps the key of `key_len` bytes after the first 8 bytes of each text, in the padded form, into
// the whole text.
fn wrap_padded_lanes<B: BlockLanes>(
    pair: &B,
    key_len: usize,
    texts: &mut [u8],
    text_len: usize,
    blocks: &mut [u8],
) {
    pad_lanes(key_len, texts, text_len, blocks);
    make_steps(pair, texts, text_len, blocks);
    let all = step_count(text_len - WORD);
    let _ended = end_wrap_many(texts, text_len, all, blocks);
}

// Pads each key, and begins its padded wrapping.
fn pad_lanes(key_len: usize, texts: &mut [u8], text_len: usize, blocks: &mut [u8]) {
    for lane in 0..blocks.len() / BLOCK {
        let start = text_len * lane;
        let place = BLOCK * lane;
        pad_lane(
            key_len,
            &mut texts[start..start + text_len],
            &mut blocks[place..place + BLOCK],
        );
    }
}

// Pads one key, and begins its padded wrapping.
fn pad_lane(key_len: usize, text: &mut [u8], block: &mut [u8]) {
    let (mut done, mut first) = (0, [0; 16]);
    let _begun = begin_wrap_padded(key_len, &mut text[WORD..], &mut done, &mut first);
    block.copy_from_slice(&first);
}
