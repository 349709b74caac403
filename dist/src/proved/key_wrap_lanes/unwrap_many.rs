// Written by generate/erase.py from crates/key_wrap_lanes/src/unwrap_many.rt, which has the contracts.

//! Unwrapping many texts of one length, step by step.

use crate::proved::key_wrap_lanes::lanes::{BLOCK, lane_steps, lanes_ok};
use crate::proved::key_wrap_lanes::stepping::step_lanes;
use crate::proved::key_wrap_core::{InPlaceFault, InitialValue, WORD, register_before};
use crate::proved::key_wrap_steps::{begin_unwrap, end_unwrap};

// The status of a lane whose key was found.
const DONE: u8 = 0;

// The status of a lane whose integrity check failed.
const INTEGRITY: u8 = 5;

/// Begins the plain unwrapping of each of many texts: `*left` is the number of steps, and each block
/// the first block to decrypt.
pub fn begin_unwrap_many(
    texts: &[u8],
    text_len: usize,
    left: &mut u64,
    blocks: &mut [u8],
) -> Result<(), InPlaceFault> {
    if !lanes_ok(text_len, texts.len(), blocks.len()) {
        return Err(InPlaceFault::BadLength);
    }
    *left = lane_steps(text_len);
    begin_lanes(texts, text_len, blocks);
    Ok(())
}

/// Undoes one step of each of many unwrappings, with its decrypted block. Subtracts 1 from `*left`,
/// and each block is the next block to decrypt. The first 8 bytes of each text stay as they are.
pub fn step_unwrap_many(
    texts: &mut [u8],
    text_len: usize,
    left: &mut u64,
    blocks: &mut [u8],
) -> Result<(), InPlaceFault> {
    if !lanes_ok(text_len, texts.len(), blocks.len())
        || *left == 0
        || *left > lane_steps(text_len)
    {
        return Err(InPlaceFault::BadLength);
    }
    *left -= 1;
    let n = (text_len / WORD - 1) as u32;
    let own = (*left as u32 % n) as usize;
    let next = register_before(own, n as usize);
    step_lanes(texts, text_len, *left, own, next, blocks);
    Ok(())
}

/// Ends many plain unwrappings under this initial value. The status of a text, one byte, is 0, and
/// its registers are the key, or 5, and they are zeros. The first 8 bytes of each text stay as they
/// are. The blocks are zeros.
pub fn end_unwrap_many(
    iv: &InitialValue,
    texts: &mut [u8],
    text_len: usize,
    left: u64,
    blocks: &mut [u8],
    statuses: &mut [u8],
) -> Result<(), InPlaceFault> {
    if !lanes_ok(text_len, texts.len(), blocks.len())
        || left != 0
        || statuses.len() != blocks.len() / BLOCK
    {
        return Err(InPlaceFault::BadLength);
    }
    end_lanes(iv, texts, text_len, blocks, statuses);
    blocks.fill(0);
    Ok(())
}

// The first block of each lane.
fn begin_lanes(texts: &[u8], text_len: usize, blocks: &mut [u8]) {
    for lane in 0..blocks.len() / BLOCK {
        let start = text_len * lane;
        let place = BLOCK * lane;
        let block = begin_lane(&texts[start..start + text_len]);
        blocks[place..place + BLOCK].copy_from_slice(&block);
    }
}

// The first block of a lane.
fn begin_lane(text: &[u8]) -> [u8; 16] {
    let mut first = [0; 8];
    first.copy_from_slice(&text[..WORD]);
    let (mut left, mut block) = (0, [0; 16]);
    let _ = begin_unwrap(&first, &text[WORD..], &mut left, &mut block);
    block
}

// Ends each lane.
fn end_lanes(
    iv: &InitialValue,
    texts: &mut [u8],
    text_len: usize,
    blocks: &[u8],
    statuses: &mut [u8],
) {
    for lane in 0..statuses.len() {
        let start = text_len * lane;
        let place = BLOCK * lane;
        end_lane(
            iv,
            &mut texts[start..start + text_len],
            &blocks[place..place + BLOCK],
            &mut statuses[lane..lane + 1],
        );
    }
}

// Ends one lane.
fn end_lane(iv: &InitialValue, text: &mut [u8], block: &[u8], status: &mut [u8]) {
    let mut last = [0; 16];
    last.copy_from_slice(block);
    let ended = end_unwrap(iv, &mut text[WORD..], 0, &mut last);
    status.copy_from_slice(&[lane_status(ended)]);
}

// The status of a lane.
fn lane_status(ended: Result<(), InPlaceFault>) -> u8 {
    match ended {
        Ok(()) => DONE,
        Err(_) => INTEGRITY,
    }
}
