// Written by generate/erase.py from crates/key_wrap_lanes/src/wrap_many.rt, which has the contracts.

//! Wrapping many keys of one length, step by step.

use crate::proved::key_wrap_lanes::lanes::{BLOCK, lane_steps, lanes_ok};
use crate::proved::key_wrap_lanes::stepping::step_lanes;
use crate::proved::key_wrap_core::{InPlaceFault, InitialValue, WORD, register_after};
use crate::proved::key_wrap_steps::begin_wrap;

/// Begins the plain wrapping of each of many keys under this initial value: `*done` is 0, and each
/// block the first block to encrypt. Each text contains its key after its first 8 bytes.
pub fn begin_wrap_many(
    iv: &InitialValue,
    texts: &[u8],
    text_len: usize,
    done: &mut u64,
    blocks: &mut [u8],
) -> Result<(), InPlaceFault> {
    if !lanes_ok(text_len, texts.len(), blocks.len()) {
        return Err(InPlaceFault::BadLength);
    }
    *done = 0;
    begin_lanes(iv, texts, text_len, blocks);
    Ok(())
}

/// Makes one step of each of many wrappings, with its encrypted block. Adds 1 to `*done`, and each
/// block is the next block to encrypt. The first 8 bytes of each text stay as they are.
pub fn step_wrap_many(
    texts: &mut [u8],
    text_len: usize,
    done: &mut u64,
    blocks: &mut [u8],
) -> Result<(), InPlaceFault> {
    if !lanes_ok(text_len, texts.len(), blocks.len()) || *done >= lane_steps(text_len) {
        return Err(InPlaceFault::BadLength);
    }
    // In 32 bits, which the processor divides in less time.
    let n = (text_len / WORD - 1) as u32;
    let own = (*done as u32 % n) as usize;
    *done += 1;
    let next = register_after(own, n as usize);
    step_lanes(texts, text_len, *done, own, next, blocks);
    Ok(())
}

/// Ends many wrappings, in either form: each text, with the first 8 bytes of its block before its
/// registers, is the wrapped key.
pub fn end_wrap_many(
    texts: &mut [u8],
    text_len: usize,
    done: u64,
    blocks: &[u8],
) -> Result<(), InPlaceFault> {
    if !lanes_ok(text_len, texts.len(), blocks.len()) || done != lane_steps(text_len) {
        return Err(InPlaceFault::BadLength);
    }
    write_firsts(texts, text_len, blocks);
    Ok(())
}

// The first block of each lane.
fn begin_lanes(iv: &InitialValue, texts: &[u8], text_len: usize, blocks: &mut [u8]) {
    for lane in 0..blocks.len() / BLOCK {
        let start = text_len * lane;
        let place = BLOCK * lane;
        let block = begin_lane(iv, &texts[start..start + text_len]);
        blocks[place..place + BLOCK].copy_from_slice(&block);
    }
}

// The first block of a lane.
fn begin_lane(iv: &InitialValue, text: &[u8]) -> [u8; 16] {
    let (mut done, mut block) = (0, [0; 16]);
    let _ = begin_wrap(iv, &text[WORD..], &mut done, &mut block);
    block
}

// The first bytes of each text.
fn write_firsts(texts: &mut [u8], text_len: usize, blocks: &[u8]) {
    for lane in 0..blocks.len() / BLOCK {
        let start = text_len * lane;
        let place = BLOCK * lane;
        write_first(
            &mut texts[start..start + text_len],
            &blocks[place..place + BLOCK],
        );
    }
}

// The first bytes of a text are the first bytes of its block.
fn write_first(text: &mut [u8], block: &[u8]) {
    text[..WORD].copy_from_slice(&block[..WORD]);
}
