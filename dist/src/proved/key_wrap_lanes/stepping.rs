// Written by generate/erase.py from crates/key_wrap_lanes/src/stepping.rt, which has the contracts.

//! One step of each lane, made or undone.

use crate::proved::key_wrap_lanes::lanes::BLOCK;
use crate::byteorder::{BigEndian, ByteOrder};
use crate::proved::key_wrap_core::WORD;

// Makes or undoes a step of each lane, with the counter and the numbers of the two registers that all
// lanes share.
pub(crate) fn step_lanes(
    texts: &mut [u8],
    text_len: usize,
    counter: u64,
    own: usize,
    next: usize,
    blocks: &mut [u8],
) {
    for lane in 0..blocks.len() / BLOCK {
        let start = text_len * lane;
        let place = BLOCK * lane;
        step_lane(
            &mut texts[start..start + text_len],
            counter,
            own,
            next,
            &mut blocks[place..place + BLOCK],
        );
    }
}

// Makes or undoes a step of one lane.
#[inline(always)]
fn step_lane(text: &mut [u8], counter: u64, own: usize, next: usize, block: &mut [u8]) {
    step_lane_registers(&mut text[WORD..], counter, own, next, block);
}

// Makes or undoes a step of these registers. Words are read before they are written: of a copy from
// one slice to another the compiler tests whether the two overlap.
#[inline(always)]
fn step_lane_registers(
    registers: &mut [u8],
    counter: u64,
    own: usize,
    next: usize,
    block: &mut [u8],
) {
    let a = BigEndian::read_u64(block) ^ counter;
    let half = BigEndian::read_u64(&block[WORD..]);
    let place = WORD * own;
    BigEndian::write_u64(&mut registers[place..place + WORD], half);
    let after = WORD * next;
    let register = BigEndian::read_u64(&registers[after..after + WORD]);
    BigEndian::write_u64(block, a);
    BigEndian::write_u64(&mut block[WORD..], register);
}
