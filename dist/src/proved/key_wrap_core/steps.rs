// Written by generate/erase.py from crates/key_wrap_core/src/steps.rt, which has the contracts.

//! One step of a wrapping, and one step undone, over the registers and the block. The caller
//! encrypts or decrypts the block between two steps, so the cipher may be outside the program.

use crate::proved::key_wrap_core::lengths::{MAX_KEY, WORD};
use crate::byteorder::{BigEndian, ByteOrder};

/// Whether a wrapping, in either form, can have registers of `len` bytes.
pub fn registers_ok(len: usize) -> bool {
    len % 8 == 0 && 8 <= len && len <= MAX_KEY
}

/// Returns the number of steps over registers of `len` bytes, each with one block call.
pub fn step_count(len: usize) -> u64 {
    if len == WORD {
        1
    } else {
        6 * (len / WORD) as u64
    }
}

/// The first block to encrypt: the initial value and the first register.
pub fn first_block(iv: u64, registers: &[u8]) -> [u8; 16] {
    word_and_register(iv, &registers[..WORD])
}

/// The first block to decrypt: C0, with the number of the last step, and the last register.
pub fn last_block(c0: u64, registers: &[u8]) -> [u8; 16] {
    let a = c0 ^ last_counter(registers.len());
    word_and_register(a, &registers[registers.len() - WORD..])
}

// The counter of the last step; the one step of one word has none.
fn last_counter(len: usize) -> u64 {
    if len == WORD {
        0
    } else {
        6 * (len / WORD) as u64
    }
}

/// The next block, with `done` steps done and the last block encrypted to this one. The block is passed
/// by value, and the functions are inlined, so that it stays in registers of the processor: read back
/// from memory, it would wait for the two stores of its halves.
#[inline(always)]
pub fn step_registers(registers: &mut [u8], done: u64, block: [u8; 16]) -> [u8; 16] {
    if registers.len() > WORD {
        return step_words(registers, done as usize, block);
    }
    registers.copy_from_slice(&block[WORD..]);
    block
}

// The second half of the block goes into its register, and the block of the next step comes out (RFC
// 3394, section 2.2.1).
#[inline(always)]
pub(crate) fn step_words(registers: &mut [u8], done: usize, block: [u8; 16]) -> [u8; 16] {
    let n = registers.len() / WORD;
    let a = BigEndian::read_u64(&block) ^ (done as u64 + 1);
    let place = WORD * (done % n);
    registers[place..place + WORD].copy_from_slice(&block[WORD..]);
    let next = WORD * register_after(done % n, n);
    word_and_register(a, &registers[next..next + WORD])
}

/// The next block, with `left + 1` steps left to undo and the last block decrypted to this one.
#[inline(always)]
pub fn unstep_registers(registers: &mut [u8], left: u64, block: [u8; 16]) -> [u8; 16] {
    if registers.len() > WORD {
        return unstep_words(registers, left as usize, block);
    }
    registers.copy_from_slice(&block[WORD..]);
    block
}

// The second half of the block goes into its register, and the block of the step before comes out
// (section 2.2.2).
#[inline(always)]
fn unstep_words(registers: &mut [u8], left: usize, block: [u8; 16]) -> [u8; 16] {
    let n = registers.len() / WORD;
    let a = BigEndian::read_u64(&block) ^ left as u64;
    let restored = WORD * (left % n);
    registers[restored..restored + WORD].copy_from_slice(&block[WORD..]);
    let next = WORD * register_before(left % n, n);
    word_and_register(a, &registers[next..next + WORD])
}

/// Returns the number of the register after this one of `n`, without a second division. Any number,
/// if there are not so many registers.
pub fn register_after(i: usize, n: usize) -> usize {
    let after = i.wrapping_add(1);
    if after == n { 0 } else { after }
}

/// Returns the number of the register before this one of `n`. Any number, if there are not so many
/// registers.
pub fn register_before(i: usize, n: usize) -> usize {
    if i == 0 { n.wrapping_sub(1) } else { i - 1 }
}

// The block A | R, written as two words, so that it stays in registers of the processor: copied there
// as bytes and read back, it would wait for the two stores.
fn word_and_register(a: u64, register: &[u8]) -> [u8; 16] {
    let mut block = [0; 16];
    BigEndian::write_u64(&mut block, a);
    BigEndian::write_u64(&mut block[WORD..], BigEndian::read_u64(register));
    block
}
