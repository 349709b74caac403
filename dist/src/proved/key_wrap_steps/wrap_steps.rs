// Written by generate/erase.py from crates/key_wrap_steps/src/wrap_steps.rt, which has the contracts.

//! A wrapping step by step, for a block permutation that is not a value in memory: the AES of a
//! token, or of the processor.
//!
//! The caller holds the registers, which contain the key at first, the number of steps done, and a
//! block. It begins, and then encrypts the block and makes the next step, until all steps are done:
//! six for each 8 bytes of the key, or one for a padded key of up to 8 bytes. A block that was not
//! encrypted, or a number that the caller changed, cannot be noticed.

use crate::proved::key_wrap_core::{
    InPlaceFault, InitialValue, WORD, first_block, key_length_ok, padded_iv, padded_length_ok,
    registers_ok, step_count, step_registers, text_len,
};

/// Begins the plain wrapping of the key in the registers under this initial value (RFC 3394, section
/// 2.2.1): `done` becomes 0, and the block the first to encrypt.
///
/// `BadLength`, with everything as it was, if `key_length_ok` refuses the length of the registers.
pub fn begin_wrap(
    iv: &InitialValue,
    registers: &[u8],
    done: &mut u64,
    block: &mut [u8; 16],
) -> Result<(), InPlaceFault> {
    if !key_length_ok(registers.len()) {
        return Err(InPlaceFault::BadLength);
    }
    *done = 0;
    *block = first_block(iv.word(), registers);
    Ok(())
}

/// Begins the padded wrapping of the key of `m` bytes at the start of the registers (RFC 5649,
/// section 4.1): zero bytes fill the registers, `done` becomes 0, and the block the first to encrypt.
///
/// `BadLength`, with everything as it was, if `padded_length_ok` refuses `m`, or the registers are
/// not as long as `m` rounded up to a multiple of 8.
pub fn begin_wrap_padded(
    m: usize,
    registers: &mut [u8],
    done: &mut u64,
    block: &mut [u8; 16],
) -> Result<(), InPlaceFault> {
    if !padded_length_ok(m) || WORD + registers.len() != text_len(m) {
        return Err(InPlaceFault::BadLength);
    }
    *done = 0;
    registers[m..].fill(0);
    *block = first_block(padded_iv(m), registers);
    Ok(())
}

/// Makes one step more, with `done` steps done and the block encrypted since: `done` counts it, and
/// the block becomes the next to encrypt.
///
/// `BadLength`, with everything as it was, if the registers have no legal length or all their steps
/// are done.
pub fn step_wrap(
    registers: &mut [u8],
    done: &mut u64,
    block: &mut [u8; 16],
) -> Result<(), InPlaceFault> {
    if !registers_ok(registers.len()) || *done >= step_count(registers.len()) {
        return Err(InPlaceFault::BadLength);
    }
    *block = step_registers(registers, *done, *block);
    *done += 1;
    Ok(())
}

/// Ends a wrapping, in either form: with `first`, its first 8 bytes, before the registers it is the
/// wrapped key.
///
/// `BadLength`, with `first` as it was, if the registers have no legal length, or not all their
/// steps are done.
pub fn end_wrap(
    first: &mut [u8; 8],
    registers: &[u8],
    done: u64,
    block: &[u8; 16],
) -> Result<(), InPlaceFault> {
    if !registers_ok(registers.len()) || done != step_count(registers.len()) {
        return Err(InPlaceFault::BadLength);
    }
    first.copy_from_slice(&block[..WORD]);
    Ok(())
}
