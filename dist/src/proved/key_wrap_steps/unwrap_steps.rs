// Written by generate/erase.py from crates/key_wrap_steps/src/unwrap_steps.rt, which has the contracts.

//! An unwrapping step by step, for a block permutation that is not a value in memory: the AES of a
//! token, or of the processor.
//!
//! The caller holds the registers, which are the wrapped key after its first 8 bytes, the number of
//! steps left, and a block. It begins, and then decrypts the block and undoes a step, until none is
//! left. A block that was not decrypted, or a number that the caller changed, cannot be noticed, and
//! an unwrapping that is not ended leaves key material in the registers and the block.

use crate::byteorder::{BigEndian, ByteOrder};
use crate::proved::key_wrap_core::{FoundKey, InPlaceFault, InitialValue, end_any, end_padded, end_plain, key_length_ok, last_block, registers_ok, step_count, unstep_registers};

/// Begins the plain unwrapping of the text of which `first` has the first 8 bytes and the registers
/// the rest (RFC 3394, section 2.2.2): `left` becomes the number of steps, and the block the first
/// to decrypt.
///
/// `BadLength`, with everything as it was, if `text_length_ok` refuses the length of the text.
pub fn begin_unwrap(
    first: &[u8; 8],
    registers: &[u8],
    left: &mut u64,
    block: &mut [u8; 16],
) -> Result<(), InPlaceFault> {
    if !key_length_ok(registers.len()) {
        return Err(InPlaceFault::BadLength);
    }
    begin_last(first, registers, left, block);
    Ok(())
}

/// As `begin_unwrap`, for the padded form (RFC 5649, section 4.2).
///
/// `BadLength`, with everything as it was, if `padded_text_length_ok` refuses the length of the text.
pub fn begin_unwrap_padded(
    first: &[u8; 8],
    registers: &[u8],
    left: &mut u64,
    block: &mut [u8; 16],
) -> Result<(), InPlaceFault> {
    if !registers_ok(registers.len()) {
        return Err(InPlaceFault::BadLength);
    }
    begin_last(first, registers, left, block);
    Ok(())
}

// The number of the steps, and the block of the last one.
fn begin_last(first: &[u8; 8], registers: &[u8], left: &mut u64, block: &mut [u8; 16]) {
    *left = step_count(registers.len());
    *block = last_block(BigEndian::read_u64(first), registers);
}

/// Undoes one step more, with the block decrypted since the last: `left` counts down, and the block
/// becomes the next to decrypt.
///
/// `BadLength`, with everything as it was, if the registers have no legal length, no step is left, or
/// more than there are.
pub fn step_unwrap(
    registers: &mut [u8],
    left: &mut u64,
    block: &mut [u8; 16],
) -> Result<(), InPlaceFault> {
    if !registers_ok(registers.len()) || *left == 0 || *left > step_count(registers.len()) {
        return Err(InPlaceFault::BadLength);
    }
    *left -= 1;
    *block = unstep_registers(registers, *left, *block);
    Ok(())
}

/// Ends a plain unwrapping: the registers hold the key whose wrapping under this initial value the
/// text is. The block becomes zeros.
///
/// `BadLength`, with everything as it was, if the registers have no legal length, or a step is left;
/// `Integrity` if the text is not a valid plain wrapping, and then every byte of the registers is zero.
pub fn end_unwrap(
    iv: &InitialValue,
    registers: &mut [u8],
    left: u64,
    block: &mut [u8; 16],
) -> Result<(), InPlaceFault> {
    if !key_length_ok(registers.len()) || left != 0 {
        return Err(InPlaceFault::BadLength);
    }
    let found = take_value(block);
    end_plain(found, iv.word(), registers)
}

/// Ends a padded unwrapping: the registers hold the key and zero bytes to the end. Returns the length of
/// the key. The block becomes zeros.
///
/// `BadLength`, with everything as it was, if the registers have no legal length, or a step is left;
/// `Integrity` if the text is not a valid padded wrapping, and then every byte of the registers is zero.
pub fn end_unwrap_padded(
    registers: &mut [u8],
    left: u64,
    block: &mut [u8; 16],
) -> Result<usize, InPlaceFault> {
    if !registers_ok(registers.len()) || left != 0 {
        return Err(InPlaceFault::BadLength);
    }
    let found = take_value(block);
    end_padded(found, registers)
}

/// Ends an unwrapping in either form, the plain one under this initial value: the registers hold the key
/// and zero bytes to the end. Returns the form of the text and the length of the key. The block becomes
/// zeros.
///
/// `BadLength`, with everything as it was, if the registers have no legal length, or a step is left;
/// `Integrity` if the text is not a valid wrapped key in either form, and then every byte of the registers
/// is zero.
pub fn end_unwrap_any(
    iv: &InitialValue,
    registers: &mut [u8],
    left: u64,
    block: &mut [u8; 16],
) -> Result<FoundKey, InPlaceFault> {
    if !registers_ok(registers.len()) || left != 0 {
        return Err(InPlaceFault::BadLength);
    }
    let found = take_value(block);
    end_any(found, iv.word(), registers)
}

// The initial value that the steps led back to; the block becomes zeros.
fn take_value(block: &mut [u8; 16]) -> u64 {
    let found = BigEndian::read_u64(&block[..]);
    block.fill(0);
    found
}
