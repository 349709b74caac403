// Written by generate/erase.py from crates/keywrap_calls/src/unwrap_steps.rt, which has the contracts.

//! Unwrapping step by step, for an AES outside the library.

use crate::proved::keywrap_calls::plain_with::iv_from_bytes;
use crate::proved::keywrap_calls::status::{BAD_IV, BAD_LENGTH, DONE, INTEGRITY};
use crate::proved::key_wrap_core::InPlaceFault;

/// Begins the plain unwrapping of the wrapped key of which `first` has the first 8 bytes and
/// `registers` the rest (RFC 3394, section 2.2.2): `*left` is the number of steps, and `block` the
/// first block to decrypt.
pub fn begin_unwrap(first: &[u8; 8], registers: &[u8], left: &mut u64, block: &mut [u8; 16]) -> i32 {
    match crate::proved::key_wrap_steps::begin_unwrap(first, registers, left, block) {
        Ok(()) => DONE,
        Err(_) => BAD_LENGTH,
    }
}

/// Does what `begin_unwrap` does, in the padded form (RFC 5649, section 4.2).
pub fn begin_unwrap_padded(
    first: &[u8; 8],
    registers: &[u8],
    left: &mut u64,
    block: &mut [u8; 16],
) -> i32 {
    match crate::proved::key_wrap_steps::begin_unwrap_padded(first, registers, left, block) {
        Ok(()) => DONE,
        Err(_) => BAD_LENGTH,
    }
}

/// Undoes one step with the decrypted block. Subtracts 1 from `*left`, and `block` is the next
/// block to decrypt.
pub fn step_unwrap(registers: &mut [u8], left: &mut u64, block: &mut [u8; 16]) -> i32 {
    match crate::proved::key_wrap_steps::step_unwrap(registers, left, block) {
        Ok(()) => DONE,
        Err(_) => BAD_LENGTH,
    }
}

/// Ends a plain unwrapping: `registers` are the key that was wrapped under the initial value `iv`,
/// and `block` is all zeros; at `INTEGRITY` every byte of both is zero.
pub fn end_unwrap(iv: &[u8], registers: &mut [u8], left: u64, block: &mut [u8; 16]) -> i32 {
    let value = if let Some(value) = iv_from_bytes(iv) { value } else {
        return BAD_IV;
    };
    match crate::proved::key_wrap_steps::end_unwrap(&value, registers, left, block) {
        Ok(()) => DONE,
        Err(InPlaceFault::BadLength) => BAD_LENGTH,
        Err(InPlaceFault::Integrity) => INTEGRITY,
    }
}

/// Ends a padded unwrapping: the first `*key_len` bytes of `registers` are the key, zeros come
/// after it, and `block` is all zeros; at `INTEGRITY` every byte of both is zero. `*key_len` is 0
/// at each refusal.
pub fn end_unwrap_padded(
    registers: &mut [u8],
    left: u64,
    block: &mut [u8; 16],
    key_len: &mut usize,
) -> i32 {
    *key_len = 0;
    match crate::proved::key_wrap_steps::end_unwrap_padded(registers, left, block) {
        Ok(m) => {
            *key_len = m;
            DONE
        }
        Err(InPlaceFault::BadLength) => BAD_LENGTH,
        Err(InPlaceFault::Integrity) => INTEGRITY,
    }
}
