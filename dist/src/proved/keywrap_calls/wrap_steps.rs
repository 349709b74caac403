// Written by generate/erase.py from crates/keywrap_calls/src/wrap_steps.rt, which has the contracts.

//! Wrapping step by step, for an AES outside the library.

use crate::proved::keywrap_calls::plain_with::iv_from_bytes;
use crate::proved::keywrap_calls::status::{BAD_IV, BAD_LENGTH, DONE};

/// Begins the plain wrapping of the key in `registers` under the initial value `iv` (RFC 3394,
/// section 2.2.1): `*done` is 0, and `block` the first block to encrypt.
pub fn begin_wrap(iv: &[u8], registers: &[u8], done: &mut u64, block: &mut [u8; 16]) -> i32 {
    let value = if let Some(value) = iv_from_bytes(iv) { value } else {
        return BAD_IV;
    };
    match crate::proved::key_wrap_steps::begin_wrap(&value, registers, done, block) {
        Ok(()) => DONE,
        Err(_) => BAD_LENGTH,
    }
}

/// Begins the padded wrapping of the first `key_len` bytes of `registers`, and pads them (RFC 5649,
/// section 4.1): `*done` is 0, and `block` the first block to encrypt.
pub fn begin_wrap_padded(
    key_len: usize,
    registers: &mut [u8],
    done: &mut u64,
    block: &mut [u8; 16],
) -> i32 {
    match crate::proved::key_wrap_steps::begin_wrap_padded(key_len, registers, done, block) {
        Ok(()) => DONE,
        Err(_) => BAD_LENGTH,
    }
}

/// Makes one step with the encrypted block. Adds 1 to `*done`, and `block` is the next block to
/// encrypt.
pub fn step_wrap(registers: &mut [u8], done: &mut u64, block: &mut [u8; 16]) -> i32 {
    match crate::proved::key_wrap_steps::step_wrap(registers, done, block) {
        Ok(()) => DONE,
        Err(_) => BAD_LENGTH,
    }
}

/// Ends a wrapping in either form: writes the first 8 bytes of the wrapped key into `first`. The
/// rest of it are the `registers`.
pub fn end_wrap(first: &mut [u8; 8], registers: &[u8], done: u64, block: &[u8; 16]) -> i32 {
    match crate::proved::key_wrap_steps::end_wrap(first, registers, done, block) {
        Ok(()) => DONE,
        Err(_) => BAD_LENGTH,
    }
}
