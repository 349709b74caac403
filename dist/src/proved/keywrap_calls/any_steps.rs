// Written by generate/erase.py from crates/keywrap_calls/src/any_steps.rt, which has the contracts.

//! The end of an unwrapping in either form, for an AES outside the library.

use crate::proved::keywrap_calls::any_form::flag_of;
use crate::proved::keywrap_calls::status::{BAD_LENGTH, DONE, INTEGRITY};
use crate::proved::key_wrap_core::{InPlaceFault, InitialValue};

/// Ends an unwrapping in either form: the first `*key_len` bytes of `registers` are the key, zeros come
/// after it, and `block` is all zeros; at `INTEGRITY` every byte of both is zero. `*padded` is 0 in
/// the plain form, under the default initial value, and 1 in the padded form. Both numbers are 0 at
/// each refusal.
pub fn end_unwrap_any(
    registers: &mut [u8],
    left: u64,
    block: &mut [u8; 16],
    padded: &mut u32,
    key_len: &mut usize,
) -> i32 {
    *padded = 0;
    *key_len = 0;
    match crate::proved::key_wrap_steps::end_unwrap_any(&InitialValue::default(), registers, left, block) {
        Ok(found) => {
            *key_len = found.len;
            *padded = flag_of(found.form);
            DONE
        }
        Err(InPlaceFault::BadLength) => BAD_LENGTH,
        Err(InPlaceFault::Integrity) => INTEGRITY,
    }
}
