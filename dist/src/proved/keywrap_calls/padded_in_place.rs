// Written by generate/erase.py from crates/keywrap_calls/src/padded_in_place.rt, which has the contracts.

//! The padded form in one buffer of the wrapped key's length: the key follows the first 8 bytes.

use crate::proved::keywrap_calls::keks::aes_of;
use crate::proved::keywrap_calls::status::{BAD_KEK, DONE, fault_status, status_of};
use crate::proved::block_pair::{BlockPair, Meter};
use crate::proved::fips197::KeyInit;

/// Wraps the key of `key_len` bytes after the first 8 bytes of `buffer` under `kek` in the padded
/// form, into the whole buffer (RFC 5649, section 4.1). Other bytes of the buffer are ignored.
pub fn wrap_padded_in_place<A: KeyInit>(
    schedule: A::Schedule,
    kek: &[u8],
    buffer: &mut [u8],
    key_len: usize,
) -> i32 {
    let aes = if let Some(aes) = aes_of::<A>(kek, schedule) { aes } else {
        return BAD_KEK;
    };
    wrap_padded_under(&aes, buffer, key_len)
}

// The call under AES that is made.
#[inline(always)]
pub(crate) fn wrap_padded_under<B: BlockPair>(pair: &B, buffer: &mut [u8], key_len: usize) -> i32 {
    status_of(crate::proved::key_wrap_core::wrap_padded_in_place(&mut Meter::new(pair), buffer, key_len))
}

/// Unwraps the padded wrapping in `buffer`, which becomes 8 zero bytes, its key under `kek`, of
/// `*key_len` bytes, and zero bytes to the end (RFC 5649, section 4.2). At `INTEGRITY` every byte
/// of the buffer is zero. `*key_len` is 0 at each refusal.
pub fn unwrap_padded_in_place<A: KeyInit>(
    schedule: A::Schedule,
    kek: &[u8],
    buffer: &mut [u8],
    key_len: &mut usize,
) -> i32 {
    *key_len = 0;
    let aes = if let Some(aes) = aes_of::<A>(kek, schedule) { aes } else {
        return BAD_KEK;
    };
    unwrap_padded_under(&aes, buffer, key_len)
}

// The call under AES that is made.
#[inline(always)]
pub(crate) fn unwrap_padded_under<B: BlockPair>(
    pair: &B,
    buffer: &mut [u8],
    key_len: &mut usize,
) -> i32 {
    *key_len = 0;
    match crate::proved::key_wrap_core::unwrap_padded_in_place(&mut Meter::new(pair), buffer) {
        Ok(m) => {
            *key_len = m;
            DONE
        }
        Err(fault) => fault_status(fault),
    }
}
