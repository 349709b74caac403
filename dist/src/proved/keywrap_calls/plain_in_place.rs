// Written by generate/erase.py from crates/keywrap_calls/src/plain_in_place.rt, which has the contracts.

//! The plain form in one buffer of the wrapped key's length: the key follows the first 8 bytes.

use crate::proved::keywrap_calls::keks::aes_of;
use crate::proved::keywrap_calls::status::{BAD_KEK, status_of};
use crate::proved::block_pair::{BlockPair, Meter};
use crate::proved::fips197::KeyInit;

/// Wraps the key after the first 8 bytes of `buffer`, which are ignored, under `kek` in the plain
/// form, into the whole buffer (RFC 3394, section 2.2.1).
pub fn wrap_in_place<A: KeyInit>(schedule: A::Schedule, kek: &[u8], buffer: &mut [u8]) -> i32 {
    let aes = if let Some(aes) = aes_of::<A>(kek, schedule) { aes } else {
        return BAD_KEK;
    };
    wrap_under(&aes, buffer)
}

// The call under AES that is made.
#[inline(always)]
pub(crate) fn wrap_under<B: BlockPair>(pair: &B, buffer: &mut [u8]) -> i32 {
    status_of(crate::proved::key_wrap_core::wrap_in_place(&mut Meter::new(pair), buffer))
}

/// Unwraps the plain wrapping in `buffer`, which becomes 8 zero bytes and its key under `kek` (RFC
/// 3394, section 2.2.2). At `INTEGRITY` every byte of the buffer is zero.
pub fn unwrap_in_place<A: KeyInit>(schedule: A::Schedule, kek: &[u8], buffer: &mut [u8]) -> i32 {
    let aes = if let Some(aes) = aes_of::<A>(kek, schedule) { aes } else {
        return BAD_KEK;
    };
    unwrap_under(&aes, buffer)
}

// The call under AES that is made.
#[inline(always)]
pub(crate) fn unwrap_under<B: BlockPair>(pair: &B, buffer: &mut [u8]) -> i32 {
    status_of(crate::proved::key_wrap_core::unwrap_in_place(&mut Meter::new(pair), buffer))
}
