// Written by generate/erase.py from crates/keywrap_calls/src/plain.rt, which has the contracts.

//! The plain form from one buffer into another.

use crate::proved::keywrap_calls::keks::aes_of;
use crate::proved::keywrap_calls::status::{BAD_KEK, status_of};
use crate::proved::block_pair::Meter;
use crate::proved::fips197::KeyInit;
use crate::proved::key_wrap_core::{unwrap_into, wrap_into};

/// Wraps `key` under `kek` in the plain form, into `text` (RFC 3394, section 2.2.1).
pub fn wrap<A: KeyInit>(schedule: A::Schedule, kek: &[u8], key: &[u8], text: &mut [u8]) -> i32 {
    let aes = if let Some(aes) = aes_of::<A>(kek, schedule) { aes } else {
        return BAD_KEK;
    };
    status_of(wrap_into(&mut Meter::new(&aes), key, text))
}

/// Unwraps `text`, in the plain form under `kek`, into `key` (RFC 3394, section 2.2.2). At
/// `INTEGRITY` every byte of `key` is zero.
pub fn unwrap<A: KeyInit>(schedule: A::Schedule, kek: &[u8], text: &[u8], key: &mut [u8]) -> i32 {
    let aes = if let Some(aes) = aes_of::<A>(kek, schedule) { aes } else {
        return BAD_KEK;
    };
    status_of(unwrap_into(&mut Meter::new(&aes), text, key))
}
