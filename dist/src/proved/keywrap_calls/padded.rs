// Written by generate/erase.py from crates/keywrap_calls/src/padded.rt, which has the contracts.

//! The padded form from one buffer into another.

use crate::proved::keywrap_calls::keks::aes_of;
use crate::proved::keywrap_calls::status::{BAD_KEK, DONE, fault_status, status_of};
use crate::proved::block_pair::Meter;
use crate::proved::fips197::KeyInit;
use crate::proved::key_wrap_core::{unwrap_padded_into, wrap_padded_into};

/// Wraps `key` under `kek` in the padded form, into `text` (RFC 5649, section 4.1).
pub fn wrap_padded<A: KeyInit>(
    schedule: A::Schedule,
    kek: &[u8],
    key: &[u8],
    text: &mut [u8],
) -> i32 {
    let aes = if let Some(aes) = aes_of::<A>(kek, schedule) { aes } else {
        return BAD_KEK;
    };
    status_of(wrap_padded_into(&mut Meter::new(&aes), key, text))
}

/// Unwraps `text`, in the padded form under `kek`, into the first `*key_len` bytes of `key`, with
/// zero bytes after it (RFC 5649, section 4.2). At `INTEGRITY` every byte of `key` is zero.
/// `*key_len` is 0 at each refusal.
pub fn unwrap_padded<A: KeyInit>(
    schedule: A::Schedule,
    kek: &[u8],
    text: &[u8],
    key: &mut [u8],
    key_len: &mut usize,
) -> i32 {
    *key_len = 0;
    let aes = if let Some(aes) = aes_of::<A>(kek, schedule) { aes } else {
        return BAD_KEK;
    };
    match unwrap_padded_into(&mut Meter::new(&aes), text, key) {
        Ok(m) => {
            *key_len = m;
            DONE
        }
        Err(fault) => fault_status(fault),
    }
}
