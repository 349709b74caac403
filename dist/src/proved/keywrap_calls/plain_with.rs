// Written by generate/erase.py from crates/keywrap_calls/src/plain_with.rt, which has the contracts.

//! The plain form from one buffer into another, under an initial value that both ends agreed on.

use crate::proved::keywrap_calls::keks::aes_of;
use crate::proved::keywrap_calls::status::{BAD_IV, BAD_KEK, status_of};
use crate::proved::block_pair::Meter;
use crate::proved::fips197::KeyInit;
use crate::proved::key_wrap_core::{InitialValue, unwrap_into_with, wrap_into_with};

/// Wraps `key` under `kek` and the initial value `iv` in the plain form, into `text` (RFC 3394,
/// sections 2.2.1 and 2.2.3.2).
pub fn wrap_with<A: KeyInit>(
    schedule: A::Schedule,
    kek: &[u8],
    iv: &[u8],
    key: &[u8],
    text: &mut [u8],
) -> i32 {
    let value = if let Some(value) = iv_from_bytes(iv) { value } else {
        return BAD_IV;
    };
    let aes = if let Some(aes) = aes_of::<A>(kek, schedule) { aes } else {
        return BAD_KEK;
    };
    status_of(wrap_into_with(&mut Meter::new(&aes), &value, key, text))
}

/// Unwraps `text`, in the plain form under `kek` and the initial value `iv`, into `key` (RFC 3394,
/// sections 2.2.2 and 2.2.3.2). At `INTEGRITY` every byte of `key` is zero.
pub fn unwrap_with<A: KeyInit>(
    schedule: A::Schedule,
    kek: &[u8],
    iv: &[u8],
    text: &[u8],
    key: &mut [u8],
) -> i32 {
    let value = if let Some(value) = iv_from_bytes(iv) { value } else {
        return BAD_IV;
    };
    let aes = if let Some(aes) = aes_of::<A>(kek, schedule) { aes } else {
        return BAD_KEK;
    };
    status_of(unwrap_into_with(&mut Meter::new(&aes), &value, text, key))
}

/// Returns the initial value of these bytes. `None` if they are not 8 bytes, or are reserved for
/// the padded form.
pub fn iv_from_bytes(bytes: &[u8]) -> Option<InitialValue> {
    let bytes = <[u8; 8]>::try_from(bytes).ok()?;
    InitialValue::new(bytes).ok()
}
