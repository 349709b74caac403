// Written by generate/erase.py from crates/keywrap_calls/src/any_form.rt, which has the contracts.

//! The unwrapping of a wrapped key in either form.

use crate::proved::keywrap_calls::keks::aes_of;
use crate::proved::keywrap_calls::status::{BAD_KEK, DONE, fault_status};
use crate::proved::block_pair::Meter;
use crate::proved::fips197::KeyInit;
use crate::proved::key_wrap_core::{Form, InitialValue, unwrap_any_into};

/// Unwraps `text` under `kek`, in whichever form it is, into the first `*key_len` bytes of `key`,
/// with zero bytes after it (RFC 3394, RFC 5649). `*padded` is 0 in the plain form, under the
/// default initial value, and 1 in the padded form.
///
/// At `INTEGRITY` every byte of `key` is zero. Both numbers are 0 at each refusal.
pub fn unwrap_any<A: KeyInit>(
    schedule: A::Schedule,
    kek: &[u8],
    text: &[u8],
    key: &mut [u8],
    padded: &mut u32,
    key_len: &mut usize,
) -> i32 {
    *padded = 0;
    *key_len = 0;
    let aes = if let Some(aes) = aes_of::<A>(kek, schedule) { aes } else {
        return BAD_KEK;
    };
    match unwrap_any_into(&mut Meter::new(&aes), &InitialValue::default(), text, key) {
        Ok(found) => {
            *key_len = found.len;
            *padded = flag_of(found.form);
            DONE
        }
        Err(fault) => fault_status(fault),
    }
}

// 1 for the padded form, else 0.
pub(crate) fn flag_of(form: Form) -> u32 {
    match form {
        Form::Plain => 0,
        Form::Padded => 1,
    }
}
