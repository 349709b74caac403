// Written by generate/erase.py from crates/keywrap_calls/src/kinds.rt, which has the contracts.

//! In which form a key was wrapped.

use crate::proved::keywrap_calls::keks::aes_of;
use crate::proved::keywrap_calls::status::{BAD_KEK, BAD_LENGTH, DONE, INTEGRITY};
use crate::proved::block_pair::{BlockPair, Meter};
use crate::proved::fips197::KeyInit;
use crate::proved::key_wrap_core::{Kind, kind_into};

/// Finds the form in which `text` is a wrapping under `kek`, and the length of its key: `*padded`
/// is 0 in the plain form, under the default initial value, and 1 in the padded form (RFC 3394, RFC
/// 5649).
///
/// The key is not given out. `scratch` has the length of `text` without its first word. If the
/// length is legal in a form, every byte of `scratch` is zero afterwards. Both numbers are 0 at
/// each refusal. `INTEGRITY` means that neither form fits, or a length that neither form has.
pub fn kind<A: KeyInit>(
    schedule: A::Schedule,
    kek: &[u8],
    text: &[u8],
    scratch: &mut [u8],
    padded: &mut u32,
    key_len: &mut usize,
) -> i32 {
    *padded = 0;
    *key_len = 0;
    let aes = if let Some(aes) = aes_of::<A>(kek, schedule) { aes } else {
        return BAD_KEK;
    };
    kind_under(&aes, text, scratch, padded, key_len)
}

// The call under AES that is made.
#[inline(always)]
pub(crate) fn kind_under<B: BlockPair>(
    pair: &B,
    text: &[u8],
    scratch: &mut [u8],
    padded: &mut u32,
    key_len: &mut usize,
) -> i32 {
    *padded = 0;
    *key_len = 0;
    match kind_into(&mut Meter::new(pair), text, scratch) {
        Ok(Kind::Plain(m)) => {
            *key_len = m;
            DONE
        }
        Ok(Kind::Padded(m)) => {
            *key_len = m;
            *padded = 1;
            DONE
        }
        Ok(Kind::Neither) => INTEGRITY,
        Err(_) => BAD_LENGTH,
    }
}
