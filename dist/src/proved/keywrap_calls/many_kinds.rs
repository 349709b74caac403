// Written by generate/erase.py from crates/keywrap_calls/src/many_kinds.rt, which has the contracts.

//! In which forms many keys were wrapped.

use crate::proved::keywrap_calls::keks::aes_of;
use crate::proved::keywrap_calls::kinds::kind_under;
use crate::proved::keywrap_calls::many_slots::{slot_len, status_byte};
use crate::proved::keywrap_calls::status::{BAD_KEK, BAD_LENGTH, DONE};
use crate::proved::block_pair::BlockPair;
use crate::proved::fips197::KeyInit;
use crate::proved::key_wrap_core::padded_text_length_ok;

/// Finds, as `kind` does, the form of the wrapped key in each slot of `texts`, and the length of
/// its key: as many slots of one length as there are `forms`, `key_lens` and `statuses`. A form is
/// 0, or 1 for the padded form. `scratch` is 8 bytes shorter than a slot, and zero afterwards.
///
/// A refusal of the call leaves the buffers as they were.
pub fn kind_many<A: KeyInit>(
    schedule: A::Schedule,
    kek: &[u8],
    texts: &[u8],
    scratch: &mut [u8],
    forms: &mut [u8],
    key_lens: &mut [usize],
    statuses: &mut [u8],
) -> i32 {
    let aes = if let Some(aes) = aes_of::<A>(kek, schedule) { aes } else {
        return BAD_KEK;
    };
    if !are_kind_slots(
        texts.len(),
        scratch.len(),
        forms.len(),
        key_lens.len(),
        statuses.len(),
    ) {
        return BAD_LENGTH;
    }
    kind_slots(&aes, texts, scratch, forms, key_lens, statuses);
    DONE
}

// Whether the lengths of the buffers are legal.
pub(crate) fn are_kind_slots(
    len: usize,
    room: usize,
    forms: usize,
    key_lens: usize,
    count: usize,
) -> bool {
    match slot_len(len, count) {
        Some(n) => {
            padded_text_length_ok(n) && n - 8 == room && forms == count && key_lens == count
        }
        None => false,
    }
}

// Finds the form and the length in each slot.
#[inline(never)]
pub(crate) fn kind_slots<B: BlockPair>(
    pair: &B,
    texts: &[u8],
    scratch: &mut [u8],
    forms: &mut [u8],
    key_lens: &mut [usize],
    statuses: &mut [u8],
) {
    let len = scratch.len() + 8;
    for slot in 0..statuses.len() {
        let start = len * slot;
        let mut padded = 0;
        let mut key_len = 0;
        let text = &texts[start..start + len];
        let status = kind_under(pair, text, scratch, &mut padded, &mut key_len);
        statuses[slot] = status_byte(status);
        forms[slot] = padded as u8;
        key_lens[slot] = key_len;
    }
}
