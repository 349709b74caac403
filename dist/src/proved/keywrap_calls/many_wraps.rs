// Written by generate/erase.py from crates/keywrap_calls/src/many_wraps.rt, which has the contracts.

//! Wrapping and unwrapping many keys of one length in one buffer.

use crate::proved::keywrap_calls::keks::aes_of;
use crate::proved::keywrap_calls::many_slots::{slot_len, status_byte};
use crate::proved::keywrap_calls::padded_in_place::{unwrap_padded_under, wrap_padded_under};
use crate::proved::keywrap_calls::plain_in_place::{unwrap_under, wrap_under};
use crate::proved::keywrap_calls::status::{BAD_KEK, BAD_LENGTH, DONE};
use crate::proved::block_pair::BlockPair;
use crate::proved::fips197::KeyInit;
use crate::proved::key_wrap_core::{AgreedForm, Form, key_length_ok, padded_length_ok, text_len};

/// Wraps the key of `key_len` bytes after the first 8 bytes of each slot of `texts`: as many slots
/// of the length of its wrapped key as there are `statuses`. `flags` is 0, or 2 for the padded
/// form. Slot and status are as from `wrap_in_place` or `wrap_padded_in_place`.
///
/// A refusal of the call leaves both buffers as they were.
pub fn wrap_many<A: KeyInit>(
    schedule: A::Schedule,
    kek: &[u8],
    texts: &mut [u8],
    key_len: usize,
    flags: u32,
    statuses: &mut [u8],
) -> i32 {
    let aes = if let Some(aes) = aes_of::<A>(kek, schedule) { aes } else {
        return BAD_KEK;
    };
    let (form, len) = if let Some((form, len)) = wrap_slots_of(flags, key_len, texts.len(), statuses.len()) { (form, len) } else {
        return BAD_LENGTH;
    };
    wrap_slots(&aes, form, key_len, len, texts, statuses);
    DONE
}

// The form that the flags request, and the length of each slot, if flags and lengths are legal.
pub(crate) fn wrap_slots_of(
    flags: u32,
    key_len: usize,
    len: usize,
    count: usize,
) -> Option<(Form, usize)> {
    let n = slot_len(len, count)?;
    let form = new_form(flags)?;
    if is_key_slot(form, key_len, n) {
        Some((form, n))
    } else {
        None
    }
}

// The form that the flags of a wrap request.
fn new_form(flags: u32) -> Option<Form> {
    match flags {
        0 => Some(Form::Plain),
        2 => Some(Form::Padded),
        _ => None,
    }
}

// Whether a slot of `len` bytes is as long as the wrapped key of a key of `key_len` bytes.
fn is_key_slot(form: Form, key_len: usize, len: usize) -> bool {
    match form {
        Form::Plain => key_length_ok(key_len) && len == text_len(key_len),
        Form::Padded => padded_length_ok(key_len) && len == text_len(key_len),
    }
}

// Wraps the key in each slot of `len` bytes.
#[inline(never)]
pub(crate) fn wrap_slots<B: BlockPair>(
    pair: &B,
    form: Form,
    key_len: usize,
    len: usize,
    texts: &mut [u8],
    statuses: &mut [u8],
) {
    for slot in 0..statuses.len() {
        let start = len * slot;
        statuses[slot] = wrap_slot(pair, form, key_len, &mut texts[start..start + len]);
    }
}

// Wraps the key in one slot, and returns the byte of its status.
fn wrap_slot<B: BlockPair>(pair: &B, form: Form, key_len: usize, text: &mut [u8]) -> u8 {
    match form {
        Form::Plain => status_byte(wrap_under(pair, text)),
        Form::Padded => status_byte(wrap_padded_under(pair, text, key_len)),
    }
}

/// Unwraps the wrapped key in each slot of `texts`: as many slots of one length as there are
/// `key_lens` and `statuses`. `flags` is 0, or 1 for the padded form. Slot and status are as from
/// `unwrap_in_place` or `unwrap_padded_in_place`. The length of each key is in `key_lens`, or 0 for
/// a refused slot.
///
/// A refusal of the call leaves the buffers as they were.
pub fn unwrap_many<A: KeyInit>(
    schedule: A::Schedule,
    kek: &[u8],
    texts: &mut [u8],
    flags: u32,
    key_lens: &mut [usize],
    statuses: &mut [u8],
) -> i32 {
    let aes = if let Some(aes) = aes_of::<A>(kek, schedule) { aes } else {
        return BAD_KEK;
    };
    let count = statuses.len();
    let (form, len) = if let Some((form, len)) = unwrap_slots_of(flags, texts.len(), count, key_lens.len()) { (form, len) } else {
        return BAD_LENGTH;
    };
    unwrap_slots(&aes, form, len, texts, key_lens, statuses);
    DONE
}

// The form that the flags request, and the length of each slot, if flags and lengths are legal.
pub(crate) fn unwrap_slots_of(
    flags: u32,
    len: usize,
    count: usize,
    lens: usize,
) -> Option<(Form, usize)> {
    let n = slot_len(len, count)?;
    let form = old_form(flags)?;
    if lens == count && AgreedForm::by_default(form).takes_text(n) {
        Some((form, n))
    } else {
        None
    }
}

// The form that the flags of an unwrap request.
fn old_form(flags: u32) -> Option<Form> {
    match flags {
        0 => Some(Form::Plain),
        1 => Some(Form::Padded),
        _ => None,
    }
}

// Unwraps each slot of `len` bytes.
#[inline(never)]
pub(crate) fn unwrap_slots<B: BlockPair>(
    pair: &B,
    form: Form,
    len: usize,
    texts: &mut [u8],
    key_lens: &mut [usize],
    statuses: &mut [u8],
) {
    for slot in 0..statuses.len() {
        let start = len * slot;
        let (status, key_len) = unwrap_slot(pair, form, &mut texts[start..start + len]);
        statuses[slot] = status;
        key_lens[slot] = key_len;
    }
}

// Unwraps one slot, and returns the byte of its status, and the length of the key.
fn unwrap_slot<B: BlockPair>(pair: &B, form: Form, text: &mut [u8]) -> (u8, usize) {
    match form {
        Form::Plain => unwrap_plain_slot(pair, text),
        Form::Padded => {
            let mut key_len = 0;
            let status = unwrap_padded_under(pair, text, &mut key_len);
            (status_byte(status), key_len)
        }
    }
}

// The same in the plain form.
fn unwrap_plain_slot<B: BlockPair>(pair: &B, text: &mut [u8]) -> (u8, usize) {
    let status = unwrap_under(pair, text);
    let key_len = if status == DONE { text.len() - 8 } else { 0 };
    (status_byte(status), key_len)
}
