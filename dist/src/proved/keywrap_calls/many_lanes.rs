// Written by generate/erase.py from crates/keywrap_calls/src/many_lanes.rt, which has the contracts.

//! The calls for many keys over an AES of many blocks at once: the keys are wrapped side by side.

use crate::proved::keywrap_calls::keks::aes_of;
use crate::proved::keywrap_calls::many_kinds::{are_kind_slots, kind_slots};
use crate::proved::keywrap_calls::many_rewraps::{rewrap_slots, rewrap_slots_of};
use crate::proved::keywrap_calls::many_wraps::{unwrap_slots, unwrap_slots_of, wrap_slots, wrap_slots_of};
use crate::proved::keywrap_calls::status::{BAD_KEK, BAD_LENGTH, DONE};
use crate::proved::block_lanes::BlockLanes;
use crate::proved::fips197::KeyInit;
use crate::proved::key_wrap_core::Form;
use crate::proved::key_wrap_steps::RewrapRequest;
use crate::proved::lane_runs::{MAX_COPIED, kind_texts, rewrap_texts, unwrap_texts, wrap_texts};

// The length of a padded wrapped key of one word, which is one block. It is not wrapped side by side.
const ONE_WORD_TEXT: usize = 16;

/// Does what `wrap_many` does, the keys side by side.
pub fn wrap_many_lanes<A: KeyInit + BlockLanes>(
    schedule: A::Schedule,
    kek: &[u8],
    texts: &mut [u8],
    key_len: usize,
    flags: u32,
    statuses: &mut [u8],
) -> i32 {
    let aes = if let Some(aes) = aes_of::<A>(kek, schedule) { aes } else {
        return BAD_KEK;
    };
    let (form, len) = if let Some((form, len)) = wrap_slots_of(flags, key_len, texts.len(), statuses.len()) { (form, len) } else {
        return BAD_LENGTH;
    };
    if len == ONE_WORD_TEXT {
        wrap_slots(&aes, form, key_len, len, texts, statuses);
    } else {
        wrap_side_by_side(&aes, form, key_len, len, texts, statuses);
    }
    DONE
}

// Wraps the key in each slot of `len` bytes. No length is illegal, so no slot is refused.
#[inline(never)]
fn wrap_side_by_side<B: BlockLanes>(
    pair: &B,
    form: Form,
    key_len: usize,
    len: usize,
    texts: &mut [u8],
    statuses: &mut [u8],
) {
    wrap_texts(pair, form, key_len, texts, len, statuses.len());
    statuses.fill(0);
}

/// Does what `unwrap_many` does, the keys side by side.
pub fn unwrap_many_lanes<A: KeyInit + BlockLanes>(
    schedule: A::Schedule,
    kek: &[u8],
    texts: &mut [u8],
    flags: u32,
    key_lens: &mut [usize],
    statuses: &mut [u8],
) -> i32 {
    let aes = if let Some(aes) = aes_of::<A>(kek, schedule) { aes } else {
        return BAD_KEK;
    };
    let count = statuses.len();
    let (form, len) = if let Some((form, len)) = unwrap_slots_of(flags, texts.len(), count, key_lens.len()) { (form, len) } else {
        return BAD_LENGTH;
    };
    if len == ONE_WORD_TEXT {
        unwrap_slots(&aes, form, len, texts, key_lens, statuses);
    } else {
        unwrap_side_by_side(&aes, form, len, texts, key_lens, statuses);
    }
    DONE
}

// Unwraps each slot of `len` bytes.
#[inline(never)]
fn unwrap_side_by_side<B: BlockLanes>(
    pair: &B,
    form: Form,
    len: usize,
    texts: &mut [u8],
    key_lens: &mut [usize],
    statuses: &mut [u8],
) {
    unwrap_texts(pair, form, texts, len, key_lens, statuses);
}

/// Does what `kind_many` does, the wrapped keys side by side.
pub fn kind_many_lanes<A: KeyInit + BlockLanes>(
    schedule: A::Schedule,
    kek: &[u8],
    texts: &[u8],
    scratch: &mut [u8],
    forms: &mut [u8],
    key_lens: &mut [usize],
    statuses: &mut [u8],
) -> i32 {
    let aes = if let Some(aes) = aes_of::<A>(kek, schedule) { aes } else {
        return BAD_KEK;
    };
    if !are_kind_slots(
        texts.len(),
        scratch.len(),
        forms.len(),
        key_lens.len(),
        statuses.len(),
    ) {
        return BAD_LENGTH;
    }
    let len = scratch.len() + 8;
    if len == ONE_WORD_TEXT || len > MAX_COPIED {
        kind_slots(&aes, texts, scratch, forms, key_lens, statuses);
    } else {
        kind_side_by_side(&aes, texts, scratch, forms, key_lens, statuses);
    }
    DONE
}

// Finds the form and the length in each slot.
#[inline(never)]
fn kind_side_by_side<B: BlockLanes>(
    pair: &B,
    texts: &[u8],
    scratch: &mut [u8],
    forms: &mut [u8],
    key_lens: &mut [usize],
    statuses: &mut [u8],
) {
    kind_texts(pair, texts, scratch.len() + 8, forms, key_lens, statuses);
    scratch.fill(0);
}

/// Does what `rewrap_many` does, the wrapped keys side by side.
pub fn rewrap_many_lanes<A: KeyInit + BlockLanes>(
    schedules: (A::Schedule, A::Schedule),
    old_kek: &[u8],
    new_kek: &[u8],
    texts: &mut [u8],
    flags: u32,
    statuses: &mut [u8],
) -> i32 {
    let old = if let Some(old) = aes_of::<A>(old_kek, schedules.0) { old } else {
        return BAD_KEK;
    };
    let new = if let Some(new) = aes_of::<A>(new_kek, schedules.1) { new } else {
        return BAD_KEK;
    };
    let (request, len) = if let Some((request, len)) = rewrap_slots_of(flags, texts.len(), statuses.len()) { (request, len) } else {
        return BAD_LENGTH;
    };
    if len == ONE_WORD_TEXT || len > MAX_COPIED {
        rewrap_slots(&old, &new, &request, len, texts, statuses);
    } else {
        rewrap_side_by_side(&old, &new, &request, len, texts, statuses);
    }
    DONE
}

// Rewraps each slot of `len` bytes. Not inlined, its frame lies over what the making of the key
// schedules left on the stack.
#[inline(never)]
fn rewrap_side_by_side<O: BlockLanes, N: BlockLanes>(
    old: &O,
    new: &N,
    request: &RewrapRequest,
    len: usize,
    texts: &mut [u8],
    statuses: &mut [u8],
) {
    rewrap_texts(old, new, request, texts, len, statuses);
}
