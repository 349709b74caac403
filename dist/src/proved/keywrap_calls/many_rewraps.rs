// Written by generate/erase.py from crates/keywrap_calls/src/many_rewraps.rt, which has the contracts.

//! Rewrapping many wrapped keys of one length in one buffer.

use crate::proved::keywrap_calls::keks::aes_of;
use crate::proved::keywrap_calls::many_slots::slot_len;
use crate::proved::keywrap_calls::rewrap_steps::outcome_byte;
use crate::proved::keywrap_calls::rewrapping::{request_of, rewrap_as};
use crate::proved::keywrap_calls::status::{BAD_KEK, BAD_LENGTH, DONE};
use crate::proved::block_pair::{BlockPair, Meter};
use crate::proved::fips197::KeyInit;
use crate::proved::key_wrap_core::rewrap_length_ok;
use crate::proved::key_wrap_steps::RewrapRequest;

/// Rewraps, as `rewrap` does, the wrapped key in each slot of `texts`: as many slots of one length
/// as there are `statuses`, each with its status, or with 1 if the wrapped key was under the new
/// KEK already.
///
/// A refused slot is what it was. A refusal of the call leaves both buffers as they were.
pub fn rewrap_many<A: KeyInit>(
    schedules: (A::Schedule, A::Schedule),
    old_kek: &[u8],
    new_kek: &[u8],
    texts: &mut [u8],
    flags: u32,
    statuses: &mut [u8],
) -> i32 {
    let old = if let Some(old) = aes_of::<A>(old_kek, schedules.0) { old } else {
        return BAD_KEK;
    };
    let new = if let Some(new) = aes_of::<A>(new_kek, schedules.1) { new } else {
        return BAD_KEK;
    };
    let (request, len) = if let Some((request, len)) = rewrap_slots_of(flags, texts.len(), statuses.len()) { (request, len) } else {
        return BAD_LENGTH;
    };
    rewrap_slots(&old, &new, &request, len, texts, statuses);
    DONE
}

// What the flags request, and the length of each slot, if flags and lengths are legal.
pub(crate) fn rewrap_slots_of(
    flags: u32,
    len: usize,
    count: usize,
) -> Option<(RewrapRequest, usize)> {
    let n = slot_len(len, count)?;
    let request = request_of(flags)?;
    if rewrap_length_ok(&request.forms, n) {
        Some((request, n))
    } else {
        None
    }
}

// Rewraps each slot of `len` bytes. Not inlined, its frame lies over what the making of the key
// schedules left on the stack.
#[inline(never)]
pub(crate) fn rewrap_slots<O: BlockPair, N: BlockPair>(
    old: &O,
    new: &N,
    request: &RewrapRequest,
    len: usize,
    texts: &mut [u8],
    statuses: &mut [u8],
) {
    for slot in 0..statuses.len() {
        let start = len * slot;
        statuses[slot] = rewrap_slot(old, new, request, &mut texts[start..start + len]);
    }
}

// Rewraps one wrapped key, and returns its byte.
fn rewrap_slot<O: BlockPair, N: BlockPair>(
    old: &O,
    new: &N,
    request: &RewrapRequest,
    text: &mut [u8],
) -> u8 {
    outcome_byte(rewrap_as(&mut Meter::new(old), &mut Meter::new(new), request, text))
}
