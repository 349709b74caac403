// Written by generate/erase.py from crates/lane_runs/src/rewraps.rt, which has the contracts.

//! Whole rewrappings of many texts. Each text is unwrapped under the old pair, over a copy. The keys that
//! fit are then wrapped side by side under the new pair, and only their texts are written.

use crate::proved::lane_runs::steps::make_steps;
use crate::proved::lane_runs::unwraps::undo_lanes;
use crate::proved::lane_runs::{LANES, MAX_COPIED};
use crate::proved::block_lanes::{BLOCK, BlockLanes};
use crate::proved::key_wrap_core::{Refusal, RewrapForms, Rewrapped, WORD};
use crate::proved::key_wrap_steps::{RewrapPhase, RewrapRequest, end_unwrap_new, end_unwrap_old};

// The place of a lane that is not wrapped under the new pair.
const NOWHERE: usize = LANES;

// The status of a text whose key has a length that no plain key has.
const KEY_NOT_PLAIN: u8 = 8;

/// Rewraps as many texts as there are statuses, as requested. The status of a text is 0, or 1 if it was new
/// already; or it is 5, or 8 if its key has a length that no plain key has. A text is written only if its
/// status is 0.
pub fn rewrap_texts<O: BlockLanes, N: BlockLanes>(
    old: &O,
    new: &N,
    request: &RewrapRequest,
    texts: &mut [u8],
    text_len: usize,
    statuses: &mut [u8],
) {
    let mut lanes = [0; MAX_COPIED * LANES];
    let mut blocks = [0; BLOCK * LANES];
    let mut places = [0; LANES];
    let count = statuses.len();
    for batch in 0..count / LANES + 1 {
        let first = LANES * batch;
        let last = count.min(first + LANES);
        rewrap_batch(
            old,
            new,
            request,
            &mut texts[text_len * first..text_len * last],
            text_len,
            &mut lanes[..text_len * (last - first)],
            &mut blocks[..BLOCK * (last - first)],
            &mut places[..last - first],
            &mut statuses[first..last],
        );
    }
}

// Rewraps each text of a batch. The lanes and the blocks become zeros.
fn rewrap_batch<O: BlockLanes, N: BlockLanes>(
    old: &O,
    new: &N,
    request: &RewrapRequest,
    texts: &mut [u8],
    text_len: usize,
    lanes: &mut [u8],
    blocks: &mut [u8],
    places: &mut [usize],
    statuses: &mut [u8],
) {
    lanes.copy_from_slice(texts);
    undo_lanes(old, lanes, text_len, blocks);
    let wrapped = place_lanes(&request.forms, lanes, text_len, blocks, places, statuses);
    make_steps(
        new,
        &mut lanes[..text_len * wrapped],
        text_len,
        &mut blocks[..BLOCK * wrapped],
    );
    put_lanes(texts, text_len, lanes, blocks, places, wrapped);
    pass_batch(
        new, request, texts, text_len, lanes, blocks, places, wrapped, statuses,
    );
    lanes.fill(0);
    blocks.fill(0);
}

// Ends the unwrapping of each lane under the old pair. The lanes whose keys fit come to the front, ready
// to be wrapped under the new pair, each at its place. Returns how many they are.
fn place_lanes(
    forms: &RewrapForms,
    lanes: &mut [u8],
    text_len: usize,
    blocks: &mut [u8],
    places: &mut [usize],
    statuses: &mut [u8],
) -> usize {
    let mut wrapped = 0;
    for lane in 0..statuses.len() {
        let start = text_len * lane;
        let place = BLOCK * lane;
        let (fits, status) = end_old_lane(
            forms,
            &lanes[start..start + text_len],
            &mut blocks[place..place + BLOCK],
        );
        statuses[lane] = status;
        if fits {
            move_part(lanes, text_len, lane, wrapped);
            move_part(blocks, BLOCK, lane, wrapped);
            places[lane] = wrapped;
            wrapped += 1;
        } else {
            places[lane] = NOWHERE;
        }
    }
    wrapped
}

// Ends the unwrapping of one lane under the old pair. Returns whether its key fits, and its status. The
// block becomes the first one of the wrapping under the new pair.
fn end_old_lane(forms: &RewrapForms, lane: &[u8], block: &mut [u8]) -> (bool, u8) {
    let mut last = [0; BLOCK];
    last.copy_from_slice(block);
    match end_unwrap_old(forms, lane, &mut last) {
        RewrapPhase::WrapNew(outcome) => {
            block.copy_from_slice(&last);
            (true, status_of(outcome))
        }
        RewrapPhase::WrapOld(fault) => (false, status_of(Err(fault))),
        RewrapPhase::UnwrapNew(fault) => (false, status_of(Err(fault))),
        RewrapPhase::UnwrapOld => unreachable!(),
    }
}

// The status of an outcome.
fn status_of(outcome: Result<Rewrapped, Refusal>) -> u8 {
    match outcome {
        Ok(Rewrapped::Fresh) => 0,
        Ok(Rewrapped::AlreadyNew) => 1,
        Err(Refusal::BadLength) => 4,
        Err(Refusal::Integrity) => 5,
        Err(Refusal::KeyNotPlain) => KEY_NOT_PLAIN,
    }
}

// Copies a part of a buffer over another one.
fn move_part(parts: &mut [u8], len: usize, from: usize, to: usize) {
    if from == to {
        return;
    }
    let start = len * from;
    parts.copy_within(start..start + len, len * to);
}

// Writes what was wrapped, from its place among the lanes.
fn put_lanes(
    texts: &mut [u8],
    text_len: usize,
    lanes: &[u8],
    blocks: &[u8],
    places: &[usize],
    wrapped: usize,
) {
    for lane in 0..places.len() {
        let place = places[lane];
        if place < wrapped {
            let start = text_len * lane;
            put_lane(
                &mut texts[start..start + text_len],
                &lanes[text_len * place..text_len * place + text_len],
                &blocks[BLOCK * place..BLOCK * place + BLOCK],
            );
        }
    }
}

// Writes the first 8 bytes of a block, and the lane behind its first 8 bytes.
fn put_lane(text: &mut [u8], lane: &[u8], block: &[u8]) {
    text[..WORD].copy_from_slice(&block[..WORD]);
    text[WORD..].copy_from_slice(&lane[WORD..]);
}

// The texts that were refused for their integrity may be new already. Unwraps each under the new pair, if
// that was requested, and gives those that are new their status.
fn pass_batch<B: BlockLanes>(
    new: &B,
    request: &RewrapRequest,
    texts: &[u8],
    text_len: usize,
    lanes: &mut [u8],
    blocks: &mut [u8],
    places: &mut [usize],
    wrapped: usize,
    statuses: &mut [u8],
) {
    if !request.pass_new {
        return;
    }
    if wrapped == statuses.len() {
        return;
    }
    let tried = gather_lanes(texts, text_len, lanes, places, statuses);
    undo_lanes(
        new,
        &mut lanes[..text_len * tried],
        text_len,
        &mut blocks[..BLOCK * tried],
    );
    pass_lanes(
        &request.forms,
        lanes,
        text_len,
        blocks,
        places,
        tried,
        statuses,
    );
}

// Copies the texts that may be new already to the front of the lanes, each to its place. Returns how many
// they are. No other text has a place.
fn gather_lanes(
    texts: &[u8],
    text_len: usize,
    lanes: &mut [u8],
    places: &mut [usize],
    statuses: &[u8],
) -> usize {
    let mut tried = 0;
    for from in 0..statuses.len() {
        if may_be_new(places[from], statuses[from]) {
            let start = text_len * from;
            let to = text_len * tried;
            lanes[to..to + text_len].copy_from_slice(&texts[start..start + text_len]);
            places[from] = tried;
            tried += 1;
        } else {
            places[from] = NOWHERE;
        }
    }
    tried
}

// Whether a text was refused for its integrity under the old pair.
fn may_be_new(place: usize, status: u8) -> bool {
    place == NOWHERE && status != KEY_NOT_PLAIN
}

// Ends the unwrapping of each text under the new pair that has a place among the lanes.
fn pass_lanes(
    forms: &RewrapForms,
    lanes: &[u8],
    text_len: usize,
    blocks: &[u8],
    places: &[usize],
    tried: usize,
    statuses: &mut [u8],
) {
    for lane in 0..statuses.len() {
        let place = places[lane];
        if place < tried {
            let start = text_len * place;
            statuses[lane] = pass_lane(
                forms,
                &lanes[start..start + text_len],
                &blocks[BLOCK * place..BLOCK * place + BLOCK],
            );
        }
    }
}

// Ends one unwrapping under the new pair, and returns the status of its text.
fn pass_lane(forms: &RewrapForms, lane: &[u8], block: &[u8]) -> u8 {
    let mut last = [0; BLOCK];
    last.copy_from_slice(block);
    status_of(end_unwrap_new(forms, Refusal::Integrity, lane, &mut last))
}
