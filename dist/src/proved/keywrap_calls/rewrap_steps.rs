// Written by generate/erase.py from crates/keywrap_calls/src/rewrap_steps.rt, which has the contracts.

//! Rewrapping run by run, for an AES outside the library.

use crate::proved::keywrap_calls::rewrapping::request_of;
use crate::proved::keywrap_calls::status::{ALREADY_NEW, BAD_LENGTH, DONE, INTEGRITY, KEY_NOT_PLAIN};
use crate::proved::key_wrap_core::{Refusal, Rewrapped};
use crate::proved::key_wrap_steps::{RewrapNext, RewrapPhase, RewrapRequest};

/// Begins to rewrap the wrapped key in `text`, as `rewrap` does: `*phase` is the operation of the first
/// run, `*steps` its number of steps, and `block` the first block for the operation.
///
/// `*phase` is 0 at a refusal.
pub fn begin_rewrap(
    flags: u32,
    text: &[u8],
    phase: &mut u32,
    steps: &mut u64,
    block: &mut [u8; 16],
) -> i32 {
    *phase = 0;
    let request = if let Some(request) = request_of(flags) { request } else {
        return BAD_LENGTH;
    };
    match crate::proved::key_wrap_steps::begin_rewrap(&request, text, steps, block) {
        Ok(first) => {
            *phase = number_of(first);
            DONE
        }
        Err(_) => BAD_LENGTH,
    }
}

/// Ends a run once all its steps are made, or undone: `*phase` is the operation of the next run, with
/// its `*steps` and `block`. Or `*phase` is 0, and the rewrapping has ended with the status that `rewrap`
/// returns, or with 1 if the wrapped key was new already.
///
/// `BAD_LENGTH`, with everything as it was but `*phase`, which is 0, if a step is left.
pub fn next_rewrap(
    flags: u32,
    text: &mut [u8],
    phase: &mut u32,
    steps: &mut u64,
    block: &mut [u8; 16],
) -> i32 {
    let found = run_of(flags, *phase);
    *phase = 0;
    let (request, run) = if let Some((request, run)) = found { (request, run) } else {
        return BAD_LENGTH;
    };
    match crate::proved::key_wrap_steps::next_rewrap(&request, run, text, steps, block) {
        Ok(next) => report_next(next, phase),
        Err(_) => BAD_LENGTH,
    }
}

/// Does what `next_rewrap` does, but restores a refused text from a `copy` that the caller made before
/// the rewrapping, so that it needs no run for it.
///
/// `BAD_LENGTH` also if the copy has another length than the text.
pub fn next_rewrap_from(
    flags: u32,
    copy: &[u8],
    text: &mut [u8],
    phase: &mut u32,
    steps: &mut u64,
    block: &mut [u8; 16],
) -> i32 {
    let found = run_of(flags, *phase);
    *phase = 0;
    let (request, run) = if let Some((request, run)) = found { (request, run) } else {
        return BAD_LENGTH;
    };
    match crate::proved::key_wrap_steps::next_rewrap_from(&request, run, copy, text, steps, block) {
        Ok(next) => report_next(next, phase),
        Err(_) => BAD_LENGTH,
    }
}

// Writes the number of the next phase, or 0, and returns the status.
fn report_next(next: RewrapNext, phase: &mut u32) -> i32 {
    match next {
        RewrapNext::Run(run) => {
            *phase = number_of(run);
            DONE
        }
        RewrapNext::Done(outcome) => {
            *phase = 0;
            i32::from(outcome_byte(outcome))
        }
    }
}

// What the flags request, and the phase of the number.
fn run_of(flags: u32, number: u32) -> Option<(RewrapRequest, RewrapPhase)> {
    let request = request_of(flags)?;
    let run = phase_of(number)?;
    Some((request, run))
}

// The number of a phase.
fn number_of(phase: RewrapPhase) -> u32 {
    match phase {
        RewrapPhase::UnwrapOld => 1,
        RewrapPhase::WrapOld(fault) => 4 * u32::from(outcome_byte(Err(fault))),
        RewrapPhase::UnwrapNew(fault) => 4 * u32::from(outcome_byte(Err(fault))) + 3,
        RewrapPhase::WrapNew(outcome) => 4 * u32::from(outcome_byte(outcome)) + 2,
    }
}

// The phase of a number.
fn phase_of(number: u32) -> Option<RewrapPhase> {
    if number == 1 {
        return Some(RewrapPhase::UnwrapOld);
    }
    let outcome = outcome_of(number / 4)?;
    if number % 4 == 2 {
        return Some(RewrapPhase::WrapNew(outcome));
    }
    let fault = if let Err(fault) = outcome { fault } else {
        return None;
    };
    match number % 4 {
        0 => Some(RewrapPhase::WrapOld(fault)),
        3 => Some(RewrapPhase::UnwrapNew(fault)),
        _ => None,
    }
}

// The outcome of a status.
fn outcome_of(status: u32) -> Option<Result<Rewrapped, Refusal>> {
    match i32::try_from(status).ok()? {
        DONE => Some(Ok(Rewrapped::Fresh)),
        ALREADY_NEW => Some(Ok(Rewrapped::AlreadyNew)),
        BAD_LENGTH => Some(Err(Refusal::BadLength)),
        INTEGRITY => Some(Err(Refusal::Integrity)),
        KEY_NOT_PLAIN => Some(Err(Refusal::KeyNotPlain)),
        _ => None,
    }
}

// The status of an outcome, as a byte: 1 for a wrapped key that was new already.
pub(crate) fn outcome_byte(outcome: Result<Rewrapped, Refusal>) -> u8 {
    match outcome {
        Ok(Rewrapped::Fresh) => DONE as u8,
        Ok(Rewrapped::AlreadyNew) => ALREADY_NEW as u8,
        Err(Refusal::BadLength) => BAD_LENGTH as u8,
        Err(Refusal::Integrity) => INTEGRITY as u8,
        Err(Refusal::KeyNotPlain) => KEY_NOT_PLAIN as u8,
    }
}
