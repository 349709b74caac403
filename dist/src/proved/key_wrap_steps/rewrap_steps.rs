// Written by generate/erase.py from crates/key_wrap_steps/src/rewrap_steps.rt, which has the contracts.

//! A rewrapping step by step, for two block permutations that are not values in memory: the AES of two
//! tokens, or of the processor.
//!
//! A rewrapping is a sequence of runs: each applies one operation, `RewrapPhase`, to the block before
//! every step, until no step is left. Between two runs `next_rewrap` decides everything: whether the
//! text is the wrapping of a key, in which form, whether the key fits the new form, and whether the
//! text is new already. The caller decides nothing, and after a refusal the text is what it was.

use crate::byteorder::{BigEndian, ByteOrder};
use crate::proved::key_wrap_core::{
    InPlaceFault, Refusal, RewrapForms, Rewrapped, WORD, decide, first_block, fit, last_block,
    old_difference, padded_text_length_ok, rewrap_length_ok, step_count, to_itself,
};

/// What a rewrapping is to do.
#[derive(Clone, Copy, Debug)]
pub struct RewrapRequest {
    /// The old and the new form.
    pub forms: RewrapForms,
    /// Whether a text that is new already is passed.
    pub pass_new: bool,
}

/// What is done with each block of a run before its step.
#[derive(Clone, Copy, Debug, PartialEq, Eq)]
pub enum RewrapPhase {
    /// It is decrypted under the old pair, and a step is undone.
    UnwrapOld,
    /// It is encrypted under the old pair, and a step is made: the refused text is restored.
    WrapOld(Refusal),
    /// It is decrypted under the new pair, and a step is undone: the text that is refused under the
    /// old pair may be new already.
    UnwrapNew(Refusal),
    /// It is encrypted under the new pair, and a step is made. The rewrapping ends with this outcome.
    WrapNew(Result<Rewrapped, Refusal>),
}

/// What follows a run.
#[derive(Clone, Copy, Debug, PartialEq, Eq)]
pub enum RewrapNext {
    /// Another run.
    Run(RewrapPhase),
    /// The end of the rewrapping.
    Done(Result<Rewrapped, Refusal>),
}

/// Begins a rewrapping of the text: `steps` becomes the number of steps of the first run, and the
/// block the first block for the operation of this run.
///
/// `BadLength`, with everything as it was, if the text has a length that is legal in no old form, nor,
/// if what is new already is passed, in the new one.
pub fn begin_rewrap(
    request: &RewrapRequest,
    text: &[u8],
    steps: &mut u64,
    block: &mut [u8; 16],
) -> Result<RewrapPhase, Refusal> {
    if rewrap_length_ok(&request.forms, text.len()) {
        begin_text(text, steps, block);
        return Ok(RewrapPhase::UnwrapOld);
    }
    if request.pass_new && rewrap_length_ok(&to_itself(&request.forms), text.len()) {
        begin_text(text, steps, block);
        return Ok(RewrapPhase::UnwrapNew(Refusal::BadLength));
    }
    Err(Refusal::BadLength)
}

/// Ends a run of this phase, and begins the next one, if there is one. At the end of the rewrapping the
/// text is what the outcome says.
///
/// `BadLength`, with everything as it was, if the text has no legal length, or the run has not ended.
pub fn next_rewrap(
    request: &RewrapRequest,
    phase: RewrapPhase,
    text: &mut [u8],
    steps: &mut u64,
    block: &mut [u8; 16],
) -> Result<RewrapNext, InPlaceFault> {
    if !has_ended(&phase, *steps, text.len()) {
        return Err(InPlaceFault::BadLength);
    }
    match phase {
        RewrapPhase::UnwrapOld => Ok(RewrapNext::Run(end_unwrap_old(&request.forms, text, block))),
        RewrapPhase::WrapOld(fault) => {
            put_first(text, block);
            Ok(after_old(request, fault, text, steps, block))
        }
        RewrapPhase::UnwrapNew(fault) => {
            let outcome = end_unwrap_new(&request.forms, fault, text, block);
            Ok(RewrapNext::Run(RewrapPhase::WrapNew(outcome)))
        }
        RewrapPhase::WrapNew(outcome) => {
            put_first(text, block);
            Ok(RewrapNext::Done(outcome))
        }
    }
}

/// As `next_rewrap`, but a refused text is restored from a copy, which the caller made before the
/// rewrapping, and not by a run of its own.
///
/// `BadLength`, with everything as it was, also if the copy has another length than the text.
pub fn next_rewrap_from(
    request: &RewrapRequest,
    phase: RewrapPhase,
    copy: &[u8],
    text: &mut [u8],
    steps: &mut u64,
    block: &mut [u8; 16],
) -> Result<RewrapNext, InPlaceFault> {
    if copy.len() != text.len() || !has_ended(&phase, *steps, text.len()) {
        return Err(InPlaceFault::BadLength);
    }
    match phase {
        RewrapPhase::UnwrapOld => match end_unwrap_old(&request.forms, text, block) {
            RewrapPhase::WrapOld(fault) => {
                text.copy_from_slice(copy);
                Ok(after_old(request, fault, text, steps, block))
            }
            next => Ok(RewrapNext::Run(next)),
        },
        RewrapPhase::UnwrapNew(fault) => {
            let outcome = end_unwrap_new(&request.forms, fault, text, block);
            text.copy_from_slice(copy);
            Ok(RewrapNext::Done(outcome))
        }
        RewrapPhase::WrapOld(fault) => {
            put_first(text, block);
            Ok(after_old(request, fault, text, steps, block))
        }
        RewrapPhase::WrapNew(outcome) => {
            put_first(text, block);
            Ok(RewrapNext::Done(outcome))
        }
    }
}

// Whether no step of a run is left, over a text of a legal length.
fn has_ended(phase: &RewrapPhase, steps: u64, len: usize) -> bool {
    padded_text_length_ok(len) && steps == end_of(phase, len)
}

// The number of steps at the end of a run.
fn end_of(phase: &RewrapPhase, len: usize) -> u64 {
    match phase {
        RewrapPhase::UnwrapOld => 0,
        RewrapPhase::WrapOld(_) => step_count(len - WORD),
        RewrapPhase::UnwrapNew(_) => 0,
        RewrapPhase::WrapNew(_) => step_count(len - WORD),
    }
}

// The number of steps of an unwrapping, and its first block.
fn begin_text(text: &[u8], steps: &mut u64, block: &mut [u8; 16]) {
    *steps = step_count(text.len() - WORD);
    *block = last_block(BigEndian::read_u64(text), &text[WORD..]);
}

// The first word of what was wrapped.
fn put_first(text: &mut [u8], block: &[u8; 16]) {
    text[..WORD].copy_from_slice(&block[..WORD]);
}

/// Returns what follows the unwrapping under the old pair: what was found is wrapped under the new one if
/// it is a key that fits, or else under the old one again. The block becomes the first one of that run.
pub fn end_unwrap_old(forms: &RewrapForms, text: &[u8], block: &mut [u8; 16]) -> RewrapPhase {
    let found = BigEndian::read_u64(&block[..]);
    let registers = &text[WORD..];
    let difference = old_difference(forms, found, registers);
    let (misfit, iv) = fit(forms, found, registers);
    let () = if let Ok(()) = decide(difference, &mut []) { () } else {
        *block = first_block(found, registers);
        return RewrapPhase::WrapOld(Refusal::Integrity);
    };
    let () = if let Ok(()) = decide(misfit, &mut []) { () } else {
        *block = first_block(found, registers);
        return RewrapPhase::WrapOld(Refusal::KeyNotPlain);
    };
    *block = first_block(iv, registers);
    RewrapPhase::WrapNew(Ok(Rewrapped::Fresh))
}

// The text is restored. It may be new already.
fn after_old(
    request: &RewrapRequest,
    fault: Refusal,
    text: &[u8],
    steps: &mut u64,
    block: &mut [u8; 16],
) -> RewrapNext {
    if !request.pass_new || fault == Refusal::KeyNotPlain {
        return RewrapNext::Done(Err(fault));
    }
    if !rewrap_length_ok(&to_itself(&request.forms), text.len()) {
        return RewrapNext::Done(Err(fault));
    }
    begin_text(text, steps, block);
    RewrapNext::Run(RewrapPhase::UnwrapNew(fault))
}

/// Returns the outcome after the unwrapping under the new pair of a text that has this fault: the text is
/// new if a key was found. The block becomes the first one of a run that restores the text under the new
/// pair. A text that is restored in another way needs no run.
pub fn end_unwrap_new(
    forms: &RewrapForms,
    fault: Refusal,
    text: &[u8],
    block: &mut [u8; 16],
) -> Result<Rewrapped, Refusal> {
    let found = BigEndian::read_u64(&block[..]);
    let registers = &text[WORD..];
    let difference = old_difference(&to_itself(forms), found, registers);
    *block = first_block(found, registers);
    match decide(difference, &mut []) {
        Ok(()) => Ok(Rewrapped::AlreadyNew),
        Err(_) => Err(fault),
    }
}
