// Written by generate/erase.py from crates/key_wrap_core/src/rewrapping.rt, which has the contracts.

//! Rewrapping in the caller's buffer: from one pair to another, with the form kept or changed, and
//! past what is new already. It takes no memory, and a refusal leaves the buffer as it was.

use crate::proved::key_wrap_core::agreed_form::AgreedForm;
use crate::proved::key_wrap_core::checks::{DEFAULT_IV, given_length, is_zero, padded_difference, padded_iv};
use crate::proved::key_wrap_core::faults::Refusal;
use crate::proved::key_wrap_core::found::{decide_or_restore, either, plain_difference, unwrap_buffer, wrap_buffer};
use crate::proved::key_wrap_core::lengths::{WORD, padded_text_length_ok};
use crate::proved::block_pair::{BlockPair, Meter};

/// The old and the new form of a rewrapping.
#[derive(Clone, Copy, Debug)]
pub enum RewrapForms {
    /// The form of the wrapped key, which is kept. The initial value is the default.
    Kept,
    /// The old form and the new one, which may be the same.
    Changed {
        /// The form of the old wrapped key.
        old: AgreedForm,
        /// The form of the new wrapped key.
        new: AgreedForm,
    },
}

/// What a rewrapping made.
#[derive(Clone, Copy, Debug, PartialEq, Eq)]
pub enum Rewrapped {
    /// The buffer holds the new wrapped key.
    Fresh,
    /// The buffer was the new wrapped key already.
    AlreadyNew,
}

/// Rewraps the wrapped key in the buffer in place, from the old pair to the new one. With
/// `pass_new`, a wrapped key that is already under the new pair, in the new form, is left as it is.
/// The old pair is tried first. After a refusal the buffer is what it was.
pub fn rewrap<O: BlockPair, N: BlockPair>(
    old: &mut Meter<O>,
    new: &mut Meter<N>,
    forms: &RewrapForms,
    pass_new: bool,
    buf: &mut [u8],
) -> Result<Rewrapped, Refusal> {
    let fault = match rewrap_old(old, new, forms, buf) {
        Ok(()) => return Ok(Rewrapped::Fresh),
        Err(fault) => fault,
    };
    if !pass_new || fault == Refusal::KeyNotPlain {
        return Err(fault);
    }
    match find(new, &to_itself(forms), buf) {
        Ok(found) => {
            wrap_buffer(new, found, buf);
            Ok(Rewrapped::AlreadyNew)
        }
        Err(_) => Err(fault),
    }
}

// Rewraps a wrapping under the old pair. A refusal leaves the buffer as it was.
fn rewrap_old<O: BlockPair, N: BlockPair>(
    old: &mut Meter<O>,
    new: &mut Meter<N>,
    forms: &RewrapForms,
    buf: &mut [u8],
) -> Result<(), Refusal> {
    let found = match find(old, forms, buf) {
        Ok(found) => found,
        Err(fault) => return Err(fault),
    };
    let (misfit, iv) = fit(forms, found, &buf[WORD..]);
    let () = if let Ok(()) = decide_or_restore(old, found, misfit, buf) { () } else {
        return Err(Refusal::KeyNotPlain);
    };
    wrap_buffer(new, iv, buf);
    Ok(())
}

// Unwraps a wrapping in one of the old forms. A refusal leaves the buffer as it was.
fn find<B: BlockPair>(
    meter: &mut Meter<B>,
    forms: &RewrapForms,
    buf: &mut [u8],
) -> Result<u64, Refusal> {
    if !rewrap_length_ok(forms, buf.len()) {
        return Err(Refusal::BadLength);
    }
    let found = unwrap_buffer(meter, buf);
    let difference = old_difference(forms, found, &buf[WORD..]);
    let () = if let Ok(()) = decide_or_restore(meter, found, difference, buf) { () } else {
        return Err(Refusal::Integrity);
    };
    Ok(found)
}

/// The forms of a rewrapping from the new pair to itself.
pub fn to_itself(forms: &RewrapForms) -> RewrapForms {
    match forms {
        RewrapForms::Kept => RewrapForms::Kept,
        RewrapForms::Changed { new, .. } => {
            let old = *new;
            RewrapForms::Changed { old, new: *new }
        }
    }
}

/// Whether `len` bytes can be a wrapped key in one of the old forms.
pub fn rewrap_length_ok(forms: &RewrapForms, len: usize) -> bool {
    match forms {
        RewrapForms::Kept => padded_text_length_ok(len),
        RewrapForms::Changed { old, .. } => old.takes_text(len),
    }
}

/// 0 if the initial value and the registers hold a key in one of the old forms.
pub fn old_difference(forms: &RewrapForms, iv: u64, registers: &[u8]) -> u64 {
    match forms {
        RewrapForms::Kept => {
            let plain = plain_difference(DEFAULT_IV, iv, registers);
            either(plain, padded_difference(iv, registers))
        }
        RewrapForms::Changed { old, .. } => match old {
            AgreedForm::Plain(agreed) => plain_difference(agreed.word(), iv, registers),
            AgreedForm::Padded => padded_difference(iv, registers),
        },
    }
}

/// 0 if the length of the key that they hold is legal in the new form, and the initial value under
/// which they hold it there. A padded key may have a length that no plain key has: it does not fill
/// its words, or has only one word.
pub fn fit(forms: &RewrapForms, iv: u64, registers: &[u8]) -> (u64, u64) {
    match forms {
        RewrapForms::Kept => (0, iv),
        RewrapForms::Changed { old, new } => match (old, new) {
            (AgreedForm::Plain(_), AgreedForm::Padded) => (0, padded_iv(registers.len())),
            (AgreedForm::Padded, AgreedForm::Plain(agreed)) => {
                let one_word = is_zero((registers.len() - WORD) as u64);
                let misfit = one_word | (given_length(iv) ^ registers.len() as u64);
                (misfit, agreed.word())
            }
            (AgreedForm::Plain(_), AgreedForm::Plain(agreed)) => (0, agreed.word()),
            (AgreedForm::Padded, AgreedForm::Padded) => (0, iv),
        },
    }
}
