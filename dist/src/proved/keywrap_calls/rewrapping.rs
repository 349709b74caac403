// Written by generate/erase.py from crates/keywrap_calls/src/rewrapping.rt, which has the contracts.

//! Rewrapping in one buffer: from one KEK and form to another, the key never given out.

use crate::proved::keywrap_calls::keks::aes_of;
use crate::proved::keywrap_calls::status::{BAD_KEK, BAD_LENGTH, DONE, INTEGRITY, KEY_NOT_PLAIN};
use crate::proved::block_pair::{BlockPair, Meter};
use crate::proved::fips197::KeyInit;
use crate::proved::key_wrap_core::{Form, Refusal, RewrapForms, Rewrapped};
use crate::proved::key_wrap_steps::RewrapRequest;

// The flag beside the forms: a wrapped key that is new already is passed.
const PASS_NEW: u32 = 8;

/// Replaces the wrapped key in `buffer`, under the old KEK, by the same key wrapped under the new
/// KEK, of the same length (RFC 3394 and RFC 5649). `keywrap.h` has the `flags`. `*already` is
/// 1 if the wrapped key was under the new KEK already, else 0.
///
/// After each refusal the buffer is what it was. `KEY_NOT_PLAIN` means that the wrapped key is
/// genuine, but that its key has a length that no plain key has.
pub fn rewrap<A: KeyInit>(
    schedules: (A::Schedule, A::Schedule),
    old_kek: &[u8],
    new_kek: &[u8],
    buffer: &mut [u8],
    flags: u32,
    already: &mut u32,
) -> i32 {
    *already = 0;
    let old = if let Some(old) = aes_of::<A>(old_kek, schedules.0) { old } else {
        return BAD_KEK;
    };
    let new = if let Some(new) = aes_of::<A>(new_kek, schedules.1) { new } else {
        return BAD_KEK;
    };
    let request = if let Some(request) = request_of(flags) { request } else {
        return BAD_LENGTH;
    };
    let outcome = rewrap_as(
        &mut Meter::new(&old),
        &mut Meter::new(&new),
        &request,
        buffer,
    );
    report(outcome, already)
}

/// The call of version 1.0: `forms` has a flag for each wrapped key with the padded form, and no
/// other bit. It returns what `rewrap` returns, with two differences. A key whose length is not
/// legal in the new form is `BAD_LENGTH`, and after this refusal and after `INTEGRITY` every byte
/// of the buffer is zero.
pub fn rewrap_in_place<A: KeyInit>(
    schedules: (A::Schedule, A::Schedule),
    old_kek: &[u8],
    new_kek: &[u8],
    buffer: &mut [u8],
    forms: u32,
) -> i32 {
    let old = if let Some(old) = aes_of::<A>(old_kek, schedules.0) { old } else {
        return BAD_KEK;
    };
    let new = if let Some(new) = aes_of::<A>(new_kek, schedules.1) { new } else {
        return BAD_KEK;
    };
    if forms > 3 {
        return BAD_LENGTH;
    }
    let request = if let Some(request) = request_of(forms) { request } else {
        return BAD_LENGTH;
    };
    let outcome = rewrap_as(
        &mut Meter::new(&old),
        &mut Meter::new(&new),
        &request,
        buffer,
    );
    in_place_status(outcome, buffer)
}

// The status of version 1.0, and its buffer.
fn in_place_status(outcome: Result<Rewrapped, Refusal>, buffer: &mut [u8]) -> i32 {
    match outcome {
        Ok(_) => DONE,
        Err(Refusal::BadLength) => BAD_LENGTH,
        Err(Refusal::Integrity) => {
            buffer.fill(0);
            INTEGRITY
        }
        Err(Refusal::KeyNotPlain) => {
            buffer.fill(0);
            BAD_LENGTH
        }
    }
}

// Rewraps as requested, under any pairs. Not inlined, its frame lies over what the making
// of the key schedules left on the stack.
#[inline(never)]
pub(crate) fn rewrap_as<O: BlockPair, N: BlockPair>(
    old: &mut Meter<O>,
    new: &mut Meter<N>,
    request: &RewrapRequest,
    buf: &mut [u8],
) -> Result<Rewrapped, Refusal> {
    crate::proved::key_wrap_core::rewrap(old, new, &request.forms, request.pass_new, buf)
}

// What the flags request.
pub(crate) fn request_of(flags: u32) -> Option<RewrapRequest> {
    let forms = forms_of(flags)?;
    let pass_new = flags >= PASS_NEW;
    Some(RewrapRequest { forms, pass_new })
}

// The forms that the flags request. Bit 0: the old form is padded. Bit 1: the new form is padded. Bit 2:
// the form is kept.
fn forms_of(flags: u32) -> Option<RewrapForms> {
    match flags {
        0 | 8 => Some(RewrapForms::by_default(Form::Plain, Form::Plain)),
        1 | 9 => Some(RewrapForms::by_default(Form::Padded, Form::Plain)),
        2 | 10 => Some(RewrapForms::by_default(Form::Plain, Form::Padded)),
        3 | 11 => Some(RewrapForms::by_default(Form::Padded, Form::Padded)),
        4 | 12 => Some(RewrapForms::Kept),
        _ => None,
    }
}

// The status of an outcome, and 1 for a wrapped key that was new already, else 0.
fn report(outcome: Result<Rewrapped, Refusal>, already: &mut u32) -> i32 {
    *already = u32::from(outcome == Ok(Rewrapped::AlreadyNew));
    match outcome {
        Ok(_) => DONE,
        Err(Refusal::BadLength) => BAD_LENGTH,
        Err(Refusal::Integrity) => INTEGRITY,
        Err(Refusal::KeyNotPlain) => KEY_NOT_PLAIN,
    }
}
