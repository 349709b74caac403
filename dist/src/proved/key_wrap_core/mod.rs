// Written by generate/erase.py from crates/key_wrap_core/src/lib.rt, which has the contracts.

//! The AES Key Wrap of RFC 3394 and RFC 5649 over any block permutation, in the caller's buffers.
//!
//! A key is wrapped under a block permutation, a `pair`, AES under a KEK for one, and unwrapped
//! again:
//!
//! ```text
//! let aes = Aes::new(&kek)?;
//! let mut meter = Meter::new(&aes);
//! wrap_into(&mut meter, &key, &mut wrapped)?;
//! unwrap_into(&mut meter, &wrapped, &mut key)?;
//! ```
//!
//! No call takes memory. `key_wrap` has calls that return a `Vec`. `key_wrap_steps` has calls that make
//! one step: what takes a block, registers or an initial value as a word is here for them.

mod agreed_form;
mod any_form;
mod checks;
mod faults;
mod forms;
mod found;
mod in_place;
mod initial_value;
mod into;
mod into_with;
mod kinds;
mod lengths;
mod machine;
mod rewrapping;
mod steps;
mod unwrapping;

pub use agreed_form::AgreedForm;
pub use any_form::{unwrap_any_in_place, unwrap_any_into};
pub use checks::{decide, padded_iv};
pub use faults::{InPlaceFault, Refusal, ReservedIv};
pub use forms::{Form, FoundKey, Kind};
pub use in_place::{unwrap_in_place, unwrap_padded_in_place, wrap_in_place, wrap_padded_in_place};
pub use initial_value::InitialValue;
pub use into::{unwrap_into, unwrap_padded_into, wrap_into, wrap_padded_into};
pub use into_with::{unwrap_into_with, wrap_into_with};
pub use kinds::{kind_into, kind_into_with};
pub use lengths::{
    MAX_KEY, WORD, key_length_ok, padded_length_ok, padded_text_length_ok, text_len, text_length_ok,
};
pub use rewrapping::{RewrapForms, Rewrapped, fit, old_difference, rewrap, rewrap_length_ok, to_itself};
pub use steps::{
    first_block, last_block, register_after, register_before, registers_ok, step_count,
    step_registers, unstep_registers,
};
pub use unwrapping::{end_any, end_padded, end_plain};
