// Written by generate/erase.py from crates/keywrap_calls/src/lib.rt, which has the contracts.

//! The calls of the libraries, each with its status: over the caller's own buffers, without memory
//! and without state. The AES is a parameter, so that each library brings its own.

mod any_form;
mod any_steps;
mod arguments;
mod keks;
mod kinds;
mod known_answers;
mod many_kinds;
mod many_lanes;
mod many_rewraps;
mod many_slots;
mod many_wraps;
mod padded;
mod padded_in_place;
mod plain;
mod plain_in_place;
mod plain_with;
mod rewrap_steps;
mod rewrapping;
mod status;
mod texts;
mod unwrap_steps;
mod version_number;
mod wrap_steps;

pub use any_form::unwrap_any;
pub use any_steps::end_unwrap_any;
pub use arguments::{In, Out};
pub use keks::{kek_clear, kek_init};
pub use crate::proved::key_wrap_core::step_count;
pub use kinds::kind;
pub use known_answers::{TestedCalls, self_test};
pub use many_kinds::kind_many;
pub use many_lanes::{kind_many_lanes, rewrap_many_lanes, unwrap_many_lanes, wrap_many_lanes};
pub use many_rewraps::rewrap_many;
pub use many_wraps::{unwrap_many, wrap_many};
pub use padded::{unwrap_padded, wrap_padded};
pub use padded_in_place::{unwrap_padded_in_place, wrap_padded_in_place};
pub use plain::{unwrap, wrap};
pub use plain_in_place::{unwrap_in_place, wrap_in_place};
pub use plain_with::{iv_from_bytes, unwrap_with, wrap_with};
pub use rewrap_steps::{begin_rewrap, next_rewrap, next_rewrap_from};
pub use rewrapping::{rewrap, rewrap_in_place};
pub use status::{BAD_IV, BAD_KEK, BAD_LENGTH, DONE, INTEGRITY, KEY_NOT_PLAIN, NO_MEMORY};
pub use texts::status_text;
pub use unwrap_steps::{
    begin_unwrap, begin_unwrap_padded, end_unwrap, end_unwrap_padded, step_unwrap,
};
pub use version_number::version;
pub use wrap_steps::{begin_wrap, begin_wrap_padded, end_wrap, step_wrap};
