// Written by generate/erase.py from crates/key_wrap_lanes/src/lib.rt, which has the contracts.

//! The steps of many wrappings of one length at once, or of many unwrappings: for an AES outside the
//! program that works on many blocks side by side.
//!
//! The texts follow each other in one buffer, and each has its block of 16 bytes in another.
//! A text is 8 bytes and the registers. The calls of `key_wrap_core` for one text are made
//! once for all. Each returns `BadLength`, with everything as it was, if no plain wrapped key has
//! the length `text_len`, there are not as many texts as blocks (and statuses), or the number of
//! steps is not one at which the call can be made.

mod lanes;
mod stepping;
mod unwrap_many;
mod wrap_many;

pub use unwrap_many::{begin_unwrap_many, end_unwrap_many, step_unwrap_many};
pub use wrap_many::{begin_wrap_many, end_wrap_many, step_wrap_many};
