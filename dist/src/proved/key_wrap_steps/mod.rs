// Written by generate/erase.py from crates/key_wrap_steps/src/lib.rt, which has the contracts.

//! The AES Key Wrap step by step, for a block permutation that is not a value in memory: the AES of a
//! token, or of the processor. The caller encrypts or decrypts the block between two steps.

mod rewrap_steps;
mod unwrap_steps;
mod wrap_steps;

pub use rewrap_steps::{
    RewrapNext, RewrapPhase, RewrapRequest, begin_rewrap, end_unwrap_new, end_unwrap_old,
    next_rewrap, next_rewrap_from,
};
pub use unwrap_steps::{
    begin_unwrap, begin_unwrap_padded, end_unwrap, end_unwrap_any, end_unwrap_padded, step_unwrap,
};
pub use wrap_steps::{begin_wrap, begin_wrap_padded, end_wrap, step_wrap};
