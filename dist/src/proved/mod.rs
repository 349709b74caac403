// Written by generate/erase.py.

//! The proved code: the crates of Rattle that make the calls, without their contracts. Each file names the file that
//! has them.

#![forbid(unsafe_code)]
// The calls use some of it only. The layout and the style are those of Rattle.
#![allow(dead_code, unused_imports, clippy::all)]

pub(crate) mod aes_block;
pub(crate) mod block_lanes;
pub(crate) mod block_pair;
pub(crate) mod fips197;
pub(crate) mod key_wrap_core;
pub(crate) mod key_wrap_lanes;
pub(crate) mod key_wrap_steps;
pub(crate) mod keywrap_calls;
pub(crate) mod lane_runs;
pub(crate) mod test_vectors;
