// Written by generate/erase.py from crates/lane_runs/src/lib.rt, which has the contracts.

//! Whole wrappings and unwrappings of many texts of one length, with their blocks side by side.
//!
//! The texts follow each other in one buffer. A text is 8 bytes and the registers. Its length is that of
//! a plain wrapping: a text of 16 bytes, of a padded key of up to 8 bytes, is for the calls for one text.

mod ends;
mod kinds;
mod rewraps;
mod steps;
mod unwraps;
mod wraps;

pub use kinds::kind_texts;
pub use rewraps::rewrap_texts;
pub use unwraps::unwrap_texts;
pub use wraps::wrap_texts;

/// The length of the longest texts that `kind_texts` and `rewrap_texts` take, which copy them.
pub const MAX_COPIED: usize = 264;

// The texts of a batch: six groups of 8 blocks, for an AES that works on 8 at once.
const LANES: usize = 48;
