// Written by generate/erase.py from crates/block_pair/src/lib.rt, which has the contracts.

//! Block permutations: a permutation of 16-byte blocks, given with its inverse.

mod halves;
mod meter;

pub use halves::SwapHalves;
pub use meter::Meter;

/// A permutation of blocks of 16 bytes and its inverse, as RFC 3394, section 2, uses them: a block
/// cipher under one key.
pub trait BlockPair {

    /// Encrypts one block.
    fn enc(&self, b: [u8; 16]) -> [u8; 16];

    /// Decrypts one block.
    fn dec(&self, b: [u8; 16]) -> [u8; 16];
}
