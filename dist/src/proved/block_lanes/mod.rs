// Written by generate/erase.py from crates/block_lanes/src/lib.rt, which has the contracts.

//! Block permutations that work on many blocks at once.

mod one_by_one;

use crate::proved::block_pair::BlockPair;
pub use one_by_one::OneByOne;

/// The bytes of a block.
pub const BLOCK: usize = 16;

/// A block permutation that works on many blocks at once. These methods take one block after
/// another; an AES that can work on blocks side by side has its own.
pub trait BlockLanes: BlockPair {
    /// Encrypts each block of a buffer of whole blocks.
    fn encrypt_many(&self, blocks: &mut [u8]) {
        for place in 0..blocks.len() / BLOCK {
            let start = BLOCK * place;
            let mut block = [0; BLOCK];
            block.copy_from_slice(&blocks[start..start + BLOCK]);
            blocks[start..start + BLOCK].copy_from_slice(&self.enc(block));
        }
    }

    /// Decrypts each block of a buffer of whole blocks.
    fn decrypt_many(&self, blocks: &mut [u8]) {
        for place in 0..blocks.len() / BLOCK {
            let start = BLOCK * place;
            let mut block = [0; BLOCK];
            block.copy_from_slice(&blocks[start..start + BLOCK]);
            blocks[start..start + BLOCK].copy_from_slice(&self.dec(block));
        }
    }
}
