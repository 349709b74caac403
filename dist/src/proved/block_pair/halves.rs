// Written by generate/erase.py from crates/block_pair/src/halves.rt, which has the contracts.

//! The drill block.

use crate::proved::block_pair::BlockPair;

/// The drill block: a toy cipher that swaps the halves of a block, so that answers can be checked
/// by hand. It hides nothing.
#[derive(Clone, Copy, Debug)]
pub struct SwapHalves;

impl BlockPair for SwapHalves {

    fn enc(&self, b: [u8; 16]) -> [u8; 16] {
        swap_halves(b)
    }

    fn dec(&self, b: [u8; 16]) -> [u8; 16] {
        swap_halves(b)
    }
}

// Exchanges bytes 0 to 7 with bytes 8 to 15.
fn swap_halves(mut b: [u8; 16]) -> [u8; 16] {
    b.rotate_left(8);
    b
}
