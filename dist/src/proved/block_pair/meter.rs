// Written by generate/erase.py from crates/block_pair/src/meter.rt, which has the contracts.

//! A block permutation whose calls are counted.

use crate::proved::block_pair::BlockPair;

/// A block permutation that counts its calls. Contracts see it as its `pair` and its count.
///
/// The block permutation never changes. Calls made on it directly are not counted.
pub struct Meter<'a, B: BlockPair> {
    pair: &'a B,
    count: u64,
}

impl<'a, B: BlockPair> Meter<'a, B> {
    /// A meter of this block permutation, with the count 0.
    pub fn new(pair: &'a B) -> Self {
        Meter { pair, count: 0 }
    }

    /// Encrypts one block, and counts it.
    // Without inlining, the program's two forms of wrap take a tenth longer.
    #[inline(always)]
    pub fn enc(&mut self, b: [u8; 16]) -> [u8; 16] {
        self.tick();
        self.pair.enc(b)
    }

    /// Decrypts one block, and counts it.
    pub fn dec(&mut self, b: [u8; 16]) -> [u8; 16] {
        self.tick();
        self.pair.dec(b)
    }

    fn tick(&mut self) {
        self.count = self.count.saturating_add(1);
    }

    /// How many calls were made. At `u64::MAX` the count stays there.
    pub fn count(&self) -> u64 {
        self.count
    }
}
