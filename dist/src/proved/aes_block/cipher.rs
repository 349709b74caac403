// Written by generate/erase.py from crates/aes_block/src/cipher.rt, which has the contracts.

//! The cipher and the inverse cipher (FIPS 197, sections 5.1 and 5.3): AES as a block permutation.
//!
//! The state is four words, its columns. A round makes each column of the next state from the four
//! columns in which ShiftRows, or its inverse, finds the column's rows.

use crate::proved::aes_block::columns::{
    block_of, columns_of, inv_last_column, inv_round_column, last_column, round_column,
};
use crate::proved::aes_block::schedule::Aes;
use crate::proved::block_pair::BlockPair;

impl BlockPair for Aes {

    // Cipher (FIPS 197, 5.1).
    #[inline]
    fn enc(&self, b: [u8; 16]) -> [u8; 16] {
        let last = self.rounds() as usize;
        let mut state = add_round_key(self.round_key(0), columns_of(&b));
        for k in 1..last {
            // A result that is written straight into an existing array is not checked.
            let next = round(self.round_key(k), state);
            state = next;
        }
        block_of(last_round(self.round_key(last), state))
    }

    // InvCipher (FIPS 197, 5.3).
    #[inline]
    fn dec(&self, b: [u8; 16]) -> [u8; 16] {
        let last = self.rounds() as usize;
        let mut state = add_round_key(self.round_key(last), columns_of(&b));
        for k in (1..last).rev() {
            // As in `enc`.
            let next = inv_round(self.round_key(k), state);
            state = next;
        }
        block_of(inv_last_round(self.round_key(0), state))
    }
}

// AddRoundKey (FIPS 197, 5.1.4).
#[inline]
fn add_round_key(round_key: [u32; 4], state: [u32; 4]) -> [u32; 4] {
    let [a, b, c, d] = state;
    let [key_a, key_b, key_c, key_d] = round_key;
    [a ^ key_a, b ^ key_b, c ^ key_c, d ^ key_d]
}

// A round, with its round key.
#[inline]
fn round(round_key: [u32; 4], state: [u32; 4]) -> [u32; 4] {
    let [a, b, c, d] = state;
    let [key_a, key_b, key_c, key_d] = round_key;
    [
        round_column([a, b, c, d], key_a),
        round_column([b, c, d, a], key_b),
        round_column([c, d, a, b], key_c),
        round_column([d, a, b, c], key_d),
    ]
}

// The last round, which does not mix the columns.
#[inline]
fn last_round(round_key: [u32; 4], state: [u32; 4]) -> [u32; 4] {
    let [a, b, c, d] = state;
    let [key_a, key_b, key_c, key_d] = round_key;
    [
        last_column([a, b, c, d], key_a),
        last_column([b, c, d, a], key_b),
        last_column([c, d, a, b], key_c),
        last_column([d, a, b, c], key_d),
    ]
}

// A round of the inverse cipher, in the order of section 5.3: InvShiftRows, InvSubBytes,
// AddRoundKey, InvMixColumns.
#[inline]
fn inv_round(round_key: [u32; 4], state: [u32; 4]) -> [u32; 4] {
    let [a, b, c, d] = state;
    let [key_a, key_b, key_c, key_d] = round_key;
    [
        inv_round_column([a, d, c, b], key_a),
        inv_round_column([b, a, d, c], key_b),
        inv_round_column([c, b, a, d], key_c),
        inv_round_column([d, c, b, a], key_d),
    ]
}

// The last round of the inverse cipher, which does not mix the columns.
#[inline]
fn inv_last_round(round_key: [u32; 4], state: [u32; 4]) -> [u32; 4] {
    let [a, b, c, d] = state;
    let [key_a, key_b, key_c, key_d] = round_key;
    [
        inv_last_column([a, d, c, b], key_a),
        inv_last_column([b, a, d, c], key_b),
        inv_last_column([c, b, a, d], key_c),
        inv_last_column([d, c, b, a], key_d),
    ]
}
