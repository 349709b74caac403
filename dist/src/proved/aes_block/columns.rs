// Written by generate/erase.py from crates/aes_block/src/columns.rt, which has the contracts.

//! The columns of the state as words, and what a round makes of each (FIPS 197, sections 5.1 and
//! 5.3), by the word tables.

use crate::proved::aes_block::word_tables::{inv_mixed, mixed_sbox};
use crate::proved::aes_block::{inv_sbox, sbox};
use crate::byteorder::{BigEndian, ByteOrder};

// The columns of a block, lent as a slice: of an array by value a proof doesn't know that all of
// its 16 elements are bytes.
#[inline]
pub(crate) fn columns_of(block: &[u8]) -> [u32; 4] {
    let mut columns = [0; 4];
    BigEndian::read_u32_into(block, &mut columns);
    columns
}

// The block of four columns.
#[inline]
pub(crate) fn block_of(columns: [u32; 4]) -> [u8; 16] {
    let mut block = [0; 16];
    BigEndian::write_u32_into(&columns, &mut block);
    block
}

// A column after a round, from the columns in which ShiftRows finds its rows 0 to 3.
#[inline]
pub(crate) fn round_column(rows_from: [u32; 4], key: u32) -> u32 {
    let [a, b, c, d] = diagonal(rows_from);
    mixed_sbox(a)
        ^ mixed_sbox(b).rotate_right(8)
        ^ mixed_sbox(c).rotate_right(16)
        ^ mixed_sbox(d).rotate_right(24)
        ^ key
}

// A column after the last round, which does not mix it.
#[inline]
pub(crate) fn last_column(rows_from: [u32; 4], key: u32) -> u32 {
    let [a, b, c, d] = diagonal(rows_from);
    u32::from_be_bytes([sbox(a), sbox(b), sbox(c), sbox(d)]) ^ key
}

// A column after a round of the inverse cipher, from the columns in which InvShiftRows finds its
// rows 0 to 3.
#[inline]
pub(crate) fn inv_round_column(rows_from: [u32; 4], key: u32) -> u32 {
    let [a, b, c, d] = diagonal(rows_from);
    let [key_a, key_b, key_c, key_d] = key.to_be_bytes();
    inv_mixed(inv_sbox(a) ^ key_a)
        ^ inv_mixed(inv_sbox(b) ^ key_b).rotate_right(8)
        ^ inv_mixed(inv_sbox(c) ^ key_c).rotate_right(16)
        ^ inv_mixed(inv_sbox(d) ^ key_d).rotate_right(24)
}

// A column after the last round of the inverse cipher, which does not mix it.
#[inline]
pub(crate) fn inv_last_column(rows_from: [u32; 4], key: u32) -> u32 {
    let [a, b, c, d] = diagonal(rows_from);
    u32::from_be_bytes([inv_sbox(a), inv_sbox(b), inv_sbox(c), inv_sbox(d)]) ^ key
}

// The byte of row 0 from the first word, of row 1 from the second, and so on.
#[inline]
fn diagonal(rows_from: [u32; 4]) -> [u8; 4] {
    let [a, b, c, d] = rows_from;
    [
        a.to_be_bytes()[0],
        b.to_be_bytes()[1],
        c.to_be_bytes()[2],
        d.to_be_bytes()[3],
    ]
}
