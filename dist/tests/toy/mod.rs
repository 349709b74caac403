//! A toy cipher: each byte of a block is changed by the one before it, in this order.

use std::convert::Infallible;

pub fn encrypt(block: &mut [u8; 16]) -> Result<(), Infallible> {
    for at in 0..16 {
        block[at] ^= block[(at + 15) % 16].wrapping_mul(3) ^ 9;
    }
    Ok(())
}

pub fn decrypt(block: &mut [u8; 16]) -> Result<(), Infallible> {
    for at in (0..16).rev() {
        block[at] ^= block[(at + 15) % 16].wrapping_mul(3) ^ 9;
    }
    Ok(())
}
