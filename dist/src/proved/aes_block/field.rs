// Written by generate/erase.py from crates/aes_block/src/field.rt, which has the contracts.

//! The field of 256 elements (FIPS 197, section 4).

/// The product of two bytes in the field (FIPS 197, 4.2).
#[inline]
pub fn mul(a: u8, b: u8) -> u8 {
    let mut sum = 0;
    let mut shifted = a;
    for i in 0..8u32 {
        if (b >> i) & 1 == 1 {
            sum ^= shifted;
        }
        shifted = x_times(shifted);
    }
    sum
}

// The product with the polynomial x, which FIPS 197, 4.2, calls xTimes.
#[inline]
fn x_times(a: u8) -> u8 {
    if a & 0x80 == 0 {
        a << 1
    } else {
        (a << 1) ^ 0x1B
    }
}

/// The inverse of a byte in the field, and 00 for 00 (FIPS 197, 4.4).
#[inline]
pub fn inverse(a: u8) -> u8 {
    let a2 = mul(a, a);
    let a4 = mul(a2, a2);
    let a8 = mul(a4, a4);
    let a16 = mul(a8, a8);
    let a32 = mul(a16, a16);
    let a64 = mul(a32, a32);
    let a128 = mul(a64, a64);
    mul(mul(mul(mul(mul(mul(a2, a4), a8), a16), a32), a64), a128)
}
