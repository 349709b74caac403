// Written by generate/erase.py from crates/key_wrap_core/src/checks.rt, which has the contracts.

//! The initial values, the checks of an unwrapped one, in the padded form of the padding too, and
//! the one decision over them.

use crate::proved::key_wrap_core::faults::InPlaceFault;
use crate::proved::key_wrap_core::lengths::{WORD};
use crate::byteorder::{BigEndian, ByteOrder};

// The default initial value (RFC 3394, section 2.2.3.1).
pub(crate) const DEFAULT_IV: u64 = 0xA6A6_A6A6_A6A6_A6A6;

// The first four bytes of the alternative initial value (RFC 5649, section 3).
pub(crate) const AIV_PREFIX: u32 = 0xA659_59A6;

/// The alternative initial value of a key of `len` bytes (RFC 5649, section 3).
pub fn padded_iv(len: usize) -> u64 {
    (u64::from(AIV_PREFIX) << 32) + len as u64
}

/// The only decision of an unwrapping, in either form: if the value found differs from the value
/// expected, the registers become zeros. Each caller has computed the whole difference before, so
/// nothing shows which check failed, or at which byte. Not inlined, so that a tool that follows
/// secrets can name the one place in which control depends on them.
#[inline(never)]
pub fn decide(difference: u64, registers: &mut [u8]) -> Result<(), InPlaceFault> {
    if difference == 0 {
        return Ok(());
    }
    registers.fill(0);
    Err(InPlaceFault::Integrity)
}

// 1 for 0 and 0 for any other number, with no branch.
pub(crate) fn is_zero(number: u64) -> u64 {
    u64::from(number == 0)
}

// The length of the key that an initial value of the padded form gives: its last four bytes.
pub(crate) fn given_length(iv: u64) -> u64 {
    iv % (1 << 32)
}

// 0 if the registers pass, under this initial value, the three checks of RFC 5649, section 3: the
// prefix, the range of the length, the zero padding. All three are computed, with no branch and no
// index that depends on the registers or the initial value.
pub(crate) fn padded_difference(iv: u64, registers: &[u8]) -> u64 {
    let prefix = (iv >> 32) ^ u64::from(AIV_PREFIX);
    // At least 8, and far more, if the length is not in its range.
    let padding = (registers.len() as u64).wrapping_sub(given_length(iv));
    let last = BigEndian::read_u64(&registers[registers.len() - WORD..]);
    prefix | (padding / 8) | last_bytes(last, padding % 8)
}

// The last `count` bytes of a word, as a number.
fn last_bytes(word: u64, count: u64) -> u64 {
    word & ((1 << (8 * count)) - 1)
}
