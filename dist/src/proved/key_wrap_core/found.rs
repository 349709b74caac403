// Written by generate/erase.py from crates/key_wrap_core/src/found.rt, which has the contracts.

//! Wraps a buffer, unwraps one before its form is known, compares what it found with the plain form,
//! and wraps it again if it was refused. No branch depends on the key's length.
use crate::proved::key_wrap_core::checks::is_zero;
use crate::proved::key_wrap_core::faults::InPlaceFault;
use crate::proved::key_wrap_core::lengths::WORD;
use crate::proved::key_wrap_core::machine::{machine_unwrap, machine_wrap};
use crate::proved::block_pair::{BlockPair, Meter};
use crate::byteorder::{BigEndian, ByteOrder};

// Unwraps C1 .. Cn after the first word of the buffer in place, with no check. Returns the initial value
// found. For two words and more both forms unwrap by the same steps.
pub(crate) fn unwrap_buffer<B: BlockPair>(meter: &mut Meter<B>, buf: &mut [u8]) -> u64 {
    let c0 = BigEndian::read_u64(buf);
    machine_unwrap(meter, c0, &mut buf[WORD..])
}

// Wraps the registers after the first word of the buffer in place, under this initial value: under the
// value with which they were found, the buffer becomes the text again.
pub(crate) fn wrap_buffer<B: BlockPair>(meter: &mut Meter<B>, iv: u64, buf: &mut [u8]) {
    let c0 = machine_wrap(meter, iv, &mut buf[WORD..]);
    BigEndian::write_u64(buf, c0);
}

// The one decision over a difference: if it is not 0, the registers become the text again. Not
// inlined, so that a tool that follows secrets can name the one place in which control depends on
// them. Returns no `bool`: the compiler would return the comparison itself, and the callers would
// branch on the secret again.
#[inline(never)]
pub(crate) fn decide_or_restore<B: BlockPair>(
    meter: &mut Meter<B>,
    found: u64,
    difference: u64,
    buf: &mut [u8],
) -> Result<(), InPlaceFault> {
    if difference == 0 {
        return Ok(());
    }
    wrap_buffer(meter, found, buf);
    Err(InPlaceFault::Integrity)
}

// 0 if the registers are a plain key under the initial value found, which is the expected one. One
// word of key data is wrapped only in the padded form.
pub(crate) fn plain_difference(expected: u64, iv: u64, registers: &[u8]) -> u64 {
    if registers.len() == WORD {
        return 1;
    }
    iv ^ expected
}

// 0 if one of the two is 0, with no branch.
pub(crate) fn either(first: u64, second: u64) -> u64 {
    is_zero(is_zero(first) + is_zero(second))
}
