// Written by generate/erase.py from crates/key_wrap_core/src/in_place.rt, which has the contracts.

//! The calls in the caller's buffer. They take no memory.
use crate::proved::key_wrap_core::checks::{DEFAULT_IV, padded_iv};
use crate::proved::key_wrap_core::faults::InPlaceFault;
use crate::proved::key_wrap_core::found::wrap_buffer;
use crate::proved::key_wrap_core::lengths::{WORD, padded_length_ok, padded_text_length_ok, text_len, text_length_ok};
use crate::proved::key_wrap_core::unwrapping::{unwrap_padded_registers, unwrap_registers};
use crate::proved::block_pair::{BlockPair, Meter};
use crate::byteorder::{BigEndian, ByteOrder};

/// Wraps the key at offset 8 in place (RFC 3394, section 2.2.1). Afterwards the whole buffer is the
/// plain wrapping. The first 8 bytes are ignored.
///
/// `BadLength`, with the buffer and the meter unchanged, if `text_length_ok` is false for the
/// buffer's length.
pub fn wrap_in_place<B: BlockPair>(meter: &mut Meter<B>, buf: &mut [u8]) -> Result<(), InPlaceFault> {
    if !text_length_ok(buf.len()) {
        return Err(InPlaceFault::BadLength);
    }
    wrap_buffer(meter, DEFAULT_IV, buf);
    Ok(())
}

/// Unwraps the plain wrapping in the buffer, which becomes 8 zero bytes and the key (RFC 3394,
/// section 2.2.2).
///
/// `BadLength`, with the buffer and the meter unchanged, if `text_length_ok` is false for the
/// buffer's length. `Integrity` if the buffer is not a valid plain wrapping; then every byte of it
/// becomes zero, and the meter counts as many calls as for a key.
pub fn unwrap_in_place<B: BlockPair>(
    meter: &mut Meter<B>,
    buf: &mut [u8],
) -> Result<(), InPlaceFault> {
    if !text_length_ok(buf.len()) {
        return Err(InPlaceFault::BadLength);
    }
    let c0 = take_first(buf);
    unwrap_registers(meter, DEFAULT_IV, c0, &mut buf[WORD..])
}

/// Wraps the `m`-byte key at offset 8 in place (RFC 5649, section 4.1). Afterwards the whole buffer
/// is the padded wrapping. Other bytes of the buffer are ignored.
///
/// `BadLength`, with the buffer and the meter unchanged, if `padded_length_ok` is false for `m`, or
/// if the buffer is not 8 bytes longer than `m` rounded up to a multiple of 8.
pub fn wrap_padded_in_place<B: BlockPair>(
    meter: &mut Meter<B>,
    buf: &mut [u8],
    m: usize,
) -> Result<(), InPlaceFault> {
    if !padded_length_ok(m) || buf.len() != text_len(m) {
        return Err(InPlaceFault::BadLength);
    }
    buf[WORD + m..].fill(0);
    wrap_buffer(meter, padded_iv(m), buf);
    Ok(())
}

/// Unwraps the padded wrapping in the buffer, which becomes 8 zero bytes, the key, and zero bytes
/// to the end (RFC 5649, section 4.2). Returns the length of the key.
///
/// `BadLength`, with the buffer and the meter unchanged, if `padded_text_length_ok` is false for
/// the buffer's length. `Integrity` if the buffer is not a valid padded wrapping; then every byte of
/// it becomes zero, and the meter counts as many calls as for a key.
pub fn unwrap_padded_in_place<B: BlockPair>(
    meter: &mut Meter<B>,
    buf: &mut [u8],
) -> Result<usize, InPlaceFault> {
    if !padded_text_length_ok(buf.len()) {
        return Err(InPlaceFault::BadLength);
    }
    let c0 = take_first(buf);
    unwrap_padded_registers(meter, c0, &mut buf[WORD..])
}

// The first word of a text, which becomes zeros.
pub(crate) fn take_first(buf: &mut [u8]) -> u64 {
    let first = BigEndian::read_u64(buf);
    buf[..WORD].fill(0);
    first
}
