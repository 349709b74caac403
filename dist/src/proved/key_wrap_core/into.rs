// Written by generate/erase.py from crates/key_wrap_core/src/into.rt, which has the contracts.

//! The calls from one of the caller's buffers into another. They take no memory.
use crate::proved::key_wrap_core::faults::InPlaceFault;
use crate::proved::key_wrap_core::in_place::wrap_padded_in_place;
use crate::proved::key_wrap_core::initial_value::InitialValue;
use crate::proved::key_wrap_core::into_with::{unwrap_into_with, wrap_into_with};
use crate::proved::key_wrap_core::lengths::{WORD, padded_length_ok, padded_text_length_ok, text_len};
use crate::proved::key_wrap_core::unwrapping::unwrap_padded_registers;
use crate::proved::block_pair::{BlockPair, Meter};
use crate::byteorder::{BigEndian, ByteOrder};

/// Writes the plain wrapping of `key` into `text` (RFC 3394, section 2.2.1).
///
/// `BadLength`, with `text` and the meter unchanged, if `key_length_ok` is false for the key's
/// length, or if `text` is not 8 bytes longer than the key.
pub fn wrap_into<B: BlockPair>(
    meter: &mut Meter<B>,
    key: &[u8],
    text: &mut [u8],
) -> Result<(), InPlaceFault> {
    wrap_into_with(meter, &InitialValue::default(), key, text)
}

/// Writes the key whose plain wrapping is `text` into `key` (RFC 3394, section 2.2.2).
///
/// `BadLength`, with the key's buffer and the meter unchanged, if `text_length_ok` is false for
/// `text`'s length, or if the key's buffer is not 8 bytes shorter. `Integrity` if `text` is not a
/// valid plain wrapping; then every byte of the key's buffer becomes zero, and the meter counts as
/// many calls as for a key.
pub fn unwrap_into<B: BlockPair>(
    meter: &mut Meter<B>,
    text: &[u8],
    key: &mut [u8],
) -> Result<(), InPlaceFault> {
    unwrap_into_with(meter, &InitialValue::default(), text, key)
}

/// Writes the padded wrapping of `key` into `text` (RFC 5649, section 4.1).
///
/// `BadLength`, with `text` and the meter unchanged, if `padded_length_ok` is false for the key's
/// length, or if `text` is not 8 bytes longer than this length rounded up to a multiple of 8.
pub fn wrap_padded_into<B: BlockPair>(
    meter: &mut Meter<B>,
    key: &[u8],
    text: &mut [u8],
) -> Result<(), InPlaceFault> {
    let m = key.len();
    if !padded_length_ok(m) || text.len() != text_len(m) {
        return Err(InPlaceFault::BadLength);
    }
    text[WORD..WORD + m].copy_from_slice(key);
    wrap_padded_in_place(meter, text, m)
}

/// Writes the key whose padded wrapping is `text` into `key`, and zero bytes to the end of the
/// buffer (RFC 5649, section 4.2). Returns the length of the key.
///
/// `BadLength`, with the key's buffer and the meter unchanged, if `padded_text_length_ok` is false
/// for `text`'s length, or if the key's buffer is not 8 bytes shorter. `Integrity` if `text` is not a
/// valid padded wrapping; then every byte of the key's buffer becomes zero, and the meter counts as
/// many calls as for a key.
pub fn unwrap_padded_into<B: BlockPair>(
    meter: &mut Meter<B>,
    text: &[u8],
    key: &mut [u8],
) -> Result<usize, InPlaceFault> {
    if !padded_text_length_ok(text.len()) || key.len() != text.len() - WORD {
        return Err(InPlaceFault::BadLength);
    }
    key.copy_from_slice(&text[WORD..]);
    unwrap_padded_registers(meter, BigEndian::read_u64(text), key)
}
