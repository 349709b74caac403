// Written by generate/erase.py from crates/key_wrap_core/src/into_with.rt, which has the contracts.

//! The plain calls from one of the caller's buffers into another, under an initial value that both
//! ends agreed on. They take no memory.
use crate::proved::key_wrap_core::faults::InPlaceFault;
use crate::proved::key_wrap_core::found::wrap_buffer;
use crate::proved::key_wrap_core::initial_value::InitialValue;
use crate::proved::key_wrap_core::lengths::{WORD, key_length_ok, text_length_ok};
use crate::proved::key_wrap_core::unwrapping::unwrap_registers;
use crate::proved::block_pair::{BlockPair, Meter};
use crate::byteorder::{BigEndian, ByteOrder};

/// Writes the plain wrapping of `key` under this initial value into `text` (RFC 3394, sections
/// 2.2.1 and 2.2.3.2).
///
/// `BadLength`, with `text` and the meter unchanged, if `key_length_ok` is false for the key's
/// length, or if `text` is not 8 bytes longer than the key.
pub fn wrap_into_with<B: BlockPair>(
    meter: &mut Meter<B>,
    iv: &InitialValue,
    key: &[u8],
    text: &mut [u8],
) -> Result<(), InPlaceFault> {
    if !key_length_ok(key.len()) || text.len() != key.len() + WORD {
        return Err(InPlaceFault::BadLength);
    }
    text[WORD..].copy_from_slice(key);
    wrap_buffer(meter, iv.word(), text);
    Ok(())
}

/// Writes the key whose plain wrapping under this initial value is `text` into `key` (RFC 3394,
/// sections 2.2.2 and 2.2.3.2).
///
/// `BadLength`, with the key's buffer and the meter unchanged, if `text_length_ok` is false for
/// `text`'s length, or if the key's buffer is not 8 bytes shorter. `Integrity` if `text` is not a
/// valid plain wrapping under this initial value; then every byte of the key's buffer becomes
/// zero, and the meter counts as many calls as for a key.
pub fn unwrap_into_with<B: BlockPair>(
    meter: &mut Meter<B>,
    iv: &InitialValue,
    text: &[u8],
    key: &mut [u8],
) -> Result<(), InPlaceFault> {
    if !text_length_ok(text.len()) || key.len() != text.len() - WORD {
        return Err(InPlaceFault::BadLength);
    }
    key.copy_from_slice(&text[WORD..]);
    unwrap_registers(meter, iv.word(), BigEndian::read_u64(text), key)
}
