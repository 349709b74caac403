// Written by generate/erase.py from crates/key_wrap_core/src/any_form.rt, which has the contracts.

//! The unwrapping of a key in whichever form it is wrapped, in the caller's buffers. It takes no
//! memory.

use crate::proved::key_wrap_core::faults::InPlaceFault;
use crate::proved::key_wrap_core::forms::FoundKey;
use crate::proved::key_wrap_core::in_place::take_first;
use crate::proved::key_wrap_core::initial_value::InitialValue;
use crate::proved::key_wrap_core::lengths::{WORD, padded_text_length_ok};
use crate::proved::key_wrap_core::unwrapping::unwrap_any_registers;
use crate::proved::block_pair::{BlockPair, Meter};
use crate::byteorder::{BigEndian, ByteOrder};

/// Unwraps the wrapped key in the buffer, in whichever form it is: the plain one with this initial
/// value, or the padded one. No wrapped key has both. The buffer becomes 8 zero bytes, the key, and
/// zero bytes to the end. Returns the form and the length of the key.
///
/// `BadLength`, with the buffer and the meter unchanged, if the buffer's length is legal in neither
/// form. `Integrity` if the buffer is not a valid wrapped key in either form. Then every byte of it
/// becomes zero, and the meter counts as many calls as for a key.
pub fn unwrap_any_in_place<B: BlockPair>(
    meter: &mut Meter<B>,
    iv: &InitialValue,
    buf: &mut [u8],
) -> Result<FoundKey, InPlaceFault> {
    if !padded_text_length_ok(buf.len()) {
        return Err(InPlaceFault::BadLength);
    }
    let c0 = take_first(buf);
    unwrap_any_registers(meter, iv.word(), c0, &mut buf[WORD..])
}

/// Writes the key whose wrapping is `text`, in whichever form, into `key`, and zero bytes to the
/// end of the buffer. The plain form has this initial value. Returns the form and the length of the
/// key.
///
/// `BadLength`, with the key's buffer and the meter unchanged, if the length of `text` is legal in
/// neither form, or if the key's buffer is not 8 bytes shorter. `Integrity` if `text` is not a valid
/// wrapped key in either form. Then every byte of the key's buffer becomes zero, and the meter counts
/// as many calls as for a key.
pub fn unwrap_any_into<B: BlockPair>(
    meter: &mut Meter<B>,
    iv: &InitialValue,
    text: &[u8],
    key: &mut [u8],
) -> Result<FoundKey, InPlaceFault> {
    if !padded_text_length_ok(text.len()) || key.len() != text.len() - WORD {
        return Err(InPlaceFault::BadLength);
    }
    key.copy_from_slice(&text[WORD..]);
    unwrap_any_registers(meter, iv.word(), BigEndian::read_u64(text), key)
}
