// Written by generate/erase.py from crates/key_wrap_core/src/kinds.rt, which has the contracts.

//! Which form a wrapped key is wrapped in.

use crate::proved::key_wrap_core::any_form::unwrap_any_into;
use crate::proved::key_wrap_core::faults::InPlaceFault;
use crate::proved::key_wrap_core::forms::{Form, FoundKey, Kind};
use crate::proved::key_wrap_core::initial_value::InitialValue;
use crate::proved::key_wrap_core::lengths::padded_text_length_ok;
use crate::proved::block_pair::{BlockPair, Meter};

/// Returns the form in which `text` is the wrapping of a key under the meter's pair, or `Neither`.
/// No wrapped key has both forms. The scratch buffer must be 8 bytes shorter than `text`, and
/// becomes zeros. If the length of `text` is legal in neither form, the result is `Neither`, and
/// the scratch buffer may have any length and is unchanged.
///
/// `BadLength`, with the buffer and the meter unchanged, exactly if the length of `text` is legal
/// and the scratch buffer has the wrong length. There is no other fault.
pub fn kind_into<B: BlockPair>(
    meter: &mut Meter<B>,
    text: &[u8],
    scratch: &mut [u8],
) -> Result<Kind, InPlaceFault> {
    kind_into_with(meter, &InitialValue::default(), text, scratch)
}

/// Does what `kind_into` does, with this initial value of the plain form (RFC 3394, section
/// 2.2.3.2).
pub fn kind_into_with<B: BlockPair>(
    meter: &mut Meter<B>,
    iv: &InitialValue,
    text: &[u8],
    scratch: &mut [u8],
) -> Result<Kind, InPlaceFault> {
    if !padded_text_length_ok(text.len()) {
        return Ok(Kind::Neither);
    }
    match unwrap_any_into(meter, iv, text, scratch) {
        Ok(found) => {
            scratch.fill(0);
            Ok(kind_of(found))
        }
        Err(InPlaceFault::Integrity) => Ok(Kind::Neither),
        Err(InPlaceFault::BadLength) => Err(InPlaceFault::BadLength),
    }
}

// The kind of a key that was found.
fn kind_of(found: FoundKey) -> Kind {
    match found.form {
        Form::Plain => Kind::Plain(found.len),
        Form::Padded => Kind::Padded(found.len),
    }
}
