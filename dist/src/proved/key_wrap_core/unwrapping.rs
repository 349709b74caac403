// Written by generate/erase.py from crates/key_wrap_core/src/unwrapping.rt, which has the contracts.

//! The checked unwrapping of the registers, wherever they lie: in a buffer after C0, or in one of
//! their own.
use crate::proved::key_wrap_core::checks::{decide, given_length, padded_difference};
use crate::proved::key_wrap_core::faults::InPlaceFault;
use crate::proved::key_wrap_core::forms::{Form, FoundKey};
use crate::proved::key_wrap_core::found::{either, plain_difference};
use crate::proved::key_wrap_core::machine::machine_unwrap;
use crate::proved::block_pair::{BlockPair, Meter};

// Unwraps C1 .. Cn in place, in the plain form under this initial value (RFC 3394, section 2.2.2). The
// registers become the key, or zeros if the check fails.
pub(crate) fn unwrap_registers<B: BlockPair>(
    meter: &mut Meter<B>,
    iv: u64,
    c0: u64,
    registers: &mut [u8],
) -> Result<(), InPlaceFault> {
    let found = machine_unwrap(meter, c0, registers);
    end_plain(found, iv, registers)
}

/// Keeps the registers that the steps led back to if the initial value found is `iv`, and clears them if
/// it is another.
pub fn end_plain(found: u64, iv: u64, registers: &mut [u8]) -> Result<(), InPlaceFault> {
    decide(found ^ iv, registers)
}

// Unwraps C1 .. Cn in place, in the padded form (RFC 5649, section 4.2). The registers become the key
// and its padding, or zeros if the check fails. Returns the length of the key.
pub(crate) fn unwrap_padded_registers<B: BlockPair>(
    meter: &mut Meter<B>,
    c0: u64,
    registers: &mut [u8],
) -> Result<usize, InPlaceFault> {
    let found = machine_unwrap(meter, c0, registers);
    end_padded(found, registers)
}

/// Keeps the registers that the steps led back to if they hold a key under the initial value found, and
/// clears them if not. Returns the length of the key.
pub fn end_padded(found: u64, registers: &mut [u8]) -> Result<usize, InPlaceFault> {
    decide(padded_difference(found, registers), registers)?;
    Ok(given_length(found) as usize)
}

// Unwraps C1 .. Cn in place, in either form. The registers become the key, with its padding in the padded
// form, or zeros if the check fails. For two words and more both forms unwrap by the same steps.
pub(crate) fn unwrap_any_registers<B: BlockPair>(
    meter: &mut Meter<B>,
    iv: u64,
    c0: u64,
    registers: &mut [u8],
) -> Result<FoundKey, InPlaceFault> {
    let found = machine_unwrap(meter, c0, registers);
    end_any(found, iv, registers)
}

/// Keeps the registers that the steps led back to if they hold a key in either form under the initial value
/// found, and clears them if not.
pub fn end_any(found: u64, iv: u64, registers: &mut [u8]) -> Result<FoundKey, InPlaceFault> {
    let padded = padded_difference(found, registers);
    let plain = plain_difference(iv, found, registers);
    decide(either(plain, padded), registers)?;
    Ok(found_key(padded, found, registers.len()))
}

// The form and the length of the key that was found. The caller learns them. It is a padded key
// exactly if the difference from one is 0.
fn found_key(padded: u64, found: u64, len: usize) -> FoundKey {
    match decide(padded, &mut []) {
        Ok(()) => FoundKey {
            form: Form::Padded,
            len: given_length(found) as usize,
        },
        Err(_) => FoundKey {
            form: Form::Plain,
            len,
        },
    }
}
