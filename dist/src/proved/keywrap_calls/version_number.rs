// Written by generate/erase.py from crates/keywrap_calls/src/version_number.rt, which has the contracts.

//! Which library this is.

/// The version 1.3.0, as `KEYWRAP_VERSION` of `keywrap.h`: 16, 8 and 8 bits.
pub fn version() -> u32 {
    0x0001_0300
}
