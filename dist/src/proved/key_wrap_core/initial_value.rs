// Written by generate/erase.py from crates/key_wrap_core/src/initial_value.rt, which has the contracts.

//! The initial values that both ends may agree on in place of the default.

use crate::proved::key_wrap_core::checks::{AIV_PREFIX, DEFAULT_IV};
use crate::proved::key_wrap_core::faults::ReservedIv;
use crate::byteorder::{BigEndian, ByteOrder};

/// An initial value of the plain form (RFC 3394, section 2.2.3): eight bytes, the first four of
/// which are not A65959A6. Contracts see it as its word.
#[derive(Clone, Copy, Debug, PartialEq, Eq)]
pub struct InitialValue {
    word: u64,
}

impl InitialValue {
    /// Returns the initial value of these bytes. Refuses exactly the values whose first four bytes
    /// are A65959A6: the padded form uses them, so no wrapped key is valid in both forms.
    pub fn new(bytes: [u8; 8]) -> Result<InitialValue, ReservedIv> {
        let word = BigEndian::read_u64(&bytes);
        if word >> 32 == u64::from(AIV_PREFIX) {
            return Err(ReservedIv);
        }
        Ok(InitialValue { word })
    }

    /// The eight bytes.
    pub fn bytes(&self) -> [u8; 8] {
        self.word.to_be_bytes()
    }

    /// The word.
    pub fn word(&self) -> u64 {
        self.word
    }
}

/// The default initial value, A6A6A6A6A6A6A6A6 (RFC 3394, section 2.2.3.1).
impl Default for InitialValue {
    fn default() -> InitialValue {
        InitialValue { word: DEFAULT_IV }
    }
}
