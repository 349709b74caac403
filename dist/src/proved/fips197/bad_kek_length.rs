// Written by generate/erase.py from crates/fips197/src/bad_kek_length.rt, which has the contracts.

//! The error for a key-encryption key of the wrong length.

/// A key's length is not 16, 24 or 32 bytes.
#[derive(Clone, Copy, Debug, PartialEq, Eq)]
pub struct BadKekLength;
