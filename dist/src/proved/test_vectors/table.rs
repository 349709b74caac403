// Written by generate/erase.py from crates/test_vectors/src/table.rt, which has the contracts.

//! The table of the published vectors.

use crate::proved::test_vectors::bytes::{
    DATA_16, DATA_24, DATA_32, DATA_FIPS197_1, DATA_RFC5649_7, DATA_RFC5649_20, FIPS197_1,
    FIPS197_2, FIPS197_3, FIPS197_4, KEY_16, KEY_24, KEY_32, KEY_FIPS197_1, KEY_RFC5649,
    RFC3394_4_1, RFC3394_4_2, RFC3394_4_3, RFC3394_4_4, RFC3394_4_5, RFC3394_4_6, RFC5649_7,
    RFC5649_20,
};

/// The algorithm of a vector.
#[derive(Clone, Copy)]
pub enum Algorithm {
    /// AES Key Wrap, from key data to its wrapping (RFC 3394).
    KeyWrap,
    /// AES Key Wrap with Padding (RFC 5649).
    KeyWrapWithPadding,
    /// The encryption of one block (FIPS 197).
    Encryption,
}

/// One vector.
#[derive(Clone, Copy)]
pub struct Vector<'a> {
    /// The standard, and the section or the number in it.
    pub name: &'a str,
    /// The algorithm that takes the input to the output.
    pub algorithm: Algorithm,
    /// The KEK, or the key of the cipher.
    pub key: &'a [u8],
    /// The key data, or the block.
    pub input: &'a [u8],
    /// The wrapped key data, or the encrypted block.
    pub output: &'a [u8],
}

const VECTORS: [Vector<'static>; 12] = [
    Vector {
        name: "rfc3394 4.1",
        algorithm: Algorithm::KeyWrap,
        key: KEY_16,
        input: DATA_16,
        output: RFC3394_4_1,
    },
    Vector {
        name: "rfc3394 4.2",
        algorithm: Algorithm::KeyWrap,
        key: KEY_24,
        input: DATA_16,
        output: RFC3394_4_2,
    },
    Vector {
        name: "rfc3394 4.3",
        algorithm: Algorithm::KeyWrap,
        key: KEY_32,
        input: DATA_16,
        output: RFC3394_4_3,
    },
    Vector {
        name: "rfc3394 4.4",
        algorithm: Algorithm::KeyWrap,
        key: KEY_24,
        input: DATA_24,
        output: RFC3394_4_4,
    },
    Vector {
        name: "rfc3394 4.5",
        algorithm: Algorithm::KeyWrap,
        key: KEY_32,
        input: DATA_24,
        output: RFC3394_4_5,
    },
    Vector {
        name: "rfc3394 4.6",
        algorithm: Algorithm::KeyWrap,
        key: KEY_32,
        input: DATA_32,
        output: RFC3394_4_6,
    },
    Vector {
        name: "rfc5649 20",
        algorithm: Algorithm::KeyWrapWithPadding,
        key: KEY_RFC5649,
        input: DATA_RFC5649_20,
        output: RFC5649_20,
    },
    Vector {
        name: "rfc5649 7",
        algorithm: Algorithm::KeyWrapWithPadding,
        key: KEY_RFC5649,
        input: DATA_RFC5649_7,
        output: RFC5649_7,
    },
    Vector {
        name: "fips197 1",
        algorithm: Algorithm::Encryption,
        key: KEY_FIPS197_1,
        input: DATA_FIPS197_1,
        output: FIPS197_1,
    },
    Vector {
        name: "fips197 2",
        algorithm: Algorithm::Encryption,
        key: KEY_16,
        input: DATA_16,
        output: FIPS197_2,
    },
    Vector {
        name: "fips197 3",
        algorithm: Algorithm::Encryption,
        key: KEY_24,
        input: DATA_16,
        output: FIPS197_3,
    },
    Vector {
        name: "fips197 4",
        algorithm: Algorithm::Encryption,
        key: KEY_32,
        input: DATA_16,
        output: FIPS197_4,
    },
];

/// Returns the published vectors: RFC 3394, sections 4.1 to 4.6; RFC 5649, section 6; FIPS 197, appendix
/// B and C.1 to C.3.
pub fn published() -> [Vector<'static>; 12] {
    VECTORS
}
