// Written by generate/erase.py from crates/test_vectors/src/lib.rt, which has the contracts.

//! The published vectors of RFC 3394, RFC 5649 and FIPS 197, as bytes and as a table.

pub mod bytes;
mod table;

pub use table::{Algorithm, Vector, published};
