// Written by generate/erase.py from crates/keywrap_calls/src/arguments.rt, which has the contracts.

//! Arguments of the exports, as C passes them.

/// Bytes that a call reads: a pointer and a length.
pub type In<'a> = &'a [u8];

/// A buffer that a call writes, and may read: a pointer and a length.
pub type Out<'a> = &'a mut [u8];
