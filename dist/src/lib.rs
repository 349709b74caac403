//! AES Key Wrap, plain (RFC 3394) and padded (RFC 5649), by AES-128, AES-192 and AES-256.
//!
//! A key-encryption key (KEK) wraps a key. Unwrapping gives the key back, or fails the integrity
//! check. The calls have the names of RustCrypto's `aes-kw` 0.2.
//!
//! ```
//! # #[cfg(feature = "alloc")]
//! # fn main() -> keywrap::Result<()> {
//! use keywrap::{Error, KekAes128};
//!
//! let kek = KekAes128::from([7; 16]);
//! let mut wrapped = kek.wrap_vec(b"a key of 24 bytes or so.")?;
//! assert_eq!(kek.unwrap_vec(&wrapped)?, b"a key of 24 bytes or so.");
//!
//! wrapped[3] ^= 1;
//! assert_eq!(kek.unwrap_vec(&wrapped), Err(Error::IntegrityCheckFailed));
//! # Ok(())
//! # }
//! # #[cfg(not(feature = "alloc"))]
//! # fn main() {}
//! ```
//!
//! - [`Kek`] and its aliases hold a KEK. [`KekSlice`] has the calls, and also borrows a KEK whose
//!   length is only known at run time. [`KeptKek`] is expanded once, for many calls.
//! - The plain form takes keys of 16 bytes or more, a multiple of 8, the padded form of 1 or more.
//!   Both take up to [`KEYWRAP_MAX_KEY`] bytes.
//! - [`generic::Kek`] wraps under any block cipher. [`steps`] is for one that may fail, as a KEK that
//!   never leaves a token, also for many keys at once.
//! - No call panics. Only the calls that end in `_vec` and those of `steps::many` allocate.
//!
//! The module `proved` is the proved code, without its contracts. It has no unsafe code. Its README says
//! what is proved and what is trusted.
//!
//! # Features
//!
//! - `std` (default): [`Error`] implements `std::error::Error`. It includes `alloc`.
//! - `alloc`: the calls that end in `_vec`, and the module `steps::many`.
//! - `zeroize`: a [`Kek`] is cleared when it is dropped.
//! - `tables`: AES is by the proved tables, also where the processor has AES instructions.
//! - `c`: the calls are those of keywrap.c, which a C compiler compiles. [`generic`] does not change.

#![no_std]
#![deny(unsafe_code)]
#![warn(missing_docs, unsafe_op_in_unsafe_fn)]

#[cfg(feature = "alloc")]
extern crate alloc;
#[cfg(any(feature = "std", test))]
extern crate std;

#[cfg(not(feature = "c"))]
mod aes;
mod byteorder;
#[cfg(not(feature = "c"))]
mod calls;
#[cfg(feature = "c")]
#[path = "c.rs"]
mod calls;
mod cast;
mod clear;
mod error;
pub mod generic;
mod kek;
mod many;
// Its documentation names registers as the standard does: R[1].
#[allow(rustdoc::broken_intra_doc_links)]
#[rustfmt::skip]
mod proved;
pub mod steps;
mod sys;

pub use error::{Error, Result};
pub use kek::{
    Form, Forms, Kek, KekAes128, KekAes192, KekAes256, KekSlice, KeptKek, Kind, Rewrapped,
};
pub use many::Status;
pub use sys::{KEYWRAP_MAX_KEY, KEYWRAP_MAX_TEXT};

/// The default initial value of the plain form.
pub const IV: [u8; 8] = [0xa6; 8];

/// Returns the version: major, minor and patch. Between two releases it is the next
/// one's.
#[must_use]
pub fn version() -> [u8; 3] {
    let [_, major, minor, patch] = calls::version().to_be_bytes();
    [major, minor, patch]
}

/// Wraps and unwraps the published vectors of RFC 3394 and RFC 5649, and unwraps a damaged wrapped
/// key. Fails if a result is wrong.
pub fn self_test() -> Result<()> {
    match calls::self_test() {
        sys::KEYWRAP_OK => Ok(()),
        _ => Err(Error::IntegrityCheckFailed),
    }
}

/// Returns the length of the plain wrapped key of a key of `key_len` bytes.
#[must_use]
pub const fn text_len(key_len: usize) -> usize {
    key_len.saturating_add(8)
}

/// Returns the length of the padded wrapped key of a key of `key_len` bytes.
#[must_use]
pub const fn padded_text_len(key_len: usize) -> usize {
    text_len(key_len.saturating_add(7) / 8 * 8)
}

/// Returns the length of the buffer that an unwrap fills, in either form.
#[must_use]
pub const fn room(wrapped_len: usize) -> usize {
    wrapped_len.saturating_sub(8)
}
