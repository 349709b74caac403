//! Key wrap under any block cipher: `Kek<Aes>` of RustCrypto's `aes-kw`, with [`BlockPair`] in the
//! place of `BlockEncrypt + BlockDecrypt`.
//!
//! ```
//! use keywrap::generic::{BlockPair, Kek};
//!
//! /// A toy cipher.
//! struct Reversal;
//!
//! impl BlockPair for Reversal {
//!     fn enc(&self, mut block: [u8; 16]) -> [u8; 16] {
//!         block.reverse();
//!         block
//!     }
//!
//!     fn dec(&self, block: [u8; 16]) -> [u8; 16] {
//!         self.enc(block)
//!     }
//! }
//!
//! let kek = Kek::new(Reversal);
//! let (mut wrapped, mut key) = ([0; 24], [0; 16]);
//! kek.wrap(&[5; 16], &mut wrapped)?;
//! kek.unwrap(&wrapped, &mut key)?;
//! assert_eq!(key, [5; 16]);
//! # Ok::<(), keywrap::Error>(())
//! ```
//!
//! The calls are those of [`KekSlice`](crate::KekSlice), which are by AES. The proofs hold for every
//! block cipher. A cipher that may fail, or is asynchronous, takes [`steps`](crate::steps).

use crate::error::{Error, Result};
use crate::kek::{Form, Forms, Kind, Rewrapped};
use crate::proved::block_pair::Meter;
use crate::proved::key_wrap_core::{self as core_calls, InPlaceFault, InitialValue, Refusal};
use crate::room;
use core::fmt;

#[cfg(feature = "alloc")]
use crate::{kek::filled, padded_text_len, text_len};
#[cfg(feature = "alloc")]
use alloc::vec::Vec;

pub use crate::proved::block_pair::BlockPair;

/// A key-encryption key: a block cipher under one key. It is cleared as the cipher clears itself.
#[derive(Clone)]
pub struct Kek<B: BlockPair>(B);

impl<B: BlockPair> Kek<B> {
    /// Takes a block cipher under one key.
    #[must_use]
    pub fn new(cipher: B) -> Self {
        Self(cipher)
    }

    /// The cipher, with the count of its calls that the proved code keeps.
    fn meter(&self) -> Meter<'_, B> {
        Meter::new(&self.0)
    }

    /// Wraps the key `data` in the plain form.
    pub fn wrap(&self, data: &[u8], out: &mut [u8]) -> Result<()> {
        let wrapped = core_calls::wrap_into(&mut self.meter(), data, out);
        wrapped.map_err(|fault| of_wrap(fault, Form::Plain, data.len()))
    }

    /// Wraps the key `data` in the plain form, under an initial value that both ends agreed on.
    pub fn wrap_with_iv(&self, iv: &[u8; 8], data: &[u8], out: &mut [u8]) -> Result<()> {
        let iv = InitialValue::new(*iv).map_err(|_| Error::InvalidIv)?;
        let wrapped = core_calls::wrap_into_with(&mut self.meter(), &iv, data, out);
        wrapped.map_err(|fault| of_wrap(fault, Form::Plain, data.len()))
    }

    /// Wraps the key `data` in the padded form.
    pub fn wrap_with_padding(&self, data: &[u8], out: &mut [u8]) -> Result<()> {
        let wrapped = core_calls::wrap_padded_into(&mut self.meter(), data, out);
        wrapped.map_err(|fault| of_wrap(fault, Form::Padded, data.len()))
    }

    /// Unwraps `data` in the plain form: `out` is the key.
    pub fn unwrap(&self, data: &[u8], out: &mut [u8]) -> Result<()> {
        let unwrapped = core_calls::unwrap_into(&mut self.meter(), data, out);
        unwrapped.map_err(|fault| of_unwrap(fault, Form::Plain, data.len()))
    }

    /// Unwraps `data` in the plain form, under an initial value that both ends agreed on: `out` is
    /// the key.
    pub fn unwrap_with_iv(&self, iv: &[u8; 8], data: &[u8], out: &mut [u8]) -> Result<()> {
        let iv = InitialValue::new(*iv).map_err(|_| Error::InvalidIv)?;
        let unwrapped = core_calls::unwrap_into_with(&mut self.meter(), &iv, data, out);
        unwrapped.map_err(|fault| of_unwrap(fault, Form::Plain, data.len()))
    }

    /// Unwraps `data` in the padded form, and returns the key, which is the start of `out`. Zeros
    /// come after it.
    pub fn unwrap_with_padding<'a>(&self, data: &[u8], out: &'a mut [u8]) -> Result<&'a [u8]> {
        let unwrapped = core_calls::unwrap_padded_into(&mut self.meter(), data, out);
        let key_len = unwrapped.map_err(|fault| of_unwrap(fault, Form::Padded, data.len()))?;
        out.get(..key_len).ok_or(Error::IntegrityCheckFailed)
    }

    /// Unwraps `data` in the form that it has. Returns the form and the key, which is the start of
    /// `out`. Zeros come after it.
    pub fn unwrap_any<'a>(&self, data: &[u8], out: &'a mut [u8]) -> Result<(Form, &'a [u8])> {
        let iv = InitialValue::default();
        let unwrapped = core_calls::unwrap_any_into(&mut self.meter(), &iv, data, out);
        let found = unwrapped.map_err(|fault| of_unwrap(fault, Form::Padded, data.len()))?;
        let key = out.get(..found.len).ok_or(Error::IntegrityCheckFailed)?;
        Ok((Form::from_proved(found.form), key))
    }

    /// Finds the form of the wrapped key `data` and the length of its key. The buffer `scratch` has
    /// [`room`] bytes. It is all zeros afterwards, or unchanged after an error for a length.
    ///
    /// A length that neither form has is [`Error::IntegrityCheckFailed`].
    pub fn kind(&self, data: &[u8], scratch: &mut [u8]) -> Result<Kind> {
        let expected = room(data.len());
        let kind = core_calls::kind_into(&mut self.meter(), data, scratch)
            .map_err(|fault| of_fault(fault, true, expected))?;
        let (form, key_len) = match kind {
            core_calls::Kind::Plain(key_len) => (Form::Plain, key_len),
            core_calls::Kind::Padded(key_len) => (Form::Padded, key_len),
            core_calls::Kind::Neither => return Err(Error::IntegrityCheckFailed),
        };
        Ok(Kind { form, key_len })
    }

    /// Wraps the key of the wrapped key `buffer`, which is under this KEK, under `new_kek`, in the
    /// same buffer, as [`rewrap`](crate::KekSlice::rewrap) does. After any error the buffer is
    /// unchanged.
    pub fn rewrap<N: BlockPair>(
        &self,
        new_kek: &Kek<N>,
        buffer: &mut [u8],
        forms: Forms,
        pass_new: bool,
    ) -> Result<Rewrapped> {
        let (old, new) = (&mut self.meter(), &mut new_kek.meter());
        match core_calls::rewrap(old, new, &forms.proved(), pass_new, buffer) {
            Ok(core_calls::Rewrapped::Fresh) => Ok(Rewrapped::Fresh),
            Ok(core_calls::Rewrapped::AlreadyNew) => Ok(Rewrapped::AlreadyNew),
            Err(Refusal::BadLength) => Err(Error::InvalidDataSize),
            Err(Refusal::Integrity) => Err(Error::IntegrityCheckFailed),
            Err(Refusal::KeyNotPlain) => Err(Error::KeyNotPlain),
        }
    }
}

/// The same calls, which return the result. If the key is too long, no call allocates more than the
/// longest key needs.
#[cfg(feature = "alloc")]
impl<B: BlockPair> Kek<B> {
    /// Wraps the key `data` in the plain form.
    pub fn wrap_vec(&self, data: &[u8]) -> Result<Vec<u8>> {
        filled(text_len(data.len()), |out| self.wrap(data, out))
    }

    /// Wraps the key `data` in the padded form.
    pub fn wrap_with_padding_vec(&self, data: &[u8]) -> Result<Vec<u8>> {
        filled(padded_text_len(data.len()), |out| {
            self.wrap_with_padding(data, out)
        })
    }

    /// Unwraps `data` in the plain form, and returns the key.
    pub fn unwrap_vec(&self, data: &[u8]) -> Result<Vec<u8>> {
        filled(room(data.len()), |out| self.unwrap(data, out))
    }

    /// Unwraps `data` in the padded form, and returns the key.
    pub fn unwrap_with_padding_vec(&self, data: &[u8]) -> Result<Vec<u8>> {
        let mut key_len = 0;
        let mut key = filled(room(data.len()), |out| {
            key_len = self.unwrap_with_padding(data, out)?.len();
            Ok(())
        })?;
        key.truncate(key_len);
        Ok(key)
    }
}

impl<B: BlockPair> fmt::Debug for Kek<B> {
    fn fmt(&self, f: &mut fmt::Formatter<'_>) -> fmt::Result {
        f.write_str("Kek")
    }
}

/// The error of a wrap.
fn of_wrap(fault: InPlaceFault, form: Form, key_len: usize) -> Error {
    of_fault(fault, form.has_key_of(key_len), form.text_len(key_len))
}

/// The error of an unwrap.
fn of_unwrap(fault: InPlaceFault, form: Form, text_len: usize) -> Error {
    of_fault(fault, form.has_text_of(text_len), room(text_len))
}

fn of_fault(fault: InPlaceFault, data_is_legal: bool, expected: usize) -> Error {
    match fault {
        InPlaceFault::BadLength => Error::of_length(data_is_legal, expected),
        InPlaceFault::Integrity => Error::IntegrityCheckFailed,
    }
}
