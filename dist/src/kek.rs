//! The calls for one key.

use crate::calls;
use crate::cast;
use crate::error::{result_of, Error, Result};
use crate::proved::key_wrap_core as proved;
use crate::sys::{
    KEYWRAP_KEEP_FORM, KEYWRAP_MAX_KEY, KEYWRAP_NEW_PADDED, KEYWRAP_OLD_PADDED, KEYWRAP_PASS_NEW,
};
use crate::{padded_text_len, room, text_len};
use core::fmt;
use core::ops::Deref;

#[cfg(feature = "alloc")]
use crate::sys::KEYWRAP_MAX_TEXT;
#[cfg(feature = "alloc")]
use alloc::{vec, vec::Vec};

/// A key-encryption key (KEK) of `N` bytes: 16, 24 or 32. With the feature `zeroize` it is cleared
/// when it is dropped.
///
/// It has the calls of [`KekSlice`].
#[derive(Clone)]
pub struct Kek<const N: usize>([u8; N]);

/// A KEK of AES-128.
pub type KekAes128 = Kek<16>;
/// A KEK of AES-192.
pub type KekAes192 = Kek<24>;
/// A KEK of AES-256.
pub type KekAes256 = Kek<32>;

impl<const N: usize> Kek<N> {
    /// Copies a KEK.
    #[must_use]
    pub fn new(kek: &[u8; N]) -> Self {
        Self(*kek)
    }
}

impl<const N: usize> From<[u8; N]> for Kek<N> {
    fn from(kek: [u8; N]) -> Self {
        Self(kek)
    }
}

impl<const N: usize> TryFrom<&[u8]> for Kek<N> {
    type Error = Error;

    fn try_from(kek: &[u8]) -> Result<Self> {
        let size = kek.len();
        kek.try_into()
            .map(Self)
            .map_err(|_| Error::InvalidKekSize { size })
    }
}

impl<const N: usize> Deref for Kek<N> {
    type Target = KekSlice;

    fn deref(&self) -> &KekSlice {
        KekSlice::new(&self.0)
    }
}

impl<const N: usize> fmt::Debug for Kek<N> {
    fn fmt(&self, f: &mut fmt::Formatter<'_>) -> fmt::Result {
        fmt::Debug::fmt(&**self, f)
    }
}

#[cfg(feature = "zeroize")]
impl<const N: usize> Drop for Kek<N> {
    fn drop(&mut self) {
        zeroize::Zeroize::zeroize(&mut self.0[..]);
    }
}

#[cfg(feature = "zeroize")]
impl<const N: usize> zeroize::ZeroizeOnDrop for Kek<N> {}

/// A KEK that is expanded once, not in each call. It is cleared when it is dropped. A move may leave
/// a copy of its bytes.
///
/// It has the calls of [`KekSlice`], and is a `&KekSlice` where a call takes one.
#[derive(Clone)]
pub struct KeptKek([u8; 248], usize);

impl KeptKek {
    /// Expands a KEK of 16, 24 or 32 bytes, else returns [`Error::InvalidKekSize`].
    pub fn new(kek: &[u8]) -> Result<Self> {
        let size = kek.len();
        let mut kept = Self([0; 248], size.min(32) * 4 + 120);
        let bytes = &mut kept.0[..kept.1];
        let status = calls::kek_init(kek, bytes);
        result_of(status, size, Error::InvalidDataSize)?;
        Ok(kept)
    }
}

impl Deref for KeptKek {
    type Target = KekSlice;

    fn deref(&self) -> &KekSlice {
        KekSlice::new(&self.0[..self.1])
    }
}

impl fmt::Debug for KeptKek {
    fn fmt(&self, f: &mut fmt::Formatter<'_>) -> fmt::Result {
        f.write_str("KeptKek")
    }
}

impl Drop for KeptKek {
    fn drop(&mut self) {
        let bytes = &mut self.0;
        calls::kek_clear(bytes);
    }
}

/// A borrowed KEK of any length. Its calls return [`Error::InvalidKekSize`] if the length is not 16,
/// 24 or 32 bytes, and the bytes are no [`KeptKek`].
///
/// In all calls `data` and `out` are a key and its wrapped key, or the other way around. The length
/// of `out` must be right: [`text_len`], [`padded_text_len`] or [`room`] of the length of `data`.
/// After an error `out` is unchanged, but all zeros after [`Error::IntegrityCheckFailed`].
#[repr(transparent)]
pub struct KekSlice(pub(crate) [u8]);

/// The form in which a key is wrapped.
#[derive(Clone, Copy, Debug, PartialEq, Eq)]
pub enum Form {
    /// RFC 3394, with the default initial value. A key has 16 bytes or more, a multiple of 8.
    Plain,
    /// RFC 5649. A key has 1 byte or more.
    Padded,
}

impl Form {
    /// The form, as calls of C return it.
    pub(crate) fn of(padded: u32) -> Form {
        match padded {
            KEYWRAP_OLD_PADDED => Form::Padded,
            _ => Form::Plain,
        }
    }

    /// The form, as the proved code has it.
    pub(crate) fn from_proved(form: proved::Form) -> Form {
        match form {
            proved::Form::Plain => Form::Plain,
            proved::Form::Padded => Form::Padded,
        }
    }

    fn proved(self) -> proved::Form {
        match self {
            Form::Plain => proved::Form::Plain,
            Form::Padded => proved::Form::Padded,
        }
    }

    /// The flag, if the form is padded.
    pub(crate) fn flag(self, padded: u32) -> u32 {
        match self {
            Form::Plain => 0,
            Form::Padded => padded,
        }
    }

    /// The length of the wrapped key.
    pub(crate) fn text_len(self, key_len: usize) -> usize {
        match self {
            Form::Plain => text_len(key_len),
            Form::Padded => padded_text_len(key_len),
        }
    }

    /// Whether the form has keys of this length. Only for the error after `KEYWRAP_BAD_LENGTH`, and
    /// before a copy of the key for `steps`.
    pub(crate) fn has_key_of(self, len: usize) -> bool {
        match self {
            Form::Plain => (16..=KEYWRAP_MAX_KEY).contains(&len) && len % 8 == 0,
            Form::Padded => (1..=KEYWRAP_MAX_KEY).contains(&len),
        }
    }

    /// Whether the form has wrapped keys of this length, also only for that.
    pub(crate) fn has_text_of(self, len: usize) -> bool {
        len % 8 == 0 && self.has_key_of(room(len))
    }
}

/// The form of a wrapped key, and the length of its key.
#[derive(Clone, Copy, Debug, PartialEq, Eq)]
pub struct Kind {
    /// The form.
    pub form: Form,
    /// The bytes of the key.
    pub key_len: usize,
}

/// The forms of a rewrap.
#[derive(Clone, Copy, Debug, PartialEq, Eq)]
pub enum Forms {
    /// The wrapped key has either form, and keeps it.
    Kept,
    /// The wrapped key has one form, and gets one.
    Given {
        /// The form under the old KEK.
        old: Form,
        /// The form under the new KEK.
        new: Form,
    },
}

impl Forms {
    /// The forms, as the proved code has them.
    pub(crate) fn proved(self) -> proved::RewrapForms {
        match self {
            Forms::Kept => proved::RewrapForms::Kept,
            Forms::Given { old, new } => {
                proved::RewrapForms::by_default(old.proved(), new.proved())
            }
        }
    }

    /// The flags of a rewrap.
    pub(crate) fn flags(self, pass_new: bool) -> u32 {
        let forms = match self {
            Forms::Kept => KEYWRAP_KEEP_FORM,
            Forms::Given { old, new } => {
                old.flag(KEYWRAP_OLD_PADDED) | new.flag(KEYWRAP_NEW_PADDED)
            }
        };
        forms | if pass_new { KEYWRAP_PASS_NEW } else { 0 }
    }
}

/// What a rewrap did.
#[derive(Clone, Copy, Debug, PartialEq, Eq)]
pub enum Rewrapped {
    /// The buffer is the new wrapped key.
    Fresh,
    /// The buffer was the new wrapped key already. It is unchanged.
    AlreadyNew,
}

impl KekSlice {
    /// Borrows a KEK.
    #[must_use]
    pub fn new(kek: &[u8]) -> &Self {
        cast::kek_slice(kek)
    }

    /// Wraps the key `data` in the plain form.
    pub fn wrap(&self, data: &[u8], out: &mut [u8]) -> Result<()> {
        let status = calls::wrap(&self.0, data, out);
        self.wrap_result(status, Form::Plain, data.len())
    }

    /// Wraps the key `data` in the plain form, under an initial value that both ends agreed on.
    pub fn wrap_with_iv(&self, iv: &[u8; 8], data: &[u8], out: &mut [u8]) -> Result<()> {
        let status = calls::wrap_with(&self.0, iv, data, out);
        self.wrap_result(status, Form::Plain, data.len())
    }

    /// Wraps the key `data` in the padded form.
    pub fn wrap_with_padding(&self, data: &[u8], out: &mut [u8]) -> Result<()> {
        let status = calls::wrap_padded(&self.0, data, out);
        self.wrap_result(status, Form::Padded, data.len())
    }

    /// Unwraps `data` in the plain form: `out` is the key.
    pub fn unwrap(&self, data: &[u8], out: &mut [u8]) -> Result<()> {
        let status = calls::unwrap(&self.0, data, out);
        self.unwrap_result(status, Form::Plain, data.len())
    }

    /// Unwraps `data` in the plain form, under an initial value that both ends agreed on: `out` is
    /// the key.
    pub fn unwrap_with_iv(&self, iv: &[u8; 8], data: &[u8], out: &mut [u8]) -> Result<()> {
        let status = calls::unwrap_with(&self.0, iv, data, out);
        self.unwrap_result(status, Form::Plain, data.len())
    }

    /// Unwraps `data` in the padded form, and returns the key, which is the start of `out`. Zeros
    /// come after it.
    pub fn unwrap_with_padding<'a>(&self, data: &[u8], out: &'a mut [u8]) -> Result<&'a [u8]> {
        let mut key_len = 0;
        let status = calls::unwrap_padded(&self.0, data, out, &mut key_len);
        self.unwrap_result(status, Form::Padded, data.len())?;
        out.get(..key_len).ok_or(Error::IntegrityCheckFailed)
    }

    /// Unwraps `data` in the form that it has. Returns the form and the key, which is the start of
    /// `out`. Zeros come after it.
    pub fn unwrap_any<'a>(&self, data: &[u8], out: &'a mut [u8]) -> Result<(Form, &'a [u8])> {
        let (mut padded, mut key_len) = (0, 0);
        let status = calls::unwrap_any(&self.0, data, out, &mut padded, &mut key_len);
        self.unwrap_result(status, Form::Padded, data.len())?;
        let key = out.get(..key_len).ok_or(Error::IntegrityCheckFailed)?;
        Ok((Form::of(padded), key))
    }

    /// Finds the form of the wrapped key `data` and the length of its key. The buffer `scratch` has
    /// [`room`] bytes. It is all zeros afterwards, or unchanged after an error for a length.
    ///
    /// A length that neither form has is [`Error::IntegrityCheckFailed`].
    pub fn kind(&self, data: &[u8], scratch: &mut [u8]) -> Result<Kind> {
        let (mut padded, mut key_len) = (0, 0);
        let status = calls::kind(&self.0, data, scratch, &mut padded, &mut key_len);
        self.result(status, true, room(data.len()))?;
        let form = Form::of(padded);
        Ok(Kind { form, key_len })
    }

    /// Wraps the key that begins at `buffer[8]` and goes to the end, in the plain form. Then the
    /// buffer is the wrapped key. After an error it is unchanged.
    pub fn wrap_in_place(&self, buffer: &mut [u8]) -> Result<()> {
        let status = calls::wrap_in_place(&self.0, buffer);
        self.result(status, false, 0)
    }

    /// Wraps the key of `key_len` bytes that begins at `buffer[8]`, in the padded form. Then the
    /// buffer, of [`padded_text_len`] bytes, is the wrapped key. After an error it is unchanged.
    pub fn wrap_with_padding_in_place(&self, buffer: &mut [u8], key_len: usize) -> Result<()> {
        let status = calls::wrap_padded_in_place(&self.0, buffer, key_len);
        self.wrap_result(status, Form::Padded, key_len)
    }

    /// Unwraps the buffer in the plain form, and returns the key, which is all but its first 8
    /// bytes. After [`Error::IntegrityCheckFailed`] the buffer is all zeros: to keep the wrapped
    /// key, copy it first.
    pub fn unwrap_in_place<'a>(&self, buffer: &'a mut [u8]) -> Result<&'a mut [u8]> {
        let status = calls::unwrap_in_place(&self.0, buffer);
        self.result(status, false, 0)?;
        buffer.get_mut(8..).ok_or(Error::InvalidDataSize)
    }

    /// Unwraps the buffer in the padded form, and returns the key, which begins at `buffer[8]`.
    /// Zeros are before and after it. After [`Error::IntegrityCheckFailed`] the buffer is all zeros:
    /// to keep the wrapped key, copy it first.
    pub fn unwrap_with_padding_in_place<'a>(&self, buffer: &'a mut [u8]) -> Result<&'a mut [u8]> {
        let mut key_len = 0;
        let status = calls::unwrap_padded_in_place(&self.0, buffer, &mut key_len);
        self.result(status, false, 0)?;
        let key = buffer.get_mut(8..).and_then(|rest| rest.get_mut(..key_len));
        key.ok_or(Error::InvalidDataSize)
    }

    /// Wraps the key of the wrapped key `buffer`, which is under this KEK, under `new_kek`, in the
    /// same buffer. The key is not returned. After any error the buffer is unchanged.
    ///
    /// With `pass_new` a buffer that is already under `new_kek`, in the form that it would get, is
    /// [`Rewrapped::AlreadyNew`]. So an interrupted rotation can be restarted.
    pub fn rewrap(
        &self,
        new_kek: &KekSlice,
        buffer: &mut [u8],
        forms: Forms,
        pass_new: bool,
    ) -> Result<Rewrapped> {
        let mut already = 0;
        let status = calls::rewrap(
            &self.0,
            &new_kek.0,
            buffer,
            forms.flags(pass_new),
            &mut already,
        );
        result_of(status, self.refused_with(new_kek), Error::InvalidDataSize)?;
        Ok(if already == 0 {
            Rewrapped::Fresh
        } else {
            Rewrapped::AlreadyNew
        })
    }
}

/// What became of a call.
impl KekSlice {
    pub(crate) fn len(&self) -> usize {
        self.0.len()
    }

    /// The result of a call with this KEK.
    pub(crate) fn result(&self, status: i32, data_is_legal: bool, expected: usize) -> Result<()> {
        let bad_length = Error::of_length(data_is_legal, expected);
        result_of(status, self.len(), bad_length)
    }

    fn wrap_result(&self, status: i32, form: Form, key_len: usize) -> Result<()> {
        self.result(status, form.has_key_of(key_len), form.text_len(key_len))
    }

    fn unwrap_result(&self, status: i32, form: Form, text_len: usize) -> Result<()> {
        self.result(status, form.has_text_of(text_len), room(text_len))
    }

    /// The length of the KEK that `KEYWRAP_BAD_KEK` is about, of a call with both.
    pub(crate) fn refused_with(&self, new_kek: &KekSlice) -> usize {
        match self.kind(&[], &mut []) {
            Err(Error::InvalidKekSize { size }) => size,
            _ => new_kek.len(),
        }
    }
}

/// The same calls, which return the result. If the key is too long, no call allocates more than the
/// longest key needs.
#[cfg(feature = "alloc")]
impl KekSlice {
    /// Wraps the key `data` in the plain form.
    pub fn wrap_vec(&self, data: &[u8]) -> Result<Vec<u8>> {
        filled(text_len(data.len()), |out| self.wrap(data, out))
    }

    /// Wraps the key `data` in the plain form, under an initial value that both ends agreed on.
    pub fn wrap_with_iv_vec(&self, iv: &[u8; 8], data: &[u8]) -> Result<Vec<u8>> {
        filled(text_len(data.len()), |out| self.wrap_with_iv(iv, data, out))
    }

    /// Wraps the key `data` in the padded form.
    pub fn wrap_with_padding_vec(&self, data: &[u8]) -> Result<Vec<u8>> {
        filled(padded_text_len(data.len()), |out| {
            self.wrap_with_padding(data, out)
        })
    }

    /// Unwraps `data` in the plain form, and returns the key.
    pub fn unwrap_vec(&self, data: &[u8]) -> Result<Vec<u8>> {
        filled(room(data.len()), |out| self.unwrap(data, out))
    }

    /// Unwraps `data` in the plain form, under an initial value that both ends agreed on, and
    /// returns the key.
    pub fn unwrap_with_iv_vec(&self, iv: &[u8; 8], data: &[u8]) -> Result<Vec<u8>> {
        filled(room(data.len()), |out| self.unwrap_with_iv(iv, data, out))
    }

    /// Unwraps `data` in the padded form, and returns the key.
    pub fn unwrap_with_padding_vec(&self, data: &[u8]) -> Result<Vec<u8>> {
        let mut key_len = 0;
        let mut key = filled(room(data.len()), |out| {
            key_len = self.unwrap_with_padding(data, out)?.len();
            Ok(())
        })?;
        key.truncate(key_len);
        Ok(key)
    }

    /// Unwraps `data` in the form that it has, and returns the form and the key.
    pub fn unwrap_any_vec(&self, data: &[u8]) -> Result<(Form, Vec<u8>)> {
        let (mut form, mut key_len) = (Form::Plain, 0);
        let mut key = filled(room(data.len()), |out| {
            let (found, key) = self.unwrap_any(data, out)?;
            (form, key_len) = (found, key.len());
            Ok(())
        })?;
        key.truncate(key_len);
        Ok((form, key))
    }

    /// Finds the form of the wrapped key `data` and the length of its key.
    pub fn kind_vec(&self, data: &[u8]) -> Result<Kind> {
        let mut scratch = vec![0; room(data.len()).min(KEYWRAP_MAX_KEY)];
        self.kind(data, &mut scratch)
    }
}

/// The buffer of this length that `fill` filled.
#[cfg(feature = "alloc")]
pub(crate) fn filled(len: usize, fill: impl FnOnce(&mut [u8]) -> Result<()>) -> Result<Vec<u8>> {
    let mut out = vec![0; len.min(KEYWRAP_MAX_TEXT)];
    fill(&mut out)?;
    Ok(out)
}

impl fmt::Debug for KekSlice {
    /// Writes the length only.
    fn fmt(&self, f: &mut fmt::Formatter<'_>) -> fmt::Result {
        write!(f, "Kek({} bytes)", self.len())
    }
}
