//! Wrapping step by step, by a block cipher of the caller: for a KEK that never leaves a token, or
//! for an AES peripheral. The library computes which block to encrypt or decrypt next.
//!
//! ```
//! use keywrap::steps::{Unwrapping, Wrapping};
//!
//! # let (key, mut wrapped, mut again) = ([1; 16], [0; 24], [0; 16]);
//! # fn encrypt(block: &mut [u8; 16]) -> std::io::Result<()> { Ok(block.reverse()) }
//! # fn decrypt(block: &mut [u8; 16]) -> std::io::Result<()> { Ok(block.reverse()) }
//! Wrapping::new(&key, &mut wrapped)?.run(encrypt)?;
//! Unwrapping::new(&wrapped, &mut again)?.run(decrypt)?;
//! assert_eq!(again, key);
//! # Ok::<(), keywrap::steps::Stopped<std::io::Error>>(())
//! ```
//!
//! The function replaces a block by its encryption or decryption under the KEK. If it cannot be a
//! function, because it is asynchronous, make the steps one by one:
//!
//! ```
//! # use keywrap::steps::Wrapping;
//! # struct Token;
//! # impl Token { fn encrypt(&self, block: &[u8; 16]) -> [u8; 16] { *block } }
//! # let (key, mut wrapped, token) = ([1; 16], [0; 24], Token);
//! let mut wrapping = Wrapping::new(&key, &mut wrapped)?;
//! while let Some(block) = wrapping.block() {
//!     let encrypted = token.encrypt(block);
//!     wrapping.step(&encrypted)?;
//! }
//! wrapping.end()?;
//! # Ok::<(), keywrap::Error>(())
//! ```
//!
//! The length of `out` must be right, as in the calls of [`KekSlice`](crate::KekSlice). If a
//! wrapping or an unwrapping is refused at its beginning, `out` is unchanged. If it is given up
//! later, also by a panic of the function, `out` is all zeros.
//!
//! The module `many`, with the feature `alloc`, makes the same step of many keys at once: a token that
//! takes many blocks in a call then rewraps thousands of keys in 48 calls.

use crate::calls;
use crate::clear::clear;
use crate::error::{result_of, Error, Result};
use crate::sys;
use crate::{room, Form, Forms, Rewrapped, IV};
use core::fmt;

#[cfg(feature = "alloc")]
pub mod many;

/// Why a wrapping or an unwrapping stopped.
#[derive(Clone, Copy, Debug, PartialEq, Eq)]
pub enum Stopped<E> {
    /// It was refused.
    Refused(Error),
    /// The block cipher failed with this error.
    Cipher(E),
}

impl<E> From<Error> for Stopped<E> {
    fn from(error: Error) -> Self {
        Stopped::Refused(error)
    }
}

impl<E: fmt::Display> fmt::Display for Stopped<E> {
    fn fmt(&self, f: &mut fmt::Formatter<'_>) -> fmt::Result {
        match self {
            Stopped::Refused(error) => error.fmt(f),
            Stopped::Cipher(error) => error.fmt(f),
        }
    }
}

#[cfg(feature = "std")]
impl<E: std::error::Error> std::error::Error for Stopped<E> {}

/// The result of a step. Its lengths are right, so only the number of steps can be wrong.
fn stepped(status: i32) -> Result<()> {
    result_of(status, 0, Error::InvalidStep)
}

/// Refuses a wrong length.
fn fits(data_is_legal: bool, expected: usize, out: &[u8]) -> Result<()> {
    if data_is_legal && out.len() == expected {
        Ok(())
    } else {
        Err(Error::of_length(data_is_legal, expected))
    }
}

/// Splits a wrapped key into its first 8 bytes and the registers.
fn split(text: &mut [u8]) -> (&mut [u8], &mut [u8]) {
    text.split_at_mut(text.len().min(8))
}

/// A wrapping that has begun.
#[must_use]
pub struct Wrapping<'a> {
    out: &'a mut [u8],
    done: u64,
    steps: u64,
    block: [u8; 16],
}

impl<'a> Wrapping<'a> {
    /// Begins to wrap the key `data` in the plain form.
    pub fn new(data: &[u8], out: &'a mut [u8]) -> Result<Self> {
        Self::with_iv(&IV, data, out)
    }

    /// Begins to wrap the key `data` in the plain form, under an initial value that both ends
    /// agreed on.
    pub fn with_iv(iv: &[u8; 8], data: &[u8], out: &'a mut [u8]) -> Result<Self> {
        fits(
            Form::Plain.has_key_of(data.len()),
            Form::Plain.text_len(data.len()),
            out,
        )?;
        let mut new = Self::empty();
        let status = calls::begin_wrap(iv, data, &mut new.done, &mut new.block);
        result_of(status, 0, Error::InvalidDataSize)?;
        new.hold(data, out);
        Ok(new)
    }

    /// Begins to wrap the key `data` in the padded form.
    pub fn with_padding(data: &[u8], out: &'a mut [u8]) -> Result<Self> {
        fits(
            Form::Padded.has_key_of(data.len()),
            Form::Padded.text_len(data.len()),
            out,
        )?;
        let mut new = Self::empty();
        new.hold(data, out);
        let (_, registers) = split(new.out);
        let status = calls::begin_wrap_padded(data.len(), registers, &mut new.done, &mut new.block);
        result_of(status, 0, Error::InvalidDataSize)?;
        Ok(new)
    }

    fn empty() -> Self {
        Self {
            out: &mut [],
            done: 0,
            steps: 0,
            block: [0; 16],
        }
    }

    /// Copies the key to the registers, which are not shorter.
    fn hold(&mut self, data: &[u8], out: &'a mut [u8]) {
        self.out = out;
        let (_, registers) = split(self.out);
        for (to, from) in registers.iter_mut().zip(data) {
            *to = *from;
        }
        self.steps = calls::step_count(registers.len());
    }

    /// Returns the next block to encrypt, or `None` after the last step.
    #[must_use]
    pub fn block(&self) -> Option<&[u8; 16]> {
        if self.done < self.steps {
            Some(&self.block)
        } else {
            None
        }
    }

    /// Makes a step with the encryption of [`block`](Self::block).
    pub fn step(&mut self, encrypted: &[u8; 16]) -> Result<()> {
        if self.block().is_none() {
            return Err(Error::InvalidStep);
        }
        self.block = *encrypted;
        self.advance()
    }

    fn advance(&mut self) -> Result<()> {
        let (_, registers) = split(self.out);
        stepped(calls::step_wrap(registers, &mut self.done, &mut self.block))
    }

    /// Ends the wrapping after the last step. Then `out` is the wrapped key.
    pub fn end(mut self) -> Result<()> {
        let (first, registers) = split(self.out);
        let first = first.try_into().map_err(|_| Error::InvalidStep)?;
        stepped(calls::end_wrap(first, registers, self.done, &self.block))?;
        // The drop does not clear it.
        self.out = &mut [];
        Ok(())
    }

    /// Makes all steps with a function that encrypts a block, and ends the wrapping.
    pub fn run<E>(
        mut self,
        mut encrypt: impl FnMut(&mut [u8; 16]) -> core::result::Result<(), E>,
    ) -> core::result::Result<(), Stopped<E>> {
        while self.block().is_some() {
            encrypt(&mut self.block).map_err(Stopped::Cipher)?;
            self.advance()?;
        }
        Ok(self.end()?)
    }
}

impl Drop for Wrapping<'_> {
    fn drop(&mut self) {
        clear(self.out);
        clear(&mut self.block);
    }
}

/// An unwrapping that has begun.
#[must_use]
pub struct Unwrapping<'a> {
    out: &'a mut [u8],
    left: u64,
    block: [u8; 16],
    check: Check,
}

/// The form in which an unwrapping is checked.
#[derive(Clone, Copy)]
enum Check {
    /// The plain form, with this initial value.
    Plain([u8; 8]),
    Padded,
    /// The form that the wrapped key has.
    Either,
}

impl<'a> Unwrapping<'a> {
    /// Begins to unwrap `data` in the plain form.
    pub fn new(data: &[u8], out: &'a mut [u8]) -> Result<Self> {
        Self::with_iv(&IV, data, out)
    }

    /// Begins to unwrap `data` in the plain form, under an initial value that both ends agreed on.
    pub fn with_iv(iv: &[u8; 8], data: &[u8], out: &'a mut [u8]) -> Result<Self> {
        Self::begin(Check::Plain(*iv), data, out, calls::begin_unwrap)
    }

    /// Begins to unwrap `data` in the padded form.
    pub fn with_padding(data: &[u8], out: &'a mut [u8]) -> Result<Self> {
        Self::begin(Check::Padded, data, out, calls::begin_unwrap_padded)
    }

    /// Begins to unwrap `data` in the form that it has, the plain one with the default initial value.
    /// [`end_with_form`](Self::end_with_form) returns the form.
    pub fn in_either_form(data: &[u8], out: &'a mut [u8]) -> Result<Self> {
        Self::begin(Check::Either, data, out, calls::begin_unwrap_padded)
    }

    fn begin(
        check: Check,
        data: &[u8],
        out: &'a mut [u8],
        begin: fn(&[u8; 8], &[u8], &mut u64, &mut [u8; 16]) -> i32,
    ) -> Result<Self> {
        let form = match check {
            Check::Plain(_) => Form::Plain,
            Check::Padded | Check::Either => Form::Padded,
        };
        fits(form.has_text_of(data.len()), room(data.len()), out)?;
        let (first, registers) = data.split_at(data.len().min(8));
        let mut new = Self {
            out: &mut [],
            left: 0,
            block: [0; 16],
            check,
        };
        let first = first.try_into().map_err(|_| Error::InvalidDataSize)?;
        let status = begin(first, registers, &mut new.left, &mut new.block);
        result_of(status, 0, Error::InvalidDataSize)?;
        out.copy_from_slice(registers);
        new.out = out;
        Ok(new)
    }

    /// Returns the next block to decrypt, or `None` after the last step.
    #[must_use]
    pub fn block(&self) -> Option<&[u8; 16]> {
        if self.left > 0 {
            Some(&self.block)
        } else {
            None
        }
    }

    /// Makes a step with the decryption of [`block`](Self::block).
    pub fn step(&mut self, decrypted: &[u8; 16]) -> Result<()> {
        if self.block().is_none() {
            return Err(Error::InvalidStep);
        }
        self.block = *decrypted;
        self.advance()
    }

    fn advance(&mut self) -> Result<()> {
        stepped(calls::step_unwrap(
            self.out,
            &mut self.left,
            &mut self.block,
        ))
    }

    /// Ends the unwrapping after the last step, and returns the key, which is the start of `out`.
    /// In the padded form zeros come after it.
    pub fn end(self) -> Result<&'a [u8]> {
        self.end_with_form().map(|(key, _)| key)
    }

    /// Ends the unwrapping, as [`end`](Self::end) does, and also returns the form of the wrapped key.
    pub fn end_with_form(mut self) -> Result<(&'a [u8], Form)> {
        let (mut key_len, mut padded) = (self.out.len(), 0);
        let (left, block) = (self.left, &mut self.block);
        stepped(match &self.check {
            Check::Plain(iv) => calls::end_unwrap(iv, self.out, left, block),
            Check::Padded => {
                padded = sys::KEYWRAP_OLD_PADDED;
                calls::end_unwrap_padded(self.out, left, block, &mut key_len)
            }
            Check::Either => {
                calls::end_unwrap_any(self.out, left, block, &mut padded, &mut key_len)
            }
        })?;
        // The drop does not clear it.
        let out = core::mem::take(&mut self.out);
        let key = out.get(..key_len).ok_or(Error::IntegrityCheckFailed)?;
        Ok((key, Form::of(padded)))
    }

    /// Makes all steps with a function that decrypts a block, ends the unwrapping, and returns the
    /// key, as [`end`](Self::end) does.
    pub fn run<E>(
        mut self,
        mut decrypt: impl FnMut(&mut [u8; 16]) -> core::result::Result<(), E>,
    ) -> core::result::Result<&'a [u8], Stopped<E>> {
        while self.block().is_some() {
            decrypt(&mut self.block).map_err(Stopped::Cipher)?;
            self.advance()?;
        }
        Ok(self.end()?)
    }
}

impl Drop for Unwrapping<'_> {
    fn drop(&mut self) {
        clear(self.out);
        clear(&mut self.block);
    }
}

/// What a rewrapping does with a block.
#[derive(Clone, Copy, Debug, PartialEq, Eq)]
pub enum Operation {
    /// The block is decrypted under the old KEK.
    DecryptOld,
    /// The block is encrypted under the new KEK.
    EncryptNew,
    /// The block is decrypted under the new KEK, to see whether the wrapped key is new already.
    DecryptNew,
}

impl Operation {
    /// What the steps of this phase are, or `None` after the last one.
    fn of(phase: u32) -> Option<Self> {
        match phase & (sys::KEYWRAP_DECRYPT | sys::KEYWRAP_NEW) {
            _ if phase == 0 => None,
            sys::KEYWRAP_DECRYPT => Some(Operation::DecryptOld),
            sys::KEYWRAP_NEW => Some(Operation::EncryptNew),
            _ => Some(Operation::DecryptNew),
        }
    }
}

/// A rewrapping that has begun.
#[must_use]
pub struct Rewrapping<'a> {
    data: &'a [u8],
    out: &'a mut [u8],
    flags: u32,
    phase: u32,
    steps: u64,
    /// How many steps the run still has.
    left: u64,
    status: i32,
    block: [u8; 16],
}

impl<'a> Rewrapping<'a> {
    /// Begins to rewrap `data`, as [`rewrap`](crate::KekSlice::rewrap) does, into `out`, which is as
    /// long.
    pub fn new(data: &'a [u8], out: &'a mut [u8], forms: Forms, pass_new: bool) -> Result<Self> {
        fits(true, data.len(), out)?;
        let mut new = Self {
            data,
            out: &mut [],
            flags: forms.flags(pass_new),
            phase: 0,
            steps: 0,
            left: 0,
            status: 0,
            block: [0; 16],
        };
        let status = calls::begin_rewrap(
            new.flags,
            data,
            &mut new.phase,
            &mut new.steps,
            &mut new.block,
        );
        result_of(status, 0, Error::InvalidDataSize)?;
        out.copy_from_slice(data);
        new.out = out;
        new.begin_run();
        Ok(new)
    }

    fn begin_run(&mut self) {
        self.left = calls::step_count(room(self.data.len()));
    }

    /// Returns the next block and what is to be done with it, or `None` after the last step.
    #[must_use]
    pub fn block(&self) -> Option<(Operation, &[u8; 16])> {
        Some((Operation::of(self.phase)?, &self.block))
    }

    /// Makes a step with what was made of [`block`](Self::block).
    pub fn step(&mut self, block: &[u8; 16]) -> Result<()> {
        if self.phase == 0 {
            return Err(Error::InvalidStep);
        }
        self.block = *block;
        self.advance()
    }

    fn advance(&mut self) -> Result<()> {
        let step = if self.phase & sys::KEYWRAP_DECRYPT == 0 {
            calls::step_wrap
        } else {
            calls::step_unwrap
        };
        let (_, registers) = split(self.out);
        stepped(step(registers, &mut self.steps, &mut self.block))?;
        self.left -= 1;
        if self.left == 0 {
            self.turn();
        }
        Ok(())
    }

    /// Ends a run. The call says which comes next.
    fn turn(&mut self) {
        self.status = calls::next_rewrap_from(
            self.flags,
            self.data,
            self.out,
            &mut self.phase,
            &mut self.steps,
            &mut self.block,
        );
        self.begin_run();
    }

    /// Ends the rewrapping after the last step. Then `out` is the new wrapped key, or `data` if that
    /// was new already.
    pub fn end(mut self) -> Result<Rewrapped> {
        if self.phase != 0 {
            return Err(Error::InvalidStep);
        }
        let already = self.status == sys::KEYWRAP_ALREADY_NEW;
        if !already {
            result_of(self.status, 0, Error::InvalidDataSize)?;
        }
        // The drop does not clear it.
        self.out = &mut [];
        Ok(if already {
            Rewrapped::AlreadyNew
        } else {
            Rewrapped::Fresh
        })
    }

    /// Makes all steps with a function that does this operation on a block, and ends the rewrapping.
    pub fn run<E>(
        mut self,
        mut cipher: impl FnMut(Operation, &mut [u8; 16]) -> core::result::Result<(), E>,
    ) -> core::result::Result<Rewrapped, Stopped<E>> {
        while let Some((operation, _)) = self.block() {
            cipher(operation, &mut self.block).map_err(Stopped::Cipher)?;
            self.advance()?;
        }
        Ok(self.end()?)
    }
}

impl Drop for Rewrapping<'_> {
    fn drop(&mut self) {
        clear(self.out);
        clear(&mut self.block);
    }
}
