// Written by generate/erase.py from crates/key_wrap_core/src/lengths.rt, which has the contracts.

//! The legal lengths of keys and of wrapped keys.

use crate::proved::key_wrap_core::agreed_form::AgreedForm;
use crate::proved::key_wrap_core::initial_value::InitialValue;

/// The bytes of a word.
pub const WORD: usize = 8;

/// The most bytes of key data, in both forms. The standards allow more.
pub const MAX_KEY: usize = 1_048_576;

impl AgreedForm {
    /// Whether a key of `len` bytes has a wrapping in this form: a multiple of 8 from 16 to `MAX_KEY`
    /// (RFC 3394, section 2.2), or in the padded form 1 to `MAX_KEY` (RFC 5649, section 4.1).
    pub fn takes_key(&self, len: usize) -> bool {
        match self {
            AgreedForm::Plain(_) => len % 8 == 0 && (16..=MAX_KEY).contains(&len),
            AgreedForm::Padded => 1 <= len && len <= MAX_KEY,
        }
    }

    /// Whether `len` bytes can be a wrapped key in this form: a multiple of 8 from 24, or in the padded
    /// form from 16, to `MAX_KEY + 8`.
    pub fn takes_text(&self, len: usize) -> bool {
        match self {
            AgreedForm::Plain(_) => len % 8 == 0 && 24 <= len && len <= MAX_KEY + 8,
            AgreedForm::Padded => len % 8 == 0 && 16 <= len && len <= MAX_KEY + 8,
        }
    }
}

/// The length of the wrapped key of a key of `key_len` bytes, in either form: one word more than the
/// key and its padding. Any number, if `padded_length_ok` is false.
pub fn text_len(key_len: usize) -> usize {
    key_len.saturating_add(2 * WORD - 1) / WORD * WORD
}

/// Whether a key of `len` bytes has a plain wrapping.
pub fn key_length_ok(len: usize) -> bool {
    AgreedForm::Plain(InitialValue::default()).takes_key(len)
}

/// Whether `len` bytes can be a plain wrapping.
pub fn text_length_ok(len: usize) -> bool {
    AgreedForm::Plain(InitialValue::default()).takes_text(len)
}

/// Whether a key of `len` bytes has a padded wrapping.
pub fn padded_length_ok(len: usize) -> bool {
    AgreedForm::Padded.takes_key(len)
}

/// Whether `len` bytes can be a padded wrapping.
pub fn padded_text_length_ok(len: usize) -> bool {
    AgreedForm::Padded.takes_text(len)
}
