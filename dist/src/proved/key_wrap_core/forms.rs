// Written by generate/erase.py from crates/key_wrap_core/src/forms.rt, which has the contracts.

//! The forms of key wrap, and the kinds of wrapped keys.

/// A form of key wrap.
#[derive(Clone, Copy, Debug, PartialEq, Eq)]
pub enum Form {
    /// RFC 3394: key data of whole words.
    Plain,
    /// RFC 5649: key data of any length but 0.
    Padded,
}

/// The form in which a wrapped key was found, and the length of its key.
#[derive(Clone, Copy, Debug, PartialEq, Eq)]
pub struct FoundKey {
    /// The form of the wrapped key.
    pub form: Form,
    /// The length of the key, in bytes.
    pub len: usize,
}

/// The form of a wrapped key, with the length of its key.
#[derive(Clone, Copy, Debug, PartialEq, Eq)]
pub enum Kind {
    /// The plain wrapping (RFC 3394) of a key of this many bytes.
    Plain(usize),
    /// The padded wrapping (RFC 5649) of a key of this many bytes.
    Padded(usize),
    /// Not a valid wrapped key in either form.
    Neither,
}
