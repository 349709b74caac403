// Written by generate/erase.py from crates/key_wrap_core/src/faults.rt, which has the contracts.

//! Why a call refuses.

/// Why a call in the caller's buffers refuses.
#[derive(Clone, Copy, Debug, PartialEq, Eq)]
pub enum InPlaceFault {
    /// A length is not legal, or a buffer is of another length than the one that goes with it.
    BadLength,
    /// It is not a valid wrapped key (RFC 3394, section 2.2.3; RFC 5649, section 3).
    Integrity,
}

/// Why a job refuses a key or a wrapped key.
#[derive(Clone, Copy, Debug, PartialEq, Eq)]
pub enum Refusal {
    /// The length is not legal in the form, or, if the wrapped key may have several forms, in any.
    BadLength,
    /// It is not a valid wrapped key.
    Integrity,
    /// It is a valid wrapped key in the padded form, but no plain key has the length of its key.
    KeyNotPlain,
}

/// The first four bytes of an initial value are A65959A6, as in the padded form (RFC 5649, section
/// 3).
#[derive(Clone, Copy, Debug, PartialEq, Eq)]
pub struct ReservedIv;
