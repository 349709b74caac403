// Written by generate/erase.py from crates/keywrap_calls/src/status.rt, which has the contracts.

//! The statuses of the calls. Up to 7 they mean the same as the exit statuses of the command.

use crate::proved::key_wrap_core::InPlaceFault;

/// Done.
pub const DONE: i32 = 0;

// A rewrapping run by run ends with it if the wrapped key was under the new KEK already.
pub(crate) const ALREADY_NEW: i32 = 1;

/// The initial value is not 8 bytes long, or is reserved for the padded form.
pub const BAD_IV: i32 = 2;

/// The key-encryption key (KEK) is not 16, 24 or 32 bytes long.
pub const BAD_KEK: i32 = 3;

/// A length is not legal, or a buffer does not have the length that goes with it.
pub const BAD_LENGTH: i32 = 4;

/// The integrity check failed: no key was wrapped to this under the KEK.
pub const INTEGRITY: i32 = 5;

/// There is no memory. No call returns it.
pub const NO_MEMORY: i32 = 7;

/// The wrapped key is genuine, but no plain key has the length of its key.
pub const KEY_NOT_PLAIN: i32 = 8;

// The status of an outcome.
pub(crate) fn status_of(outcome: Result<(), InPlaceFault>) -> i32 {
    match outcome {
        Ok(()) => DONE,
        Err(fault) => fault_status(fault),
    }
}

// The status of a refusal.
pub(crate) fn fault_status(fault: InPlaceFault) -> i32 {
    match fault {
        InPlaceFault::BadLength => BAD_LENGTH,
        InPlaceFault::Integrity => INTEGRITY,
    }
}
