// Written by generate/erase.py from crates/fips197/src/lib.rt, which has the contracts.

//! The definitions of AES (FIPS 197) and their laws, in `specs/`. The code has only what every
//! implementation of AES shares: the trait `KeyInit`, the error `BadKekLength`, the key expansion and
//! its result as bytes.

mod bad_kek_length;
mod key_expansion;
mod key_init;
mod schedule_bytes;

pub use bad_kek_length::BadKekLength;
pub use key_expansion::{MAX_WORDS, SubWord, expand_key};
pub use key_init::KeyInit;
pub use schedule_bytes::{ScheduleFault, read_schedule, write_schedule};
