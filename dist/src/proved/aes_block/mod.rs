// Written by generate/erase.py from crates/aes_block/src/lib.rt, which has the contracts.

//! AES (FIPS 197) by word tables, proved: its field, its S-boxes, its key schedule, and the cipher
//! with its inverse, as a block permutation. The definitions and their laws are in `fips197`.
//!
//! ```text
//! use aes_block::{Aes, BadKekLength};
//! use block_pair::BlockPair;
//!
//! fn deciphers_again(kek: &[u8; 32], block: [u8; 16]) -> Result<bool, BadKekLength> {
//!     let aes = Aes::new(kek)?;
//!     Ok(aes.dec(aes.enc(block)) == block)
//! }
//! ```

mod cipher;
mod columns;
pub mod field;
mod key_init;
mod s_box;
mod schedule;
mod word_tables;

pub use crate::proved::fips197::{BadKekLength, KeyInit};
pub use s_box::{inv_sbox, sbox};
pub use schedule::Aes;
