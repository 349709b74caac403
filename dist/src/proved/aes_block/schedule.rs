// Written by generate/erase.py from crates/aes_block/src/schedule.rt, which has the contracts.

//! The key schedule (FIPS 197, section 5.2).

use crate::proved::aes_block::sbox;
use crate::proved::fips197::{BadKekLength, MAX_WORDS, SubWord, expand_key, read_schedule};

/// AES under one key. Contracts see it as the key's schedule: a list of 44, 52 or 60 words.
pub struct Aes {
    // Words past the last round key are not used.
    schedule: [u32; MAX_WORDS],
    rounds: u8,
}

impl Aes {
    /// AES under the key-encryption key `kek`, which must be 16, 24 or 32 bytes.
    #[inline]
    pub fn new(kek: &[u8]) -> Result<Aes, BadKekLength> {
        let rounds = match kek.len() {
            16 => 10,
            24 => 12,
            32 => 14,
            _ => return Err(BadKekLength),
        };
        Ok(Aes {
            schedule: expand(kek),
            rounds,
        })
    }

    /// AES by a key schedule that `KeyInit::expand` wrote: 176, 208 or 240 bytes.
    #[inline]
    pub fn from_schedule(bytes: &[u8]) -> Option<Aes> {
        let mut schedule = [0; MAX_WORDS];
        match read_schedule(bytes, &mut schedule) {
            Some(rounds) => Some(Aes { schedule, rounds }),
            None => None,
        }
    }

    /// How many rounds the cipher has under this key: 10, 12 or 14 (FIPS 197, 5, table 3).
    #[inline]
    pub fn rounds(&self) -> u8 {
        self.rounds
    }

    // Round key `k`: its four columns.
    #[inline]
    pub(crate) fn round_key(&self, k: usize) -> [u32; 4] {
        let words = &self.schedule;
        [
            words[4 * k],
            words[4 * k + 1],
            words[4 * k + 2],
            words[4 * k + 3],
        ]
    }
}

// The key schedule. The words past it are 0.
#[inline]
fn expand(kek: &[u8]) -> [u32; MAX_WORDS] {
    let mut schedule = [0; MAX_WORDS];
    expand_key::<ByTable>(kek, kek.len() / 4, &mut schedule);
    schedule
}

// SubWord by the table of the S-box.
pub(crate) struct ByTable;

impl SubWord for ByTable {
    #[inline]
    fn sub_word(word: u32) -> u32 {
        let [a, b, c, d] = word.to_be_bytes();
        u32::from_be_bytes([sbox(a), sbox(b), sbox(c), sbox(d)])
    }
}
