// Written by generate/erase.py from crates/fips197/src/key_expansion.rt, which has the contracts.

//! The key expansion in words (FIPS 197, section 5.2), over any code for SubWord.

use crate::byteorder::{BigEndian, ByteOrder};

// Rcon[1] to Rcon[10] (FIPS 197, 5.2, table 5).
static ROUND_CONSTANTS: [u32; 10] = [
    0x0100_0000,
    0x0200_0000,
    0x0400_0000,
    0x0800_0000,
    0x1000_0000,
    0x2000_0000,
    0x4000_0000,
    0x8000_0000,
    0x1B00_0000,
    0x3600_0000,
];

/// The length of the longest key schedule in words: four for each of 14 rounds, and four more.
pub const MAX_WORDS: usize = 60;

/// The code of an AES for SubWord.
pub trait SubWord {
    /// Applies the S-box to each byte of a word.
    fn sub_word(word: u32) -> u32;
}

/// Writes the key schedule of `kek`: the key's words, and each word after them from those before it.
/// The rest of `words` stays. Nothing is written unless `kek` has `key_words` words, and a legal
/// length.
// The compiler leaves out the division if the caller passes `key_words` as a number.
#[inline(always)]
pub fn expand_key<S: SubWord>(kek: &[u8], key_words: usize, words: &mut [u32; MAX_WORDS]) {
    if matches!(key_words, 4 | 6 | 8) && kek.len() == 4 * key_words {
        expand::<S>(kek, key_words, words);
    }
}

// The same for a key of a legal length.
#[inline(always)]
fn expand<S: SubWord>(kek: &[u8], key_words: usize, words: &mut [u32; MAX_WORDS]) {
    BigEndian::read_u32_into(kek, &mut words[..key_words]);
    for i in key_words..4 * (key_words + 7) {
        words[i] = words[i - key_words] ^ temp::<S>(key_words, i, words[i - 1]);
    }
}

// What is xored to the word `key_words` places before place `i`, from the word before it.
#[inline(always)]
fn temp<S: SubWord>(key_words: usize, i: usize, word: u32) -> u32 {
    if i % key_words == 0 {
        S::sub_word(word.rotate_left(8)) ^ ROUND_CONSTANTS[i / key_words - 1]
    } else if key_words == 8 && i % 8 == 4 {
        S::sub_word(word)
    } else {
        word
    }
}
