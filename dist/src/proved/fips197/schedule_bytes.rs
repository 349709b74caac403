// Written by generate/erase.py from crates/fips197/src/schedule_bytes.rt, which has the contracts.

//! The key schedule as bytes, most significant first, so that a caller may keep it.

use crate::proved::fips197::key_expansion::{MAX_WORDS, SubWord, expand_key};
use crate::byteorder::{BigEndian, ByteOrder};

/// Why a key schedule was not written.
#[derive(Clone, Copy, Debug, PartialEq, Eq)]
pub enum ScheduleFault {
    /// The key's length is not 16, 24 or 32 bytes.
    BadKekLength,
    /// The buffer has not the length of the schedule: 176, 208 or 240 bytes.
    BadLength,
}

/// Writes the key schedule of `kek` over the whole of `schedule`, by way of `words`.
pub fn write_schedule<S: SubWord>(
    kek: &[u8],
    words: &mut [u32; MAX_WORDS],
    schedule: &mut [u8],
) -> Result<(), ScheduleFault> {
    let key_words = match kek.len() {
        16 => 4,
        24 => 6,
        32 => 8,
        _ => return Err(ScheduleFault::BadKekLength),
    };
    let count = 4 * (key_words + 7);
    if schedule.len() != 4 * count {
        return Err(ScheduleFault::BadLength);
    }
    expand_key::<S>(kek, key_words, words);
    write_words(&words[..count], schedule);
    Ok(())
}

/// Reads the words of a key schedule, and returns for how many rounds it is. Fails unless it is 176,
/// 208 or 240 bytes long.
pub fn read_schedule(schedule: &[u8], words: &mut [u32; MAX_WORDS]) -> Option<u8> {
    let rounds: u8 = match schedule.len() {
        176 => 10,
        208 => 12,
        240 => 14,
        _ => return None,
    };
    BigEndian::read_u32_into(schedule, &mut words[..4 * (rounds as usize + 1)]);
    Some(rounds)
}

// The words as bytes.
fn write_words(words: &[u32], bytes: &mut [u8]) {
    BigEndian::write_u32_into(words, bytes);
}
