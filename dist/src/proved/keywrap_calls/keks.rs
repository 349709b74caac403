// Written by generate/erase.py from crates/keywrap_calls/src/keks.rt, which has the contracts.

//! A KEK that is kept: its key schedule behind a mark, in a buffer of the caller's.

use crate::proved::keywrap_calls::status::{BAD_KEK, BAD_LENGTH, DONE};
use crate::byteorder::{BigEndian, ByteOrder};
use crate::proved::fips197::KeyInit;

// The first bytes of a kept KEK. Bytes of its length that begin otherwise are refused, as those of a kept
// KEK that was cleared.
const MARK: u64 = 0x6b65_7074_204b_454b; // kept KEK

/// Keeps `kek`, of 16, 24 or 32 bytes, for any number of calls: writes 184, 216 or 248 bytes over the
/// whole of `kept`, which each call takes in the place of the KEK (FIPS 197, section 5.2).
///
/// After a refusal `kept` is what it was.
pub fn kek_init<A: KeyInit>(schedule: A::Schedule, kek: &[u8], kept: &mut [u8]) -> i32 {
    if !is_kek_length(kek.len()) {
        return BAD_KEK;
    }
    if kept.len() != 4 * kek.len() + 120 {
        return BAD_LENGTH;
    }
    let (mark, words) = kept.split_at_mut(8);
    match A::expand(kek, schedule, words) {
        Ok(()) => {
            BigEndian::write_u64(mark, MARK);
            DONE
        }
        Err(_) => BAD_LENGTH,
    }
}

/// Writes zeros over a kept KEK, which each call refuses from then on.
pub fn kek_clear(kept: &mut [u8]) {
    kept.fill(0);
}

// AES under a KEK, or by a kept one. `None` if it is neither.
#[inline(never)]
pub(crate) fn aes_of<A: KeyInit>(kek: &[u8], schedule: A::Schedule) -> Option<A> {
    if is_kept(kek) {
        return A::from_schedule(&kek[8..], schedule);
    }
    match A::new_in(kek, schedule) {
        Ok(aes) => Some(aes),
        Err(_) => None,
    }
}

// Whether a call accepts these bytes as its KEK.
pub(crate) fn is_kek(bytes: &[u8]) -> bool {
    is_kek_length(bytes.len()) || is_kept(bytes)
}

fn is_kek_length(len: usize) -> bool {
    len == 16 || len == 24 || len == 32
}

fn is_kept(bytes: &[u8]) -> bool {
    matches!(bytes.len(), 184 | 216 | 248) && BigEndian::read_u64(bytes) == MARK
}
