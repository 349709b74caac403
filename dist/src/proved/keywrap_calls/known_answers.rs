// Written by generate/erase.py from crates/keywrap_calls/src/known_answers.rt, which has the contracts.

//! The self test: the published wrappings in both directions, and a wrapped key that is damaged.

use crate::proved::keywrap_calls::status::{DONE, INTEGRITY};
use crate::proved::test_vectors::bytes::{
    DAMAGED, DATA_16, DATA_24, DATA_32, DATA_RFC5649_7, DATA_RFC5649_20, KEY_16, KEY_24, KEY_32,
    KEY_RFC5649, RFC3394_4_1, RFC3394_4_2, RFC3394_4_3, RFC3394_4_4, RFC3394_4_5, RFC3394_4_6,
    RFC5649_7, RFC5649_20,
};

// The longest key that is tried.
const LONGEST: usize = 32;

/// The calls of a library that its self test makes.
pub trait TestedCalls {

    /// Wraps in the plain form.
    fn wrap(kek: &[u8], key: &[u8], text: &mut [u8]) -> i32;

    /// Unwraps in the plain form.
    fn unwrap(kek: &[u8], text: &[u8], key: &mut [u8]) -> i32;

    /// Wraps in the padded form.
    fn wrap_padded(kek: &[u8], key: &[u8], text: &mut [u8]) -> i32;

    /// Unwraps in the padded form.
    fn unwrap_padded(kek: &[u8], text: &[u8], key: &mut [u8], key_len: &mut usize) -> i32;
}

/// Wraps and unwraps the published vectors of RFC 3394 and RFC 5649, and unwraps a damaged wrapped
/// key, and makes each of these calls. Returns `DONE` if each result is right, and else `INTEGRITY`.
pub fn self_test<C: TestedCalls>() -> i32 {
    let right = wrappings_are_right::<C>();
    let refused = is_refused::<C>();
    if right && refused { DONE } else { INTEGRITY }
}
fn wrappings_are_right<C: TestedCalls>() -> bool {
    let one = is_plain::<C>(KEY_16, DATA_16, RFC3394_4_1);
    let two = is_plain::<C>(KEY_24, DATA_16, RFC3394_4_2);
    let three = is_plain::<C>(KEY_32, DATA_16, RFC3394_4_3);
    let four = is_plain::<C>(KEY_24, DATA_24, RFC3394_4_4);
    let five = is_plain::<C>(KEY_32, DATA_24, RFC3394_4_5);
    let six = is_plain::<C>(KEY_32, DATA_32, RFC3394_4_6);
    let seven = is_padded::<C>(KEY_RFC5649, DATA_RFC5649_20, RFC5649_20);
    let eight = is_padded::<C>(KEY_RFC5649, DATA_RFC5649_7, RFC5649_7);
    one && two && three && four && five && six && seven && eight
}

// Whether a key becomes a wrapped key in the plain form, and the wrapped key this key. Not inlined,
// it is there once for all vectors.
#[inline(never)]
fn is_plain<C: TestedCalls>(kek: &[u8], key: &[u8], text: &[u8]) -> bool {
    let mut wrapped = [0; LONGEST + 8];
    let wrapped = &mut wrapped[..key.len() + 8];
    if C::wrap(kek, key, wrapped) != DONE {
        return false;
    }
    if &wrapped[..] != text {
        return false;
    }
    let mut found = [0; LONGEST];
    let found = &mut found[..key.len()];
    if C::unwrap(kek, text, found) != DONE {
        return false;
    }
    &found[..] == key
}

// The same in the padded form.
#[inline(never)]
fn is_padded<C: TestedCalls>(kek: &[u8], key: &[u8], text: &[u8]) -> bool {
    let room = key.len().saturating_add(7) / 8 * 8;
    let mut wrapped = [0; LONGEST + 8];
    let wrapped = &mut wrapped[..room + 8];
    if C::wrap_padded(kek, key, wrapped) != DONE {
        return false;
    }
    if &wrapped[..] != text {
        return false;
    }
    let mut found = [0; LONGEST];
    let found = &mut found[..room];
    let mut len = 0;
    if C::unwrap_padded(kek, text, found, &mut len) != DONE {
        return false;
    }
    &found[..len] == key
}

// Whether the damaged wrapped key is refused.
fn is_refused<C: TestedCalls>() -> bool {
    let mut key = [0; 16];
    C::unwrap(KEY_16, DAMAGED, &mut key) == INTEGRITY
}
