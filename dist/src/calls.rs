//! The calls, by the proved code. Each has the arguments of its call of keywrap.h or keywrap_steps.h.

use crate::aes::{LentAes, Room};
use crate::clear::{clear_stack, parts};
use crate::proved::keywrap_calls as proved;

pub(crate) use proved::{
    begin_rewrap, begin_unwrap, begin_unwrap_padded, begin_wrap, begin_wrap_padded, end_unwrap,
    end_unwrap_any, end_unwrap_padded, end_wrap, next_rewrap_from, status_text, step_count,
    step_unwrap, step_wrap, version,
};

/// The bytes of the stack that a call may use below the frame that has the round keys: by the
/// instructions, by the tables, and for many keys. A call that only keeps a KEK has no tables in its
/// room: on x86-64 it took 352 bytes.
const BY_INSTRUCTIONS: usize = parts(1024);
const BY_TABLES: usize = parts(2048);
const FOR_MANY: usize = parts(16_384);

/// Makes a call with memory for the round keys of a KEK. Afterwards that is cleared, and the stack
/// below.
#[inline(always)]
pub(crate) fn with_room(call: impl FnOnce(&mut Room) -> i32) -> i32 {
    let mut room = Room::new();
    let status = in_frame_below(|| call(&mut room));
    clear_below(room.has_tables());
    status
}

/// The same with memory for two KEKs.
#[inline(always)]
pub(crate) fn with_rooms(call: impl FnOnce((&mut Room, &mut Room)) -> i32) -> i32 {
    let (mut old, mut new) = (Room::new(), Room::new());
    let status = in_frame_below(|| call((&mut old, &mut new)));
    clear_below(old.has_tables());
    status
}

/// The same for many keys.
#[inline(always)]
fn with_room_for_many(call: impl FnOnce(&mut Room) -> i32) -> i32 {
    let mut room = Room::new();
    let status = in_frame_below(|| call(&mut room));
    clear_stack::<FOR_MANY>();
    status
}

/// The same for many keys with memory for two KEKs.
#[inline(always)]
fn with_rooms_for_many(call: impl FnOnce((&mut Room, &mut Room)) -> i32) -> i32 {
    let (mut old, mut new) = (Room::new(), Room::new());
    let status = in_frame_below(|| call((&mut old, &mut new)));
    clear_stack::<FOR_MANY>();
    status
}

/// Clears the stack below the frame that has the round keys, after a call for one key.
#[inline(always)]
fn clear_below(has_tables: bool) {
    if has_tables {
        clear_stack::<BY_TABLES>();
    } else {
        clear_stack::<BY_INSTRUCTIONS>();
    }
}

/// Makes a call in a frame that is below the caller's.
#[inline(never)]
fn in_frame_below(call: impl FnOnce() -> i32) -> i32 {
    call()
}

pub(crate) fn kek_init(kek: &[u8], kept: &mut [u8]) -> i32 {
    with_room(|room| proved::kek_init::<LentAes<'_>>(room, kek, kept))
}

pub(crate) fn kek_clear(kept: &mut [u8]) {
    proved::kek_clear(kept);
    // The proved call writes the zeros, but the compiler does not know that they are needed.
    crate::clear::clear(kept);
}

pub(crate) fn wrap(kek: &[u8], key: &[u8], text: &mut [u8]) -> i32 {
    with_room(|room| proved::wrap::<LentAes<'_>>(room, kek, key, text))
}

pub(crate) fn unwrap(kek: &[u8], text: &[u8], key: &mut [u8]) -> i32 {
    with_room(|room| proved::unwrap::<LentAes<'_>>(room, kek, text, key))
}

pub(crate) fn wrap_with(kek: &[u8], iv: &[u8], key: &[u8], text: &mut [u8]) -> i32 {
    with_room(|room| proved::wrap_with::<LentAes<'_>>(room, kek, iv, key, text))
}

pub(crate) fn unwrap_with(kek: &[u8], iv: &[u8], text: &[u8], key: &mut [u8]) -> i32 {
    with_room(|room| proved::unwrap_with::<LentAes<'_>>(room, kek, iv, text, key))
}

pub(crate) fn wrap_padded(kek: &[u8], key: &[u8], text: &mut [u8]) -> i32 {
    with_room(|room| proved::wrap_padded::<LentAes<'_>>(room, kek, key, text))
}

pub(crate) fn unwrap_padded(kek: &[u8], text: &[u8], key: &mut [u8], key_len: &mut usize) -> i32 {
    with_room(|room| proved::unwrap_padded::<LentAes<'_>>(room, kek, text, key, key_len))
}

pub(crate) fn wrap_in_place(kek: &[u8], buffer: &mut [u8]) -> i32 {
    with_room(|room| proved::wrap_in_place::<LentAes<'_>>(room, kek, buffer))
}

pub(crate) fn unwrap_in_place(kek: &[u8], buffer: &mut [u8]) -> i32 {
    with_room(|room| proved::unwrap_in_place::<LentAes<'_>>(room, kek, buffer))
}

pub(crate) fn wrap_padded_in_place(kek: &[u8], buffer: &mut [u8], key_len: usize) -> i32 {
    with_room(|room| proved::wrap_padded_in_place::<LentAes<'_>>(room, kek, buffer, key_len))
}

pub(crate) fn unwrap_padded_in_place(kek: &[u8], buffer: &mut [u8], key_len: &mut usize) -> i32 {
    with_room(|room| proved::unwrap_padded_in_place::<LentAes<'_>>(room, kek, buffer, key_len))
}

pub(crate) fn unwrap_any(
    kek: &[u8],
    text: &[u8],
    key: &mut [u8],
    padded: &mut u32,
    key_len: &mut usize,
) -> i32 {
    with_room(|room| proved::unwrap_any::<LentAes<'_>>(room, kek, text, key, padded, key_len))
}

pub(crate) fn kind(
    kek: &[u8],
    text: &[u8],
    scratch: &mut [u8],
    padded: &mut u32,
    key_len: &mut usize,
) -> i32 {
    with_room(|room| proved::kind::<LentAes<'_>>(room, kek, text, scratch, padded, key_len))
}

pub(crate) fn rewrap(
    old_kek: &[u8],
    new_kek: &[u8],
    buffer: &mut [u8],
    flags: u32,
    already: &mut u32,
) -> i32 {
    with_rooms(|rooms| {
        proved::rewrap::<LentAes<'_>>(rooms, old_kek, new_kek, buffer, flags, already)
    })
}

pub(crate) fn wrap_many(
    kek: &[u8],
    texts: &mut [u8],
    key_len: usize,
    flags: u32,
    statuses: &mut [u8],
) -> i32 {
    with_room_for_many(|room| {
        proved::wrap_many_lanes::<LentAes<'_>>(room, kek, texts, key_len, flags, statuses)
    })
}

pub(crate) fn unwrap_many(
    kek: &[u8],
    texts: &mut [u8],
    flags: u32,
    key_lens: &mut [usize],
    statuses: &mut [u8],
) -> i32 {
    with_room_for_many(|room| {
        proved::unwrap_many_lanes::<LentAes<'_>>(room, kek, texts, flags, key_lens, statuses)
    })
}

pub(crate) fn rewrap_many(
    old_kek: &[u8],
    new_kek: &[u8],
    texts: &mut [u8],
    flags: u32,
    statuses: &mut [u8],
) -> i32 {
    with_rooms_for_many(|rooms| {
        proved::rewrap_many_lanes::<LentAes<'_>>(rooms, old_kek, new_kek, texts, flags, statuses)
    })
}

pub(crate) fn kind_many(
    kek: &[u8],
    texts: &[u8],
    scratch: &mut [u8],
    forms: &mut [u8],
    key_lens: &mut [usize],
    statuses: &mut [u8],
) -> i32 {
    with_room_for_many(|room| {
        proved::kind_many_lanes::<LentAes<'_>>(room, kek, texts, scratch, forms, key_lens, statuses)
    })
}

/// The calls that the self test makes.
struct Tested;

impl proved::TestedCalls for Tested {
    fn wrap(kek: &[u8], key: &[u8], text: &mut [u8]) -> i32 {
        wrap(kek, key, text)
    }

    fn unwrap(kek: &[u8], text: &[u8], key: &mut [u8]) -> i32 {
        unwrap(kek, text, key)
    }

    fn wrap_padded(kek: &[u8], key: &[u8], text: &mut [u8]) -> i32 {
        wrap_padded(kek, key, text)
    }

    fn unwrap_padded(kek: &[u8], text: &[u8], key: &mut [u8], key_len: &mut usize) -> i32 {
        unwrap_padded(kek, text, key, key_len)
    }
}

pub(crate) fn self_test() -> i32 {
    proved::self_test::<Tested>()
}
