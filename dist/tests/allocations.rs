//! No call allocates more than the longest key needs, and copies of keys are cleared before they are
//! freed.

#![cfg(feature = "alloc")]

use keywrap::steps::{many, Stopped};
use keywrap::{Error::InvalidDataSize, Form, KekAes128};
use std::alloc::{GlobalAlloc, Layout, System};
use std::sync::atomic::{AtomicUsize, Ordering::SeqCst};

static LARGEST: AtomicUsize = AtomicUsize::new(0);
/// How many freed allocations had the secret.
static LEFT: AtomicUsize = AtomicUsize::new(0);
/// The first half of a key.
const SECRET: [u8; 8] = *b"\x9d\x31\xe7\x08\xb2\x6c\xf5\x4a";

struct Watched;

// SAFETY: the system's allocator does both.
unsafe impl GlobalAlloc for Watched {
    unsafe fn alloc(&self, layout: Layout) -> *mut u8 {
        LARGEST.fetch_max(layout.size(), SeqCst);
        System.alloc(layout)
    }

    unsafe fn dealloc(&self, at: *mut u8, layout: Layout) {
        if layout.size() < 1000 {
            let freed = std::slice::from_raw_parts(at, layout.size());
            LEFT.fetch_add(freed.windows(8).any(|part| part == SECRET).into(), SeqCst);
        }
        System.dealloc(at, layout)
    }
}

#[global_allocator]
static ALLOCATOR: Watched = Watched;

#[test]
fn too_long() {
    let (kek, long) = (KekAes128::from([1; 16]), vec![0; 4 << 20]);
    assert_eq!(LARGEST.swap(0, SeqCst), long.len());
    assert_eq!(kek.wrap_vec(&long), Err(InvalidDataSize));
    assert_eq!(kek.wrap_with_iv_vec(&[0; 8], &long), Err(InvalidDataSize));
    assert_eq!(kek.wrap_with_padding_vec(&long), Err(InvalidDataSize));
    assert_eq!(kek.unwrap_vec(&long), Err(InvalidDataSize));
    assert_eq!(kek.unwrap_with_iv_vec(&[0; 8], &long), Err(InvalidDataSize));
    assert_eq!(kek.unwrap_with_padding_vec(&long), Err(InvalidDataSize));
    assert_eq!(kek.unwrap_any_vec(&long), Err(InvalidDataSize));
    assert!(kek.kind_vec(&long).is_err());
    let largest = LARGEST.load(SeqCst);
    assert!(0 < largest && largest <= 1048584, "{}", largest);
}

/// The cipher fails before it has encrypted a block, which has half of a key.
#[test]
fn copies_of_keys_are_cleared() {
    // More slots than the first blocks of a vector that grows.
    let mut slots = [0; 5 * 24];
    for slot in slots.chunks_exact_mut(24) {
        slot[8..16].copy_from_slice(&SECRET);
    }
    let fails = |_: &mut [[u8; 16]]| Err("gone");
    let ended = many::wrap(Form::Plain, &mut slots, 16, 5, fails);
    assert_eq!(ended, Err(Stopped::Cipher("gone")));
    assert_eq!(LEFT.load(SeqCst), 0);
    // The allocator sees one that is not cleared.
    drop(slots[8..16].to_vec());
    assert_eq!(LEFT.load(SeqCst), 1);
}
