//! What the crate has around its calls: the types of KEKs and errors, and lengths. The calls
//! themselves are tested by rows of the repository.

use keywrap::{
    padded_text_len, room, text_len, Error, Forms, Kek, KekAes128, KekAes192, KekAes256, KekSlice,
    KeptKek, Status, KEYWRAP_MAX_KEY, KEYWRAP_MAX_TEXT,
};
use std::mem::{size_of, transmute_copy, ManuallyDrop};
use Error::{IntegrityCheckFailed, InvalidOutputSize};

#[test]
fn lengths_of_results() {
    assert_eq!((KEYWRAP_MAX_KEY, KEYWRAP_MAX_TEXT), (1048576, 1048584));
    for len in 0..100 {
        assert_eq!(text_len(len), len + 8);
        assert_eq!(padded_text_len(len), len + (8 - len % 8) % 8 + 8);
        assert_eq!(room(len), len.max(8) - 8);
    }
    for len in usize::MAX - 20..=usize::MAX {
        assert!(text_len(len) >= len && padded_text_len(len) > usize::MAX / 2);
    }
}

/// A KEK of another length is refused. Its text has no bytes. A slot has no result before a call.
#[test]
fn keks() {
    for size in 0..300 {
        let (bytes, due) = (vec![5; size], Error::InvalidKekSize { size });
        let refused = |right: &[_]| (!right.contains(&size)).then_some(due);
        assert_eq!(KekAes128::try_from(&bytes[..]).err(), refused(&[16]));
        assert_eq!(KekAes192::try_from(&bytes[..]).err(), refused(&[24]));
        assert_eq!(KekAes256::try_from(&bytes[..]).err(), refused(&[32]));
        assert_eq!(KeptKek::new(&bytes).err(), refused(&[16, 24, 32]));
    }
    assert_eq!(format!("{:?}", KekAes128::from([255; 16])), "Kek(16 bytes)");
    assert_eq!(Status::default().result(), Err(IntegrityCheckFailed));
}

/// Beside a kept KEK the refused length is another one's. Each copy is a KEK. A dropped one is cleared.
#[test]
fn kept_keks() {
    let kek = KeptKek::new(&[7; 32]).unwrap();
    let (bad, mut out) = (KekSlice::new(&[7; 17]), [0; 24]);
    for (old, new) in [(&*kek, bad), (bad, &*kek)] {
        let found = old.rewrap(new, &mut out, Forms::Kept, false);
        assert_eq!(found, Err(Error::InvalidKekSize { size: 17 }));
    }
    assert_eq!(kek.clone().wrap(&[5; 16], &mut out), Ok(()));
    let mut key = [0; 16];
    assert_eq!(kek.unwrap(&out, &mut key), Ok(()));
    assert_eq!((key, format!("{:?}", kek)), ([5; 16], "KeptKek".into()));
    let mut kek = ManuallyDrop::new(kek);
    // SAFETY: only its bytes are read after this: of them only its length, 248, is not 0.
    unsafe { ManuallyDrop::drop(&mut kek) };
    let bytes: [u8; size_of::<KeptKek>()] = unsafe { transmute_copy(&kek) };
    assert_eq!(bytes.iter().filter(|byte| **byte != 0).count(), 1);
}

/// A refusal says which length is wrong: that of the slots, or of a buffer, with the right one.
#[test]
fn refused_lengths_of_many() {
    let kek = KekAes128::from([1; 16]);
    let refused = |slot_len: usize, scratch_len: usize, forms: usize, lens: usize| {
        let (mut padded, mut key_lens) = (vec![0; forms], vec![0; lens]);
        let (slots, mut scratch) = (vec![0; 2 * slot_len], vec![0; scratch_len]);
        let mut statuses = [Status::default(); 2];
        let kinds = kek.kind_many(
            &slots,
            &mut scratch,
            &mut padded,
            &mut key_lens,
            &mut statuses,
        );
        kinds.map(|_| ()).err()
    };
    let of_buffer = |expected| Some(InvalidOutputSize { expected });
    assert_eq!(refused(40, 32, 2, 2), None);
    assert_eq!(refused(41, 33, 2, 2), Some(Error::InvalidDataSize));
    assert_eq!(refused(40, 31, 2, 2), of_buffer(32));
    assert_eq!(refused(40, 32, 1, 2), of_buffer(2));
    assert_eq!(refused(40, 32, 2, 3), of_buffer(2));
}

/// Code that is written for aes-kw.
#[test]
fn shape_of_aes_kw() {
    let kek = Kek::from([0x0f; 16]);
    let mut wrapped = [0u8; 24];
    kek.wrap(b"sixteen byte key", &mut wrapped).unwrap();
    let mut out = [0u8; 16];
    kek.unwrap(&wrapped, &mut out).unwrap();
    assert_eq!(&out, b"sixteen byte key");
    let refused = KekAes256::new(&[1; 32]).unwrap(&[0; 24], &mut out[..8]);
    assert_eq!(refused, Err(InvalidOutputSize { expected: 16 }));
}

#[test]
fn self_test_and_version() {
    assert_eq!(keywrap::self_test(), Ok(()));
    let [major, minor, patch] = keywrap::version();
    let version = env!("CARGO_PKG_VERSION").trim_end_matches("-dev");
    assert_eq!(format!("{major}.{minor}.{patch}"), version);
}

#[cfg(feature = "std")]
#[test]
fn is_an_error() {
    let error: Box<dyn std::error::Error + Send + Sync> = Box::new(Error::InvalidDataSize);
    assert_eq!(error.to_string(), "bad length");
}
