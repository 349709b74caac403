//! The calls under a block cipher of the caller. The steps under the same cipher say what is right.

use keywrap::generic::{BlockPair, Kek};
use keywrap::steps::{Unwrapping, Wrapping};
use keywrap::{padded_text_len, room, text_len, Error, Form, Forms, Rewrapped};
use std::cell::Cell;
use std::convert::Infallible;
use Error::{IntegrityCheckFailed, InvalidDataSize, InvalidIv, InvalidOutputSize, KeyNotPlain};

const IV: [u8; 8] = [1, 2, 3, 4, 5, 6, 7, 8];
const RESERVED: [u8; 8] = [0xa6, 0x59, 0x59, 0xa6, 0, 0, 0, 16];

/// A toy cipher under a key of one byte: each byte is changed by the one before it, in this order.
#[derive(Clone)]
struct Toy(u8);

impl BlockPair for Toy {
    fn enc(&self, mut block: [u8; 16]) -> [u8; 16] {
        for at in 0..16 {
            block[at] ^= block[(at + 15) % 16].wrapping_mul(3) ^ self.0;
        }
        block
    }

    fn dec(&self, mut block: [u8; 16]) -> [u8; 16] {
        for at in (0..16).rev() {
            block[at] ^= block[(at + 15) % 16].wrapping_mul(3) ^ self.0;
        }
        block
    }
}

fn encrypt(block: &mut [u8; 16]) -> Result<(), Infallible> {
    *block = Toy(9).enc(*block);
    Ok(())
}

fn decrypt(block: &mut [u8; 16]) -> Result<(), Infallible> {
    *block = Toy(9).dec(*block);
    Ok(())
}

fn key_of(len: usize) -> Vec<u8> {
    (0..len).map(|at| (at * 7 + 3) as u8).collect()
}

#[test]
fn plain_as_the_steps() {
    let kek = Kek::new(Toy(9));
    for len in (16..=80).step_by(8) {
        let key = key_of(len);
        for iv in [keywrap::IV, IV] {
            let (mut wrapped, mut due) = (vec![1; text_len(len)], vec![2; text_len(len)]);
            assert_eq!(kek.wrap_with_iv(&iv, &key, &mut wrapped), Ok(()));
            let begun = Wrapping::with_iv(&iv, &key, &mut due).unwrap();
            begun.run(encrypt).unwrap();
            assert_eq!(wrapped, due);
            let (mut found, mut due) = (vec![1; len], vec![2; len]);
            assert_eq!(kek.unwrap_with_iv(&iv, &wrapped, &mut found), Ok(()));
            let begun = Unwrapping::with_iv(&iv, &wrapped, &mut due).unwrap();
            begun.run(decrypt).unwrap();
            assert_eq!((&found, &found), (&due, &key));
            let mut scratch = vec![1; len];
            let kind = kek.kind(&wrapped, &mut scratch);
            let is_default = iv == keywrap::IV;
            assert_eq!(kind.is_ok(), is_default);
            assert!(kind.map_or(true, |kind| (kind.form, kind.key_len) == (Form::Plain, len)));
            assert_eq!(scratch, vec![0; len]);
            let mut either = vec![1; len];
            let any = kek.unwrap_any(&wrapped, &mut either);
            assert_eq!(any.ok(), is_default.then_some((Form::Plain, &key[..])));
        }
        let mut wrapped = vec![0; text_len(len)];
        assert_eq!(kek.wrap(&key, &mut wrapped), Ok(()));
        let mut found = vec![0; len];
        assert_eq!(kek.unwrap(&wrapped, &mut found), Ok(()));
        assert_eq!(found, key);
    }
}

#[test]
fn padded_as_the_steps() {
    let kek = Kek::new(Toy(9));
    for len in 1..40 {
        let key = key_of(len);
        let whole = padded_text_len(len);
        let (mut wrapped, mut due) = (vec![1; whole], vec![2; whole]);
        assert_eq!(kek.wrap_with_padding(&key, &mut wrapped), Ok(()));
        let begun = Wrapping::with_padding(&key, &mut due).unwrap();
        begun.run(encrypt).unwrap();
        assert_eq!(wrapped, due);
        let mut found = vec![1; whole - 8];
        let unwrapped = kek.unwrap_with_padding(&wrapped, &mut found);
        assert_eq!(unwrapped, Ok(&key[..]));
        let any = kek.unwrap_any(&wrapped, &mut found);
        assert_eq!(any, Ok((Form::Padded, &key[..])));
        let kind = kek.kind(&wrapped, &mut found).unwrap();
        assert_eq!((kind.form, kind.key_len), (Form::Padded, len));
    }
}

/// The toy cipher, with a count of its calls.
struct Counted<'a>(&'a Cell<usize>);

impl BlockPair for Counted<'_> {
    fn enc(&self, block: [u8; 16]) -> [u8; 16] {
        self.0.set(self.0.get() + 1);
        Toy(9).enc(block)
    }

    fn dec(&self, block: [u8; 16]) -> [u8; 16] {
        self.0.set(self.0.get() + 1);
        Toy(9).dec(block)
    }
}

/// Six block calls for each 8 bytes of the key, one for a padded key of at most 8 bytes. The
/// proved code counts its calls, and no contract says that it counts each.
#[test]
fn block_calls() {
    let calls = Cell::new(0);
    let kek = Kek::new(Counted(&calls));
    for len in (16..=80).step_by(8) {
        let (key, mut wrapped, mut found) = (key_of(len), vec![0; text_len(len)], vec![0; len]);
        kek.wrap(&key, &mut wrapped).unwrap();
        assert_eq!(calls.replace(0), 6 * len / 8);
        kek.unwrap(&wrapped, &mut found).unwrap();
        assert_eq!(calls.replace(0), 6 * len / 8);
        wrapped[0] ^= 1;
        assert!(kek.unwrap(&wrapped, &mut found).is_err());
        assert_eq!(calls.replace(0), 6 * len / 8);
    }
    for len in 1..=40 {
        let mut wrapped = vec![0; padded_text_len(len)];
        let mut found = vec![0; wrapped.len() - 8];
        let expected = if len <= 8 { 1 } else { 6 * found.len() / 8 };
        kek.wrap_with_padding(&key_of(len), &mut wrapped).unwrap();
        assert_eq!(calls.replace(0), expected);
        kek.unwrap_with_padding(&wrapped, &mut found).unwrap();
        assert_eq!(calls.replace(0), expected);
    }
}

#[cfg(feature = "alloc")]
#[test]
fn vectors() {
    let kek = Kek::new(Toy(9));
    for len in 1..40 {
        let key = key_of(len);
        let mut wrapped = vec![0; padded_text_len(len)];
        kek.wrap_with_padding(&key, &mut wrapped).unwrap();
        assert_eq!(kek.wrap_with_padding_vec(&key), Ok(wrapped.clone()));
        assert_eq!(kek.unwrap_with_padding_vec(&wrapped), Ok(key.clone()));
        let is_plain = len >= 16 && len % 8 == 0;
        let plain = kek.wrap_vec(&key);
        assert_eq!(plain.is_ok(), is_plain);
        assert!(plain.map_or(true, |plain| kek.unwrap_vec(&plain) == Ok(key)));
    }
}

#[test]
fn refused() {
    let kek = Kek::new(Toy(9));
    let mut out = [1; 24];
    assert_eq!(kek.wrap(&[5; 15], &mut out), Err(InvalidDataSize));
    let short = Err(InvalidOutputSize { expected: 32 });
    assert_eq!(kek.wrap(&[5; 24], &mut out), short);
    assert_eq!(kek.wrap_with_padding(&[5; 24], &mut out), short);
    assert_eq!(kek.wrap_with_padding(&[], &mut out), Err(InvalidDataSize));
    assert_eq!(
        kek.wrap_with_iv(&RESERVED, &[5; 16], &mut out),
        Err(InvalidIv)
    );
    assert_eq!(
        kek.unwrap_with_iv(&RESERVED, &[5; 32], &mut out),
        Err(InvalidIv)
    );
    assert_eq!(kek.unwrap(&[5; 31], &mut out), Err(InvalidDataSize));
    assert_eq!(
        kek.unwrap(&[5; 40], &mut out),
        Err(InvalidOutputSize { expected: 32 })
    );
    assert_eq!(out, [1; 24]);
    assert_eq!(kek.unwrap(&[5; 32], &mut out), Err(IntegrityCheckFailed));
    assert_eq!(out, [0; 24]);
    assert_eq!(room(32), out.len());
}

#[test]
fn rewraps() {
    let (old, new) = (Kek::new(Toy(9)), Kek::new(Toy(77)));
    let mut buffer = [0; 24];
    let given = |old, new| Forms::Given { old, new };
    let to_padded = given(Form::Plain, Form::Padded);
    old.wrap(&[5; 16], &mut buffer).unwrap();
    let before = buffer;
    let refused = new.rewrap(&old, &mut buffer, to_padded, false);
    assert_eq!((refused, buffer), (Err(IntegrityCheckFailed), before));
    let done = old.rewrap(&new, &mut buffer, to_padded, false);
    assert_eq!(done, Ok(Rewrapped::Fresh));
    let mut key = [0; 16];
    assert_eq!(new.unwrap_with_padding(&buffer, &mut key), Ok(&[5; 16][..]));
    let again = old.rewrap(&new, &mut buffer, Forms::Kept, true);
    assert_eq!(again, Ok(Rewrapped::AlreadyNew));
    new.wrap_with_padding(&[5; 13], &mut buffer).unwrap();
    let to_plain = given(Form::Padded, Form::Plain);
    let refused = new.rewrap(&old, &mut buffer, to_plain, false);
    assert_eq!(refused, Err(KeyNotPlain));
    let refused = new.rewrap(&old, &mut buffer[..7], Forms::Kept, false);
    assert_eq!(refused, Err(InvalidDataSize));
    assert_eq!(format!("{:?}", old.clone()), "Kek");
}
