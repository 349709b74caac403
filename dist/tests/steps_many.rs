//! The steps of many keys over a block cipher of the caller: its calls, refusals, and what is left if it
//! fails. Rows of the repository compare them over AES with the calls.
#![cfg(feature = "alloc")]

mod toy;

use keywrap::steps::{many, Operation, Rewrapping, Stopped, Wrapping};
use keywrap::{Error, Form, Forms, Status};
use std::convert::Infallible;
use toy::{decrypt, encrypt};
use Error::{IntegrityCheckFailed, InvalidDataSize};

type Blocks = [[u8; 16]];
const COUNT: usize = 1000;
const DAMAGED: usize = 500;
const NEW: usize = 501;

fn encrypt_each(blocks: &mut Blocks) -> Result<(), Infallible> {
    blocks.iter_mut().try_for_each(encrypt)
}

fn decrypt_each(blocks: &mut Blocks) -> Result<(), Infallible> {
    blocks.iter_mut().try_for_each(decrypt)
}

/// The toy cipher under another key.
fn encrypt_new(block: &mut [u8; 16]) -> Result<(), Infallible> {
    block.iter_mut().for_each(|byte| *byte ^= 0x33);
    encrypt(block)
}

fn decrypt_new(block: &mut [u8; 16]) -> Result<(), Infallible> {
    decrypt(block)?;
    block.iter_mut().for_each(|byte| *byte ^= 0x33);
    Ok(())
}

fn both(operation: Operation, blocks: &mut Blocks) -> Result<(), Infallible> {
    blocks.iter_mut().try_for_each(match operation {
        Operation::DecryptOld => decrypt,
        Operation::EncryptNew => encrypt_new,
        Operation::DecryptNew => decrypt_new,
    })
}

fn key(number: usize) -> [u8; 32] {
    let mut key = [number as u8; 32];
    key[3] = (number >> 8) as u8;
    key
}

/// Wrapped keys of 32 bytes. One is damaged, one is under the new KEK.
fn thousand() -> Vec<u8> {
    let mut all = vec![0; COUNT * 40];
    for (number, out) in all.chunks_exact_mut(40).enumerate() {
        let begun = Wrapping::new(&key(number), out).unwrap();
        match number {
            NEW => begun.run(encrypt_new).unwrap(),
            _ => begun.run(encrypt).unwrap(),
        }
    }
    all[DAMAGED * 40] ^= 1;
    all
}

/// A call of the cipher has a block of each key. The new KEK decrypts only what the old one did not
/// open. Each key is as after the steps of one.
#[test]
fn calls_of_the_cipher() {
    for pass_new in [false, true] {
        let (before, mut slots) = (thousand(), thousand());
        let mut statuses = vec![Status::default(); COUNT];
        let (mut calls, mut blocks_of) = ([0; 3], [0; 3]);
        let counted = |operation: Operation, blocks: &mut Blocks| {
            calls[operation as usize] += 1;
            blocks_of[operation as usize] += blocks.len();
            both(operation, blocks)
        };
        many::rewrap(&mut slots, Forms::Kept, pass_new, &mut statuses, counted).unwrap();
        let passed = usize::from(pass_new);
        assert_eq!(calls, [24, 24, 24 * passed]);
        let fresh = COUNT - 2;
        assert_eq!(blocks_of, [24 * COUNT, 24 * fresh, 24 * 2 * passed]);
        let each = before.chunks_exact(40).zip(slots.chunks_exact(40));
        for ((before, after), status) in each.zip(&statuses) {
            let mut out = [0; 40];
            let one = Rewrapping::new(before, &mut out, Forms::Kept, pass_new).unwrap();
            let due = one.run(|operation, block| both(operation, std::slice::from_mut(block)));
            let due = due.map_err(|stopped| match stopped {
                Stopped::Refused(error) => error,
                Stopped::Cipher(never) => match never {},
            });
            assert_eq!(status.rewrapped(), due);
            assert_eq!(after, if due.is_ok() { &out[..] } else { before });
        }
    }
}

/// The error of a cipher is returned, and the slots are unchanged, whichever call fails.
#[test]
fn cipher_fails() {
    let before = thousand()[..80].to_vec();
    for at in 0..48 {
        let failing = || {
            let mut left = at;
            move |blocks: &mut Blocks| {
                blocks[0][3] ^= 1;
                left -= 1;
                if left < 0 {
                    Err("gone")
                } else {
                    Ok(())
                }
            }
        };
        let mut statuses = [Status::default(); 2];
        let mut slots = before.clone();
        let mut rewrapping = failing();
        let cipher = |operation, blocks: &mut Blocks| {
            both(operation, blocks).unwrap();
            rewrapping(blocks).map(|()| blocks[0][3] ^= 1)
        };
        let ended = many::rewrap(&mut slots, Forms::Kept, false, &mut statuses, cipher);
        assert_eq!(ended, Err(Stopped::Cipher("gone")));
        assert_eq!(slots, before);
        if at >= 24 {
            continue;
        }
        for form in [Form::Plain, Form::Padded] {
            let ended = many::wrap(form, &mut slots, 32, 2, failing());
            assert_eq!(ended, Err(Stopped::Cipher("gone")));
            let mut lens = [0; 2];
            let ended = many::unwrap(form, &mut slots, &mut lens, &mut statuses, failing());
            assert_eq!(ended, Err(Stopped::Cipher("gone")));
        }
        assert_eq!(slots, before);
    }
}

/// A refusal leaves the slots and asks no cipher.
#[test]
fn refused_slots() {
    let no_cipher = |_: &mut Blocks| -> Result<(), Infallible> { panic!() };
    let none = |_: Operation, _: &mut Blocks| -> Result<(), Infallible> { panic!() };
    let refused = Err(Stopped::Refused(InvalidDataSize));
    for (len, count) in [(0, 0), (0, 1), (7, 1), (15, 1), (25, 1), (49, 2), (40, 0)] {
        let mut slots = vec![1; len];
        let (mut lens, mut statuses) = (vec![0; count], vec![Status::default(); count]);
        assert_eq!(
            many::wrap(Form::Plain, &mut slots, 16, count, no_cipher),
            refused
        );
        for form in [Form::Plain, Form::Padded] {
            let ended = many::unwrap(form, &mut slots, &mut lens, &mut statuses, no_cipher);
            assert_eq!(ended, refused);
        }
        let ended = many::rewrap(&mut slots, Forms::Kept, true, &mut statuses, none);
        assert_eq!(ended, refused);
        assert_eq!(slots, vec![1; len]);
    }
    let mut statuses = [Status::default(); 1];
    let ended = many::unwrap(Form::Plain, &mut [1; 24], &mut [], &mut statuses, no_cipher);
    let expected = Error::InvalidOutputSize { expected: 1 };
    assert_eq!(ended, Err(Stopped::Refused(expected)));
    // Only a padded one that is new could be so short. The call for many keys refuses it, too.
    let to_padded = Forms::Given {
        old: Form::Plain,
        new: Form::Padded,
    };
    let ended = many::rewrap(&mut [1; 16], to_padded, true, &mut statuses, none);
    assert_eq!(ended, refused);
}

/// The key does not fit its slots.
#[test]
fn refused_key_len() {
    let no_cipher = |_: &mut Blocks| -> Result<(), Infallible> { panic!() };
    let refused = Err(Stopped::Refused(InvalidDataSize));
    for (form, key_len) in [
        (Form::Plain, 24),
        (Form::Plain, 15),
        (Form::Padded, 8),
        (Form::Padded, 17),
    ] {
        let mut slots = [1; 48];
        assert_eq!(many::wrap(form, &mut slots, key_len, 2, no_cipher), refused);
        assert_eq!(slots, [1; 48]);
    }
}

/// A refused one has the length 0 and is all zeros, the others begin with 8 zeros.
#[test]
fn damaged() {
    let mut slots = thousand()[(DAMAGED - 1) * 40..][..120].to_vec();
    let (mut lens, mut statuses) = ([7; 3], [Status::default(); 3]);
    many::unwrap(
        Form::Plain,
        &mut slots,
        &mut lens,
        &mut statuses,
        decrypt_each,
    )
    .unwrap();
    assert_eq!(lens, [32, 0, 0]);
    assert_eq!(statuses[0].result(), Ok(()));
    assert_eq!(statuses[1..], [Status::default(); 2]);
    assert_eq!(slots[..8], [0; 8]);
    assert_eq!(slots[8..40], key(DAMAGED - 1));
    assert_eq!(slots[40..], [0; 80]);
}

/// A padded key of a single step.
#[test]
fn short_keys() {
    let mut slots = [5; 3 * 16];
    many::wrap(Form::Padded, &mut slots, 3, 3, encrypt_each).unwrap();
    let (mut lens, mut statuses) = ([0; 3], [Status::default(); 3]);
    slots[16] ^= 1;
    many::unwrap(
        Form::Padded,
        &mut slots,
        &mut lens,
        &mut statuses,
        decrypt_each,
    )
    .unwrap();
    assert_eq!(lens, [3, 0, 3]);
    assert_eq!(statuses[1].result(), Err(IntegrityCheckFailed));
    assert_eq!(slots[40..], [5, 5, 5, 0, 0, 0, 0, 0]);
}
