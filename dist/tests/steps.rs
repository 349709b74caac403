//! The steps over a block cipher of the caller: refusals, and what is left if they stop. Rows of the
//! repository compare them over AES with the calls.

mod toy;

use keywrap::steps::{Operation, Rewrapping, Stopped, Unwrapping, Wrapping};
use keywrap::{Error, Forms, Rewrapped};
use std::convert::Infallible;
use std::mem::ManuallyDrop;
use toy::{decrypt, encrypt};
use Error::{IntegrityCheckFailed, InvalidDataSize, InvalidIv, InvalidStep};

const IV: [u8; 8] = [1, 2, 3, 4, 5, 6, 7, 8];
const RESERVED: [u8; 8] = [0xa6, 0x59, 0x59, 0xa6, 0, 0, 0, 16];

/// Begins it, and drops it.
type Begin = fn(&[u8], &mut [u8]) -> Option<Error>;
const WRAP: Begin = |data, out| Wrapping::new(data, out).err();
const WRAP_PADDED: Begin = |data, out| Wrapping::with_padding(data, out).err();
const UNWRAP: Begin = |data, out| Unwrapping::new(data, out).err();
const UNWRAP_PADDED: Begin = |data, out| Unwrapping::with_padding(data, out).err();

fn wrapped() -> [u8; 24] {
    let mut out = [0; 24];
    let begun = Wrapping::new(&[5; 16], &mut out).unwrap();
    begun.run(encrypt).unwrap();
    out
}

/// A refused beginning leaves the buffer.
#[test]
fn refused() {
    for len in 0..=40_usize {
        let data = vec![3; len];
        let (is, room) = (|least| len >= least && len % 8 == 0, len.saturating_sub(8));
        for (begin, is_legal, expected) in [
            (WRAP, is(16), len + 8),
            (WRAP_PADDED, len > 0, (len + 15) / 8 * 8),
            (UNWRAP, is(24), room),
            (UNWRAP_PADDED, is(16), room),
        ] {
            for out_len in len.saturating_sub(18)..len + 18 {
                let due = match is_legal {
                    true if out_len == expected => None,
                    true => Some(Error::InvalidOutputSize { expected }),
                    false => Some(InvalidDataSize),
                };
                let mut out = vec![1; out_len];
                assert_eq!(begin(&data, &mut out), due);
                // One that is dropped leaves zeros.
                assert_eq!(out, vec![due.is_some() as u8; out_len]);
            }
        }
    }
    let mut out = [1; 24];
    let refused = Wrapping::with_iv(&RESERVED, &[2; 16], &mut out).err();
    assert_eq!((refused, out), (Some(InvalidIv), [1; 24]));
    let longer = vec![1; keywrap::KEYWRAP_MAX_KEY + 16];
    let mut out = vec![1; keywrap::KEYWRAP_MAX_KEY + 24];
    for begin in [WRAP, UNWRAP] {
        assert_eq!(begin(&longer, &mut out), Some(InvalidDataSize));
    }
}

#[test]
fn damaged() {
    let (mut wrapped, mut padded) = (wrapped(), [0; 24]);
    let begun = Wrapping::with_padding(&[5; 13], &mut padded).unwrap();
    begun.run(encrypt).unwrap();
    for (iv, due) in [
        (keywrap::IV, None),
        (IV, Some(IntegrityCheckFailed)),
        (RESERVED, Some(InvalidIv)),
    ] {
        let mut out = [1; 16];
        let begun = Unwrapping::with_iv(&iv, &wrapped, &mut out).unwrap();
        assert_eq!(begun.run(decrypt).err(), due.map(Stopped::Refused));
        assert_eq!(out, [if due.is_some() { 0 } else { 5 }; 16]);
    }
    wrapped[20] ^= 4;
    padded[20] ^= 4;
    for is_padded in [false, true] {
        let mut out = [1; 16];
        let begun = match is_padded {
            false => Unwrapping::new(&wrapped, &mut out),
            true => Unwrapping::with_padding(&padded, &mut out),
        };
        let refused = begun.unwrap().run(decrypt).err();
        assert_eq!(refused, Some(Stopped::Refused(IntegrityCheckFailed)));
        assert_eq!(out, [0; 16]);
    }
}

/// A step too many and an end too early are refused, and an early end leaves zeros.
#[test]
fn order() {
    for steps in 0..=13 {
        let mut out = [1; 24];
        let mut wrapping = Wrapping::new(&[5; 16], &mut out).unwrap();
        for made in 0..steps {
            let mut block = wrapping.block().copied().unwrap_or([9; 16]);
            assert_eq!(wrapping.block().is_some(), made < 12);
            encrypt(&mut block).unwrap();
            let due = if made < 12 { Ok(()) } else { Err(InvalidStep) };
            assert_eq!(wrapping.step(&block), due);
        }
        let ended = wrapping.end();
        let due = if steps < 12 { Err(InvalidStep) } else { Ok(()) };
        assert_eq!(ended, due);
        assert_eq!(out, if steps < 12 { [0; 24] } else { wrapped() });

        let (wrapped, mut out) = (wrapped(), [1; 16]);
        let mut unwrapping = Unwrapping::new(&wrapped, &mut out).unwrap();
        for made in 0..steps {
            let mut block = unwrapping.block().copied().unwrap_or([9; 16]);
            assert_eq!(unwrapping.block().is_some(), made < 12);
            decrypt(&mut block).unwrap();
            let due = if made < 12 { Ok(()) } else { Err(InvalidStep) };
            assert_eq!(unwrapping.step(&block), due);
        }
        let due = if steps < 12 {
            Err(InvalidStep)
        } else {
            Ok(&[5; 16][..])
        };
        assert_eq!(unwrapping.end(), due);
        assert_eq!(out, [if steps < 12 { 0 } else { 5 }; 16]);
    }
}

/// The same of a rewrapping, which has two runs.
#[test]
fn order_of_a_rewrapping() {
    for steps in 0..=24 {
        let (data, mut out) = (wrapped(), [1; 24]);
        let mut begun = Rewrapping::new(&data, &mut out, Forms::Kept, false).unwrap();
        for _ in 0..steps {
            let (operation, mut block) = begun.block().map(|(it, block)| (it, *block)).unwrap();
            match operation {
                Operation::EncryptNew => encrypt(&mut block).unwrap(),
                _ => decrypt(&mut block).unwrap(),
            }
            assert_eq!(begun.step(&block), Ok(()));
        }
        let is_done = steps == 24;
        assert_eq!(begun.block().is_none(), is_done);
        let due = is_done.then_some(Rewrapped::Fresh).ok_or(InvalidStep);
        assert_eq!(begun.end(), due);
        assert_eq!(out, if is_done { data } else { [0; 24] });
    }
}

/// A cipher that fails or panics at one of the blocks: its error, and zeros.
#[test]
fn cipher_fails() {
    for at in 0..12 {
        let failing = |mut calls: usize| {
            move |block: &mut [u8; 16]| {
                block[3] ^= 1;
                calls += 1;
                if calls > at {
                    return Err("gone");
                }
                Ok(())
            }
        };
        let mut out = [1; 24];
        let ended = Wrapping::new(&[5; 16], &mut out).unwrap().run(failing(0));
        assert_eq!(ended, Err(Stopped::Cipher("gone")));
        assert_eq!(out, [0; 24]);
        let mut out = [1; 16];
        let ended = Unwrapping::new(&[5; 24], &mut out).unwrap().run(failing(0));
        assert_eq!(ended, Err(Stopped::Cipher("gone")));
        assert_eq!(out, [0; 16]);
    }
    let mut out = [1; 16];
    let begun = std::panic::AssertUnwindSafe(Unwrapping::new(&[5; 24], &mut out).unwrap());
    std::panic::set_hook(Box::new(|_| {}));
    let ended = std::panic::catch_unwind(|| {
        let begun = begun;
        begun
            .0
            .run(|_| -> Result<(), Infallible> { panic!() })
            .is_ok()
    });
    let _ = std::panic::take_hook();
    assert!(ended.is_err());
    assert_eq!(out, [0; 16]);
}

#[test]
fn texts() {
    let refused: Stopped<Infallible> = InvalidDataSize.into();
    assert_eq!(refused.to_string(), "bad length");
    assert_eq!(Stopped::Cipher("no token").to_string(), "no token");
    let text = "bad length: a step after the last, or an end before it";
    assert_eq!(InvalidStep.to_string(), text);
}

/// The bytes of the next block after the drop.
fn after_drop<T>(mut steps: ManuallyDrop<T>, block: fn(&T) -> Option<&[u8; 16]>) -> [u8; 16] {
    let at: *const [u8; 16] = block(&steps).unwrap();
    // SAFETY: the memory is the variable's, also after the drop, and the variable is not used then.
    unsafe {
        assert_ne!(at.read(), [0; 16]);
        ManuallyDrop::drop(&mut steps);
        at.read_volatile()
    }
}

#[test]
fn blocks_are_cleared() {
    let (mut wrapped, mut key) = ([0; 24], [0; 16]);
    let wrapping = ManuallyDrop::new(Wrapping::new(&[9; 16], &mut wrapped).unwrap());
    assert_eq!(after_drop(wrapping, |steps| steps.block()), [0; 16]);
    let unwrapping = ManuallyDrop::new(Unwrapping::new(&[9; 24], &mut key).unwrap());
    assert_eq!(after_drop(unwrapping, |steps| steps.block()), [0; 16]);
}
