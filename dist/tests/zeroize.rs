//! With the feature `zeroize` a KEK is cleared when it is dropped.

#![cfg(feature = "zeroize")]

use keywrap::KekAes256;
use std::mem::{size_of, ManuallyDrop};

#[test]
fn kek_is_cleared() {
    fn clears(_: &impl zeroize::ZeroizeOnDrop) {}
    let mut kek = ManuallyDrop::new(KekAes256::from([0x5a; 32]));
    clears(&*kek);
    let at: *const u8 = (&*kek as *const KekAes256).cast();
    // SAFETY: the memory is the variable's, also after the drop.
    let bytes =
        |at: *const u8| unsafe { std::slice::from_raw_parts(at, size_of::<KekAes256>()).to_vec() };
    assert_eq!(bytes(at), [0x5a; 32]);
    // SAFETY: it is not used after this.
    unsafe { ManuallyDrop::drop(&mut kek) };
    assert_eq!(bytes(at), [0; 32]);
}
