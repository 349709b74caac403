//! A library without std, which wraps a key. If keywrap needed std, there would be two panic
//! handlers, and it would not compile.

#![no_std]

use keywrap::KekAes128;

#[panic_handler]
fn panic(_: &core::panic::PanicInfo<'_>) -> ! {
    loop {}
}

// The compiled core names it, though nothing unwinds.
#[no_mangle]
pub extern "C" fn rust_eh_personality() {}

/// Whether a key is the same after a wrap and an unwrap.
#[no_mangle]
pub extern "C" fn wraps() -> bool {
    let (kek, mut wrapped, mut key) = (KekAes128::from([7; 16]), [0; 24], [0; 16]);
    kek.wrap(&[5; 16], &mut wrapped).is_ok()
        && kek.unwrap(&wrapped, &mut key).is_ok()
        && key == [5; 16]
}
