//! Rewraps the keys of 32 bytes in a file by a token, and prints the calls of the token, their blocks, how many keys
//! were refused, and how many keys a second of the processor it rewraps.

use keywrap::steps::many::rewrap;
use keywrap::steps::Operation;
use keywrap::{Form, Forms, Status};
use std::ffi::CString;
use std::os::raw::{c_char, c_int, c_ulong};

#[link(name = "ecb")]
extern "C" {
    fn ecb_open(old_kek: *const c_char, new_kek: *const c_char);
    fn ecb_crypt(is_new: c_int, decrypts: c_int, src: *const u8, dst: *mut u8, len: usize) -> c_int;
    fn ecb_calls() -> c_ulong;
    fn ecb_blocks() -> c_ulong;
    fn clock() -> i64;
}

/// The blocks by the token.
fn crypt(operation: Operation, blocks: &mut [[u8; 16]]) -> Result<(), &'static str> {
    let (is_new, decrypts) = match operation {
        Operation::DecryptOld => (0, 1),
        Operation::EncryptNew => (1, 0),
        Operation::DecryptNew => (1, 1),
    };
    let (at, len) = (blocks.as_mut_ptr().cast(), 16 * blocks.len());
    match unsafe { ecb_crypt(is_new, decrypts, at, at, len) } {
        0 => Ok(()),
        _ => Err("the token failed"),
    }
}

fn main() {
    let words: Vec<String> = std::env::args().collect();
    let kek = |at: usize| CString::new(words[at].as_str()).unwrap();
    unsafe { ecb_open(kek(1).as_ptr(), kek(2).as_ptr()) };
    let mut slots = std::fs::read(&words[3]).unwrap();
    let mut statuses = vec![Status::default(); slots.len() / 40];
    let begun = unsafe { clock() };
    let forms = Forms::Given {
        old: Form::Plain,
        new: Form::Plain,
    };
    rewrap(&mut slots, forms, false, &mut statuses, crypt).unwrap();
    let seconds = (unsafe { clock() } - begun) as f64 / 1e6;
    std::fs::write(&words[4], &slots).unwrap();
    let refused = statuses.iter().filter(|status| status.result().is_err()).count();
    let (calls, blocks) = unsafe { (ecb_calls(), ecb_blocks()) };
    println!("{calls} {blocks} {refused} {:.0}", statuses.len() as f64 / seconds);
}
