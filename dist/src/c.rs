//! The calls, by keywrap.c: the feature `c`. Each has the arguments of its call of keywrap.h or
//! keywrap_steps.h.
//!
//! The headers have rules for the caller. Every call here keeps them:
//!
//! - A pointer comes from the slice or the reference whose length comes with it. It is not null,
//!   not even for an empty slice. A block has 16 bytes, and before registers are 8.
//! - Everything that a call writes is borrowed by `&mut`. So it overlaps no other argument, and no
//!   other thread uses it.

#![allow(unsafe_code)]

use crate::sys;

/// Makes a call. Of a slice (`in`, or `out` if it is written) it gets the pointer and the length, of
/// an array (`from`, or `to` if it is written) the pointer.
macro_rules! call {
    (@ $call:ident [$($done:expr,)*]) => {
        // SAFETY: the rules above.
        unsafe { sys::$call($($done),*) }
    };
    (@ $call:ident [$($done:expr,)*] in $slice:ident, $($more:tt)*) => {
        call!(@ $call [$($done,)* $slice.as_ptr(), $slice.len(),] $($more)*)
    };
    (@ $call:ident [$($done:expr,)*] out $slice:ident, $($more:tt)*) => {
        call!(@ $call [$($done,)* $slice.as_mut_ptr(), $slice.len(),] $($more)*)
    };
    (@ $call:ident [$($done:expr,)*] from $array:ident, $($more:tt)*) => {
        call!(@ $call [$($done,)* $array.as_ptr(),] $($more)*)
    };
    (@ $call:ident [$($done:expr,)*] to $array:ident, $($more:tt)*) => {
        call!(@ $call [$($done,)* $array.as_mut_ptr(),] $($more)*)
    };
    (@ $call:ident [$($done:expr,)*] as $value:ident, $($more:tt)*) => {
        call!(@ $call [$($done,)* $value,] $($more)*)
    };
}

/// Defines safe calls.
macro_rules! calls {
    ($(fn $name:ident = $call:ident($($how:tt $argument:ident: $type:ty),* $(,)?) -> $result:ty;)*) => {
        $(pub(crate) fn $name($($argument: $type),*) -> $result {
            call!(@ $call [] $($how $argument,)*)
        })*
    };
}

calls! {
    fn version = keywrap_version() -> u32;
    fn status_text = keywrap_status_text(as status: i32, out text: &mut [u8]) -> usize;
    fn self_test = keywrap_self_test() -> i32;
    fn kek_init = keywrap_kek_init(in kek: &[u8], out kept: &mut [u8]) -> i32;
    fn kek_clear = keywrap_kek_clear(out kept: &mut [u8]) -> ();
    fn wrap = keywrap_wrap(in kek: &[u8], in key: &[u8], out wrapped: &mut [u8]) -> i32;
    fn unwrap = keywrap_unwrap(in kek: &[u8], in wrapped: &[u8], out key: &mut [u8]) -> i32;
    fn wrap_with = keywrap_wrap_with(
        in kek: &[u8], in iv: &[u8], in key: &[u8], out wrapped: &mut [u8],
    ) -> i32;
    fn unwrap_with = keywrap_unwrap_with(
        in kek: &[u8], in iv: &[u8], in wrapped: &[u8], out key: &mut [u8],
    ) -> i32;
    fn wrap_padded = keywrap_wrap_padded(
        in kek: &[u8], in key: &[u8], out wrapped: &mut [u8],
    ) -> i32;
    fn unwrap_padded = keywrap_unwrap_padded(
        in kek: &[u8], in wrapped: &[u8], out key: &mut [u8], as key_len: &mut usize,
    ) -> i32;
    fn wrap_in_place = keywrap_wrap_in_place(in kek: &[u8], out buffer: &mut [u8]) -> i32;
    fn unwrap_in_place = keywrap_unwrap_in_place(in kek: &[u8], out buffer: &mut [u8]) -> i32;
    fn wrap_padded_in_place = keywrap_wrap_padded_in_place(
        in kek: &[u8], out buffer: &mut [u8], as key_len: usize,
    ) -> i32;
    fn unwrap_padded_in_place = keywrap_unwrap_padded_in_place(
        in kek: &[u8], out buffer: &mut [u8], as key_len: &mut usize,
    ) -> i32;
    fn kind = keywrap_kind(
        in kek: &[u8], in wrapped: &[u8], out scratch: &mut [u8], as padded: &mut u32,
        as key_len: &mut usize,
    ) -> i32;
    fn unwrap_any = keywrap_unwrap_any(
        in kek: &[u8], in wrapped: &[u8], out key: &mut [u8], as padded: &mut u32,
        as key_len: &mut usize,
    ) -> i32;
    fn rewrap = keywrap_rewrap(
        in old_kek: &[u8], in new_kek: &[u8], out buffer: &mut [u8], as flags: u32,
        as already: &mut u32,
    ) -> i32;
    fn rewrap_many = keywrap_rewrap_many(
        in old_kek: &[u8], in new_kek: &[u8], out texts: &mut [u8], as flags: u32,
        out statuses: &mut [u8],
    ) -> i32;
    fn wrap_many = keywrap_wrap_many(
        in kek: &[u8], out texts: &mut [u8], as key_len: usize, as flags: u32,
        out statuses: &mut [u8],
    ) -> i32;
    fn unwrap_many = keywrap_unwrap_many(
        in kek: &[u8], out texts: &mut [u8], as flags: u32, out key_lens: &mut [usize],
        out statuses: &mut [u8],
    ) -> i32;
    fn kind_many = keywrap_kind_many(
        in kek: &[u8], in texts: &[u8], out scratch: &mut [u8], out forms: &mut [u8],
        out key_lens: &mut [usize], out statuses: &mut [u8],
    ) -> i32;

    fn step_count = keywrap_step_count(as len: usize) -> u64;
    fn begin_wrap = keywrap_begin_wrap(
        in iv: &[u8], in registers: &[u8], as done: &mut u64, to block: &mut [u8; 16],
    ) -> i32;
    fn begin_wrap_padded = keywrap_begin_wrap_padded(
        as key_len: usize, out registers: &mut [u8], as done: &mut u64, to block: &mut [u8; 16],
    ) -> i32;
    fn step_wrap = keywrap_step_wrap(
        out registers: &mut [u8], as done: &mut u64, to block: &mut [u8; 16],
    ) -> i32;
    fn end_wrap = keywrap_end_wrap(
        to first: &mut [u8; 8], in registers: &[u8], as done: u64, from block: &[u8; 16],
    ) -> i32;
    fn begin_unwrap = keywrap_begin_unwrap(
        from first: &[u8; 8], in registers: &[u8], as left: &mut u64, to block: &mut [u8; 16],
    ) -> i32;
    fn begin_unwrap_padded = keywrap_begin_unwrap_padded(
        from first: &[u8; 8], in registers: &[u8], as left: &mut u64, to block: &mut [u8; 16],
    ) -> i32;
    fn step_unwrap = keywrap_step_unwrap(
        out registers: &mut [u8], as left: &mut u64, to block: &mut [u8; 16],
    ) -> i32;
    fn end_unwrap = keywrap_end_unwrap(
        in iv: &[u8], out registers: &mut [u8], as left: u64, to block: &mut [u8; 16],
    ) -> i32;
    fn end_unwrap_padded = keywrap_end_unwrap_padded(
        out registers: &mut [u8], as left: u64, to block: &mut [u8; 16], as key_len: &mut usize,
    ) -> i32;
    fn end_unwrap_any = keywrap_end_unwrap_any(
        out registers: &mut [u8], as left: u64, to block: &mut [u8; 16], as padded: &mut u32,
        as key_len: &mut usize,
    ) -> i32;
    fn begin_rewrap = keywrap_begin_rewrap(
        as flags: u32, in text: &[u8], as phase: &mut u32, as steps: &mut u64,
        to block: &mut [u8; 16],
    ) -> i32;
    fn next_rewrap_from = keywrap_next_rewrap_from(
        as flags: u32, in copy: &[u8], out text: &mut [u8], as phase: &mut u32, as steps: &mut u64,
        to block: &mut [u8; 16],
    ) -> i32;
}
