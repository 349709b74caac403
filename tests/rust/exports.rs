//! The calls of the crate as functions of keywrap.h, in a copy of the crate: so the programs of `secrets` and `bench`,
//! which are in C, watch and time them.

#![allow(unsafe_code, unsafe_op_in_unsafe_fn, missing_docs)]

use crate::aes::LentAes;
use crate::calls;
use crate::proved::keywrap_calls;
use core::slice::{from_raw_parts, from_raw_parts_mut};

/// Defines a function of C. A slice (`in`, or `out` if it is written) has a pointer and a length.
macro_rules! export {
    (@ $name:ident $call:ident $result:ty, [$($parameters:tt)*] [$($arguments:expr,)*]) => {
        #[no_mangle]
        pub unsafe extern "C" fn $name($($parameters)*) -> $result {
            calls::$call($($arguments),*)
        }
    };
    (@ $name:ident $call:ident $result:ty, [$($p:tt)*] [$($a:expr,)*] in $at:ident $len:ident, $($more:tt)*) => {
        export!(@ $name $call $result, [$($p)* $at: *const u8, $len: usize,]
            [$($a,)* from_raw_parts($at, $len),] $($more)*);
    };
    (@ $name:ident $call:ident $result:ty, [$($p:tt)*] [$($a:expr,)*] out $at:ident $len:ident, $($more:tt)*) => {
        export!(@ $name $call $result, [$($p)* $at: *mut u8, $len: usize,]
            [$($a,)* from_raw_parts_mut($at, $len),] $($more)*);
    };
    (@ $name:ident $call:ident $result:ty, [$($p:tt)*] [$($a:expr,)*] lens $at:ident $len:ident, $($more:tt)*) => {
        export!(@ $name $call $result, [$($p)* $at: *mut usize, $len: usize,]
            [$($a,)* from_raw_parts_mut($at, $len),] $($more)*);
    };
    (@ $name:ident $call:ident $result:ty, [$($p:tt)*] [$($a:expr,)*] as $value:ident: $type:ty, $($more:tt)*) => {
        export!(@ $name $call $result, [$($p)* $value: $type,] [$($a,)* $value,] $($more)*);
    };
    ($name:ident = $call:ident($($words:tt)*) -> $result:ty) => {
        export!(@ $name $call $result, [] [] $($words)*);
    };
}

export!(keywrap_self_test = self_test() -> i32);
export!(keywrap_kek_init = kek_init(in kek kek_len, out kept kept_len,) -> i32);
export!(keywrap_kek_clear = kek_clear(out kept kept_len,) -> ());
export!(keywrap_wrap = wrap(in kek kek_len, in key key_len, out wrapped wrapped_len,) -> i32);
export!(keywrap_unwrap = unwrap(in kek kek_len, in wrapped wrapped_len, out key key_len,) -> i32);
export!(keywrap_wrap_with = wrap_with(in kek kek_len, in iv iv_len, in key key_len, out wrapped wrapped_len,) -> i32);
export!(keywrap_unwrap_with = unwrap_with(
    in kek kek_len, in iv iv_len, in wrapped wrapped_len, out key key_len,
) -> i32);
export!(keywrap_wrap_padded = wrap_padded(in kek kek_len, in key key_len, out wrapped wrapped_len,) -> i32);
export!(keywrap_unwrap_padded = unwrap_padded(
    in kek kek_len, in wrapped wrapped_len, out key room, as key_len: &mut usize,
) -> i32);
export!(keywrap_wrap_in_place = wrap_in_place(in kek kek_len, out buffer wrapped_len,) -> i32);
export!(keywrap_unwrap_in_place = unwrap_in_place(in kek kek_len, out buffer wrapped_len,) -> i32);
export!(keywrap_wrap_padded_in_place = wrap_padded_in_place(
    in kek kek_len, out buffer wrapped_len, as key_len: usize,
) -> i32);
export!(keywrap_unwrap_padded_in_place = unwrap_padded_in_place(
    in kek kek_len, out buffer wrapped_len, as key_len: &mut usize,
) -> i32);
export!(keywrap_kind = kind(
    in kek kek_len, in wrapped wrapped_len, out scratch room, as padded: &mut u32, as key_len: &mut usize,
) -> i32);
export!(keywrap_unwrap_any = unwrap_any(
    in kek kek_len, in wrapped wrapped_len, out key room, as padded: &mut u32, as key_len: &mut usize,
) -> i32);
export!(keywrap_rewrap = rewrap(
    in old_kek old_kek_len, in new_kek new_kek_len, out buffer wrapped_len, as flags: u32, as already: &mut u32,
) -> i32);
export!(keywrap_rewrap_many = rewrap_many(
    in old_kek old_kek_len, in new_kek new_kek_len, out texts texts_len, as flags: u32, out statuses count,
) -> i32);
export!(keywrap_wrap_many = wrap_many(
    in kek kek_len, out texts texts_len, as key_len: usize, as flags: u32, out statuses count,
) -> i32);
export!(keywrap_unwrap_many = unwrap_many(
    in kek kek_len, out texts texts_len, as flags: u32, lens key_lens key_lens_count, out statuses count,
) -> i32);
export!(keywrap_kind_many = kind_many(
    in kek kek_len, in texts texts_len, out scratch room, out forms forms_count, lens key_lens key_lens_count,
    out statuses count,
) -> i32);

/// The call of version 1.0, which the crate lacks.
#[no_mangle]
pub unsafe extern "C" fn keywrap_rewrap_in_place(
    old: *const u8,
    old_len: usize,
    new: *const u8,
    new_len: usize,
    buffer: *mut u8,
    len: usize,
    forms: u32,
) -> i32 {
    let (old, new) = (from_raw_parts(old, old_len), from_raw_parts(new, new_len));
    let buffer = from_raw_parts_mut(buffer, len);
    calls::with_rooms(|rooms| keywrap_calls::rewrap_in_place::<LentAes<'_>>(rooms, old, new, buffer, forms))
}
