//! The constants of keywrap.h and keywrap_steps.h, and the declarations of the calls of keywrap.c, with
//! their names there. The tests compare both with the headers.

#![allow(unsafe_code)]

/// Declares the calls. The tests see the declarations as text.
#[cfg(feature = "c")]
macro_rules! calls {
    ($(fn $name:ident($($argument:ident: $type:ty),* $(,)?) -> $result:ty;)*) => {
        extern "C" {
            $(pub fn $name($($argument: $type),*) -> $result;)*
        }
        #[cfg(test)]
        const CALLS: &[&str] = &[$(concat!(
            stringify!($result), " ", stringify!($name),
            $(", ", stringify!($type), " ", stringify!($argument)),*
        )),*];
    };
}

/// Defines the constants. The tests see them with their names.
macro_rules! constants {
    ($($(#[$doc:meta])* $name:ident: $type:ty = $value:expr;)*) => {
        $($(#[$doc])* pub const $name: $type = $value;)*
        #[cfg(test)]
        const CONSTANTS: &[(&str, i128)] = &[$((stringify!($name), $name as i128)),*];
    };
}

constants! {
    KEYWRAP_OK: i32 = 0;
    KEYWRAP_BAD_IV: i32 = 2;
    KEYWRAP_BAD_KEK: i32 = 3;
    KEYWRAP_BAD_LENGTH: i32 = 4;
    KEYWRAP_INTEGRITY: i32 = 5;
    KEYWRAP_KEY_NOT_PLAIN: i32 = 8;
    KEYWRAP_ALREADY_NEW: i32 = 1;
    KEYWRAP_OLD_PADDED: u32 = 1;
    KEYWRAP_NEW_PADDED: u32 = 2;
    KEYWRAP_KEEP_FORM: u32 = 4;
    KEYWRAP_PASS_NEW: u32 = 8;
    KEYWRAP_DECRYPT: u32 = 1;
    KEYWRAP_NEW: u32 = 2;
    /// The bytes of the longest key.
    KEYWRAP_MAX_KEY: usize = 1048576;
    /// The bytes of the longest wrapped key.
    KEYWRAP_MAX_TEXT: usize = KEYWRAP_MAX_KEY + 8;
}

#[cfg(feature = "c")]
calls! {
    fn keywrap_version() -> u32;
    fn keywrap_status_text(status: i32, text: *mut u8, capacity: usize) -> usize;
    fn keywrap_self_test() -> i32;
    fn keywrap_kek_init(kek: *const u8, kek_len: usize, kept: *mut u8, kept_len: usize) -> i32;
    fn keywrap_kek_clear(kept: *mut u8, kept_len: usize) -> ();
    fn keywrap_wrap(kek: *const u8, kek_len: usize, key: *const u8, key_len: usize,
        wrapped: *mut u8, wrapped_len: usize) -> i32;
    fn keywrap_unwrap(kek: *const u8, kek_len: usize, wrapped: *const u8, wrapped_len: usize,
        key: *mut u8, key_len: usize) -> i32;
    fn keywrap_wrap_with(kek: *const u8, kek_len: usize, iv: *const u8, iv_len: usize,
        key: *const u8, key_len: usize, wrapped: *mut u8, wrapped_len: usize) -> i32;
    fn keywrap_unwrap_with(kek: *const u8, kek_len: usize, iv: *const u8, iv_len: usize,
        wrapped: *const u8, wrapped_len: usize, key: *mut u8, key_len: usize) -> i32;
    fn keywrap_wrap_padded(kek: *const u8, kek_len: usize, key: *const u8, key_len: usize,
        wrapped: *mut u8, wrapped_len: usize) -> i32;
    fn keywrap_unwrap_padded(kek: *const u8, kek_len: usize, wrapped: *const u8,
        wrapped_len: usize, key: *mut u8, room: usize, key_len: *mut usize) -> i32;
    fn keywrap_wrap_in_place(kek: *const u8, kek_len: usize, buffer: *mut u8,
        wrapped_len: usize) -> i32;
    fn keywrap_unwrap_in_place(kek: *const u8, kek_len: usize, buffer: *mut u8,
        wrapped_len: usize) -> i32;
    fn keywrap_wrap_padded_in_place(kek: *const u8, kek_len: usize, buffer: *mut u8,
        wrapped_len: usize, key_len: usize) -> i32;
    fn keywrap_unwrap_padded_in_place(kek: *const u8, kek_len: usize, buffer: *mut u8,
        wrapped_len: usize, key_len: *mut usize) -> i32;
    fn keywrap_kind(kek: *const u8, kek_len: usize, wrapped: *const u8, wrapped_len: usize,
        scratch: *mut u8, room: usize, padded: *mut u32, key_len: *mut usize) -> i32;
    fn keywrap_unwrap_any(kek: *const u8, kek_len: usize, wrapped: *const u8, wrapped_len: usize,
        key: *mut u8, room: usize, padded: *mut u32, key_len: *mut usize) -> i32;
    fn keywrap_rewrap(old_kek: *const u8, old_kek_len: usize, new_kek: *const u8,
        new_kek_len: usize, buffer: *mut u8, wrapped_len: usize, flags: u32,
        already: *mut u32) -> i32;
    fn keywrap_rewrap_many(old_kek: *const u8, old_kek_len: usize, new_kek: *const u8,
        new_kek_len: usize, texts: *mut u8, texts_len: usize, flags: u32, statuses: *mut u8,
        count: usize) -> i32;
    fn keywrap_wrap_many(kek: *const u8, kek_len: usize, texts: *mut u8, texts_len: usize,
        key_len: usize, flags: u32, statuses: *mut u8, count: usize) -> i32;
    fn keywrap_unwrap_many(kek: *const u8, kek_len: usize, texts: *mut u8, texts_len: usize,
        flags: u32, key_lens: *mut usize, key_lens_count: usize, statuses: *mut u8,
        count: usize) -> i32;
    fn keywrap_kind_many(kek: *const u8, kek_len: usize, texts: *const u8, texts_len: usize,
        scratch: *mut u8, room: usize, forms: *mut u8, forms_count: usize, key_lens: *mut usize,
        key_lens_count: usize, statuses: *mut u8, count: usize) -> i32;

    fn keywrap_step_count(len: usize) -> u64;
    fn keywrap_begin_wrap(iv: *const u8, iv_len: usize, registers: *const u8, len: usize,
        done: *mut u64, block: *mut u8) -> i32;
    fn keywrap_begin_wrap_padded(key_len: usize, registers: *mut u8, len: usize, done: *mut u64,
        block: *mut u8) -> i32;
    fn keywrap_step_wrap(registers: *mut u8, len: usize, done: *mut u64, block: *mut u8) -> i32;
    fn keywrap_end_wrap(first: *mut u8, registers: *const u8, len: usize, done: u64,
        block: *const u8) -> i32;
    fn keywrap_begin_unwrap(first: *const u8, registers: *const u8, len: usize, left: *mut u64,
        block: *mut u8) -> i32;
    fn keywrap_begin_unwrap_padded(first: *const u8, registers: *const u8, len: usize,
        left: *mut u64, block: *mut u8) -> i32;
    fn keywrap_step_unwrap(registers: *mut u8, len: usize, left: *mut u64, block: *mut u8) -> i32;
    fn keywrap_end_unwrap(iv: *const u8, iv_len: usize, registers: *mut u8, len: usize, left: u64,
        block: *mut u8) -> i32;
    fn keywrap_end_unwrap_padded(registers: *mut u8, len: usize, left: u64, block: *mut u8,
        key_len: *mut usize) -> i32;
    fn keywrap_end_unwrap_any(registers: *mut u8, len: usize, left: u64, block: *mut u8,
        padded: *mut u32, key_len: *mut usize) -> i32;
    fn keywrap_begin_rewrap(flags: u32, text: *const u8, text_len: usize, phase: *mut u32,
        steps: *mut u64, block: *mut u8) -> i32;
    fn keywrap_next_rewrap_from(flags: u32, copy: *const u8, copy_len: usize, text: *mut u8,
        text_len: usize, phase: *mut u32, steps: *mut u64, block: *mut u8) -> i32;
}

#[cfg(test)]
mod tests {
    #[cfg(feature = "c")]
    use super::CALLS;
    use super::CONSTANTS;
    use std::collections::HashMap;
    use std::string::String;
    #[cfg(feature = "c")]
    use std::{format, vec::Vec};

    const HEADERS: &str = concat!(
        include_str!("../keywrap.h"),
        include_str!("../keywrap_steps.h")
    );

    /// The value of an expression of the headers: a number, a constant, or a sum of two.
    fn value(text: &str, known: &HashMap<String, i128>) -> Option<i128> {
        let text = text.trim().trim_start_matches('(').trim_end_matches(')');
        match text.split_once(" + ") {
            Some((one, other)) => Some(value(one, known)? + value(other, known)?),
            None => known
                .get(text)
                .copied()
                .or_else(|| text.trim_end_matches('u').parse().ok()),
        }
    }

    /// The constants: `#define NAME VALUE`, and `NAME = VALUE` of an enum.
    fn defined() -> HashMap<String, i128> {
        let mut known = HashMap::new();
        for line in HEADERS.lines() {
            let line = line.split("/*").next().unwrap().trim();
            let pair = match line.strip_prefix("#define ") {
                Some(rest) => rest.split_once(' '),
                None => line.split_once(" = "),
            };
            if let Some((name, text)) = pair {
                if let Some(value) = value(text.trim_end_matches(','), &known) {
                    known.insert(name.into(), value);
                }
            }
        }
        known
    }

    #[test]
    fn constants_of_the_header() {
        let known = defined();
        assert!(known.len() > CONSTANTS.len());
        for (name, value) in CONSTANTS {
            assert_eq!(known.get(*name), Some(value), "{}", name);
        }
    }

    /// A parameter of the header as this crate declares it.
    #[cfg(feature = "c")]
    fn parameter(text: &str) -> String {
        let text = text.replace("KEYWRAP_RESTRICT", "").replace('*', " * ");
        let words: Vec<&str> = text.split_whitespace().collect();
        let (name, words) = words.split_last().unwrap();
        let plain = |word: &str| match word {
            "uint8_t" | "char" => "u8",
            "int32_t" => "i32",
            "uint32_t" => "u32",
            "uint64_t" => "u64",
            "size_t" => "usize",
            "void" => "()",
            other => panic!("{}: another type", other),
        };
        match words {
            ["const", of, "*"] => format!("*const {} {}", plain(of), name),
            [of, "*"] => format!("*mut {} {}", plain(of), name),
            [of] => format!("{} {}", plain(of), name),
            _ => panic!("{}: another type", text),
        }
    }

    /// The call at the end of this text of a header, as this crate declares it.
    #[cfg(feature = "c")]
    fn call(text: &str) -> Option<String> {
        let of = ["_t keywrap_", "void keywrap_"];
        let of = of.iter().find_map(|of| text.find(of))?;
        let start = text[..of].rfind('\n')? + 1;
        let (name, parameters) = text[start..].trim_end_matches(')').split_once('(')?;
        let parameters = parameters.split(',').filter(|text| *text != "void");
        let all: Vec<String> = [name]
            .into_iter()
            .chain(parameters)
            .map(parameter)
            .collect();
        Some(all.join(", "))
    }

    #[cfg(feature = "c")]
    #[test]
    fn calls_of_the_headers() {
        let found: Vec<String> = HEADERS.split(';').filter_map(call).collect();
        assert!(found.len() >= CALLS.len());
        for call in CALLS {
            let is_there = found.iter().any(|one| one == call);
            assert!(is_there, "{}: not in {:?}", call, found);
        }
    }
}
