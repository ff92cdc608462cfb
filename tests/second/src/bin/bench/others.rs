//! Other JSON parsers, which `make bench` links. They build what they read; the library only looks
//! at it.

use std::ffi::{c_char, c_int};

extern "C" {
    fn others_jansson_parse(bytes: *const c_char, len: usize) -> c_int;
    fn others_simdjson_parse(bytes: *const c_char, len: usize) -> c_int;
}

/// Takes a payload without its zero byte, and says whether it is JSON.
type Parse = fn(&[u8]) -> bool;

pub const OTHERS: [(&str, Parse); 2] = [("jansson", jansson_parse), ("simdjson", simdjson_parse)];

fn jansson_parse(text: &[u8]) -> bool {
    // Safe: the bytes live through the call, which keeps nothing of them.
    unsafe { others_jansson_parse(text.as_ptr().cast(), text.len()) == 1 }
}

fn simdjson_parse(text: &[u8]) -> bool {
    // Safe: the bytes live through the call, which copies them first.
    unsafe { others_simdjson_parse(text.as_ptr().cast(), text.len()) == 1 }
}
