//! The library's functions and structs, as `include/jeanzircon.h` has them. Nothing compares the two.

use crate::ParseError;
use std::ffi::{c_int, c_void};

#[repr(C)]
#[derive(Clone, Copy)]
pub struct Bytes {
    pub bytes: *const u8,
    pub length: usize,
}

impl Bytes {
    pub fn of(bytes: &[u8]) -> Bytes {
        Bytes {
            bytes: bytes.as_ptr(),
            length: bytes.len(),
        }
    }
}

#[repr(C)]
pub struct Options {
    pub size: usize,
    pub context: Bytes,
    pub entities: Bytes,
    pub quirks: Bytes,
    pub nodes: u64,
    pub open: u64,
    pub piece: u64,
    pub key_low: u64,
    pub key_high: u64,
    pub escaping: u32,
    pub bad_bytes: u32,
}

#[repr(C)]
#[derive(Clone, Copy, Debug, Default, PartialEq, Eq)]
pub struct Answer {
    pub status: u32,
    pub detail: u32,
    pub at: u64,
    pub length: u64,
    pub nodes: u64,
}

#[repr(C)]
#[derive(Clone, Copy, Debug, Default, PartialEq, Eq)]
pub struct PageAnswer {
    pub status: u32,
    pub detail: u32,
    pub at: u64,
    pub nodes: u64,
    pub words: u64,
    pub errors: u64,
    pub text: u64,
}

#[repr(C)]
#[derive(Clone, Copy, Debug, Default, PartialEq, Eq)]
pub struct Row {
    pub number: u32,
    pub kind: u32,
    pub parent: u32,
    pub first_child: u32,
    pub next: u32,
}

#[repr(C)]
#[derive(Clone, Copy, Debug, Default, PartialEq, Eq)]
pub struct Origin {
    pub at: u64,
    pub in_source: u32,
    pub again_of: u32,
}

/// The place of the first byte of this value.
pub fn find(byte: u8, bytes: &[u8]) -> Option<usize> {
    // SAFETY: the bytes can be read to their end.
    let found = unsafe { memchr(bytes.as_ptr().cast(), byte.into(), bytes.len()) };
    (!found.is_null()).then(|| found as usize - bytes.as_ptr() as usize)
}

extern "C" {
    fn memchr(bytes: *const c_void, byte: c_int, count: usize) -> *const c_void;

    pub fn jz_version() -> u32;

    pub fn jz_text(
        task: u32,
        input: *const u8,
        length: usize,
        options: *const Options,
        output: *mut u8,
        room: usize,
        answer: *mut Answer,
    ) -> u32;

    pub fn jz_page(
        wants: u32,
        input: *const u8,
        length: usize,
        options: *const Options,
        rows: *mut Row,
        row_room: usize,
        words: *mut u8,
        word_room: usize,
        errors: *mut ParseError,
        error_room: usize,
        text: *mut u8,
        text_room: usize,
        origins: *mut Origin,
        origin_room: usize,
        answer: *mut PageAnswer,
    ) -> u32;

    pub fn jz_table(
        entities: *const u8,
        length: usize,
        output: *mut u8,
        room: usize,
        answer: *mut Answer,
    ) -> u32;
}
