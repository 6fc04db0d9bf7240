//! What the header `guttertide.h` declares: its types, its codes and the functions of the library.
//!
//! The header says what each function does and what a program must ensure.

#![allow(non_camel_case_types, missing_docs)]

use std::ffi::c_void;

/// A handle: one caller of a dictionary, or none if the pointer is null.
#[repr(C)]
#[derive(Debug)]
pub struct guttertide_handle {
    pub at: *mut c_void,
}

pub const GUTTERTIDE_NO_HANDLE: guttertide_handle = guttertide_handle { at: std::ptr::null_mut() };

/// A value of 128 bits: high * 2^64 + low.
#[repr(C)]
#[derive(Clone, Copy, Debug, Default)]
pub struct guttertide_value {
    pub low: u64,
    pub high: u64,
}

/// What a call returns beside its code.
#[repr(C)]
#[derive(Clone, Copy, Debug, Default)]
pub struct guttertide_answer {
    pub number: u64,
    pub value: guttertide_value,
    pub node: u32,
    pub holder: u32,
}

/// A key and its value, as a scan lists them.
#[repr(C)]
#[derive(Clone, Copy, Debug, Default)]
pub struct guttertide_pair {
    pub key: u64,
    pub value: guttertide_value,
}

/// What a part of a scan returns beside its code and its pairs.
#[repr(C)]
#[derive(Clone, Copy, Debug, Default)]
pub struct guttertide_part {
    pub answer: guttertide_answer,
    pub next: u64,
    pub count: usize,
}

/// The version of the header.
pub const GUTTERTIDE_VERSION: u32 = 0x000200;

/// How many pairs a part of a scan may have.
pub const GUTTERTIDE_PART: usize = 16;

pub const GUTTERTIDE_NOTHING: u32 = 0;
pub const GUTTERTIDE_VALUE: u32 = 1;
pub const GUTTERTIDE_FULL: u32 = 2;
pub const GUTTERTIDE_BUSY: u32 = 3;
pub const GUTTERTIDE_MOVED: u32 = 4;
pub const GUTTERTIDE_FAR: u32 = 5;
pub const GUTTERTIDE_MORE: u32 = 6;
pub const GUTTERTIDE_CLOSED: u32 = 16;
pub const GUTTERTIDE_BAD_SIZE: u32 = 17;
pub const GUTTERTIDE_NO_MEMORY: u32 = 18;
pub const GUTTERTIDE_IN_USE: u32 = 19;
pub const GUTTERTIDE_NULL: u32 = 20;
pub const GUTTERTIDE_NO_STRUCTURE: u32 = 21;
pub const GUTTERTIDE_BAD_SPAN: u32 = 22;
pub const GUTTERTIDE_NO_ROOM: u32 = 23;
pub const GUTTERTIDE_UNFIT: u32 = 24;
pub const GUTTERTIDE_OTHER_VERSION: u32 = 27;

pub const GUTTERTIDE_BLINK_TREE: u32 = 0;
pub const GUTTERTIDE_GIVE_UP_TREE: u32 = 1;
pub const GUTTERTIDE_B_TREE: u32 = 2;
pub const GUTTERTIDE_LINK_HASH_TABLE: u32 = 3;
pub const GUTTERTIDE_BLINK_WIDE_TREE: u32 = 4;
pub const GUTTERTIDE_GIVE_UP_WIDE_TREE: u32 = 5;

#[cfg(guttertide_model)]
pub use crate::model::*;

#[cfg(not(guttertide_model))]
#[allow(unsafe_code)]
unsafe extern "C" {
    pub fn guttertide_c_version() -> u32;
    pub fn guttertide_c_open(structure: u32, nodes: u32, handles: *mut guttertide_handle, count: usize) -> u32;
    pub fn guttertide_c_get(handle: *mut guttertide_handle, key: u64, answer: *mut guttertide_answer) -> u32;
    pub fn guttertide_c_put(
        handle: *mut guttertide_handle,
        key: u64,
        low: u64,
        high: u64,
        answer: *mut guttertide_answer,
    ) -> u32;
    pub fn guttertide_c_add(
        handle: *mut guttertide_handle,
        key: u64,
        low: u64,
        high: u64,
        answer: *mut guttertide_answer,
    ) -> u32;
    pub fn guttertide_c_swap(
        handle: *mut guttertide_handle,
        key: u64,
        old_low: u64,
        old_high: u64,
        new_low: u64,
        new_high: u64,
        answer: *mut guttertide_answer,
    ) -> u32;
    pub fn guttertide_c_del(handle: *mut guttertide_handle, key: u64, answer: *mut guttertide_answer) -> u32;
    pub fn guttertide_c_scan(
        handle: *mut guttertide_handle,
        low: u64,
        last: u64,
        pairs: *mut guttertide_pair,
        room: usize,
        part: *mut guttertide_part,
    ) -> u32;
    pub fn guttertide_c_close(handle: *mut guttertide_handle) -> u32;
}
