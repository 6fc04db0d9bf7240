//! A handle of the library behind a safe type, with all unsafe code of this crate except the declarations.
//!
//! What `guttertide.h` asks of a program, and what ensures it here:
//!
//! - A handle begins as null, only the library writes it, and nobody copies it: `Handle` is not `Clone`, and its field
//!   is private to this file. A move leaves the old place unused.
//! - A handle is in one call at a time: a call, and the drop, has it by `&mut`.
//! - It passes from thread to thread in an order: however safe code sends a value, all that the sender did with it happens
//!   before what the receiver does, as by a lock.
//! - An answer, a part and the pairs of a scan do not overlap a handle or each other, and no other thread has them during
//!   the call: a call has each by a `&mut` of its own. The number of pairs is that of an array of them.
//! - No pointer is null, and each is aligned: they are made from references.
//! - The number of handles is that of a slice of them.
//! - `malloc`, `realloc` and `free` are of one allocator; no call is made from a signal handler, nor in a child
//!   that was forked while there were several threads: what would break this is unsafe code of the program.
#![allow(unsafe_code)]

use crate::raw::{self, GUTTERTIDE_PART, guttertide_answer, guttertide_handle, guttertide_pair, guttertide_part};

/// One call, with its key and its values.
#[derive(Clone, Copy)]
pub(crate) enum Call {
    Get { key: u64 },
    Put { key: u64, value: u128 },
    Add { key: u64, value: u128 },
    Swap { key: u64, before: u128, after: u128 },
    Del { key: u64 },
}

/// One caller of a dictionary, or none. Dropping it closes it.
#[repr(transparent)]
#[derive(Debug)]
pub(crate) struct Handle(guttertide_handle);

// SAFETY: a handle may pass from thread to thread (see above). It is not `Sync`: nothing can be done by `&Handle`.
unsafe impl Send for Handle {}

impl Handle {
    /// Returns a handle that is not open.
    pub(crate) const fn closed() -> Handle {
        Handle(raw::GUTTERTIDE_NO_HANDLE)
    }

    /// Opens a dictionary of this structure and number of nodes, with a caller for each of these handles. Returns the
    /// library's code.
    pub(crate) fn open(structure: u32, nodes: u32, handles: &mut [Handle]) -> u32 {
        // SAFETY: `Handle` is a `guttertide_handle` in memory, and the slice has this number of them, which nobody else has.
        unsafe {
            raw::guttertide_c_open(structure, nodes, handles.as_mut_ptr().cast::<guttertide_handle>(), handles.len())
        }
    }

    /// The version of the library.
    pub(crate) fn version() -> u32 {
        // SAFETY: it takes nothing, and reads nothing of the program.
        unsafe { raw::guttertide_c_version() }
    }

    /// Makes a call once. Returns the library's code.
    pub(crate) fn call(&mut self, call: Call, answer: &mut guttertide_answer) -> u32 {
        let at = &mut self.0;
        // SAFETY: nobody else has the handle or the answer during the call. It is one that the library wrote, or null.
        unsafe {
            match call {
                Call::Get { key } => raw::guttertide_c_get(at, key, answer),
                Call::Put { key, value } => raw::guttertide_c_put(at, key, low(value), high(value), answer),
                Call::Add { key, value } => raw::guttertide_c_add(at, key, low(value), high(value), answer),
                Call::Swap { key, before, after } => {
                    raw::guttertide_c_swap(at, key, low(before), high(before), low(after), high(after), answer)
                }
                Call::Del { key } => raw::guttertide_c_del(at, key, answer),
            }
        }
    }

    /// Lists a part of a scan once. Returns the library's code.
    pub(crate) fn scan(
        &mut self,
        low: u64,
        last: u64,
        pairs: &mut [guttertide_pair; GUTTERTIDE_PART],
        part: &mut guttertide_part,
    ) -> u32 {
        // SAFETY: nobody else has the handle, the pairs or the part during the call. The handle is one that the library
        // wrote, or null, and the array has this number of pairs.
        unsafe { raw::guttertide_c_scan(&mut self.0, low, last, pairs.as_mut_ptr(), pairs.len(), part) }
    }
}

impl Drop for Handle {
    fn drop(&mut self) {
        // SAFETY: nobody else has the handle. It is one that the library wrote, or null, and then this does nothing.
        unsafe { raw::guttertide_c_close(&mut self.0) };
    }
}

fn low(value: u128) -> u64 {
    value as u64
}

fn high(value: u128) -> u64 {
    (value >> 64) as u64
}
