//! A model of the library, for tests of this crate without it: its functions over a `BTreeMap` behind a lock.
//!
//! It puts calls off at random if there are several callers, and panics if a handle is in two calls at once.
#![allow(missing_docs, unsafe_code, clippy::missing_safety_doc)]

use crate::raw::*;
use std::collections::BTreeMap;
use std::ffi::c_void;
use std::ptr;
use std::slice;
use std::sync::atomic::{AtomicBool, Ordering};
use std::sync::{Arc, Mutex};

/// A dictionary.
struct Shared {
    structure: u32,
    nodes: u32,
    callers: u32,
    state: Mutex<State>,
}

struct State {
    pairs: BTreeMap<u64, u128>,
    calls: u64,
    random: u64,
}

/// What is behind a handle.
struct Caller {
    shared: Arc<Shared>,
    index: u32,
    in_call: AtomicBool,
}

impl State {
    fn below(&mut self, limit: u64) -> u64 {
        self.random = self.random.wrapping_mul(6364136223846793005).wrapping_add(1442695040888963407);
        (self.random >> 33) % limit
    }

    fn next_number(&mut self) -> u64 {
        self.calls += 1;
        self.calls - 1
    }
}

impl Caller {
    /// The code with which a call is put off now, if it is.
    fn put_off(&self, state: &mut State, answer: &mut guttertide_answer) -> Option<u32> {
        if self.shared.callers == 1 || state.below(4) > 0 {
            return None;
        }
        answer.node = state.below(self.shared.nodes.into()) as u32;
        answer.holder = (self.index + 1) % self.shared.callers;
        Some(match (state.below(3), self.shared.structure) {
            (0, GUTTERTIDE_GIVE_UP_TREE | GUTTERTIDE_GIVE_UP_WIDE_TREE) => GUTTERTIDE_MOVED,
            (1, GUTTERTIDE_GIVE_UP_TREE | GUTTERTIDE_B_TREE | GUTTERTIDE_GIVE_UP_WIDE_TREE) => GUTTERTIDE_FAR,
            _ => GUTTERTIDE_BUSY,
        })
    }
}

/// Makes a call with what is behind a handle.
unsafe fn with(
    handle: *mut guttertide_handle,
    answer: *mut guttertide_answer,
    call: impl FnOnce(&Caller, &mut State, &mut guttertide_answer) -> u32,
) -> u32 {
    // SAFETY: the handle is null, or what `guttertide_c_open` made; the answer is the caller's own.
    let (handle, answer) = unsafe { (&mut *handle, &mut *answer) };
    if handle.at.is_null() {
        return GUTTERTIDE_CLOSED;
    }
    // SAFETY: it is open.
    let caller = unsafe { &*handle.at.cast::<Caller>() };
    assert!(!caller.in_call.swap(true, Ordering::SeqCst), "a handle is in one call at a time");
    let mut state = caller.shared.state.lock().expect("no call panics");
    let code = match caller.put_off(&mut state, answer) {
        Some(code) => code,
        None => call(caller, &mut state, answer),
    };
    drop(state);
    caller.in_call.store(false, Ordering::SeqCst);
    code
}

/// Makes a call at a key: `change` says which value the key has after it, from the one before.
unsafe fn at_key(
    handle: *mut guttertide_handle,
    key: u64,
    answer: *mut guttertide_answer,
    change: impl FnOnce(Option<u128>) -> Option<u128>,
) -> u32 {
    let call = |caller: &Caller, state: &mut State, answer: &mut guttertide_answer| {
        answer.number = state.next_number();
        let before = state.pairs.get(&key).copied();
        let after = change(before);
        if before.is_none() && after.is_some() && state.pairs.len() >= 8 * caller.shared.nodes as usize {
            return GUTTERTIDE_FULL;
        }
        match after {
            Some(value) => state.pairs.insert(key, value),
            None => state.pairs.remove(&key),
        };
        answer.value = halves(before.unwrap_or_default());
        if before.is_some() { GUTTERTIDE_VALUE } else { GUTTERTIDE_NOTHING }
    };
    // SAFETY: as of this function.
    unsafe { with(handle, answer, call) }
}

fn halves(value: u128) -> guttertide_value {
    guttertide_value { low: value as u64, high: (value >> 64) as u64 }
}

fn whole(low: u64, high: u64) -> u128 {
    u128::from(high) << 64 | u128::from(low)
}

pub unsafe fn guttertide_c_version() -> u32 {
    GUTTERTIDE_VERSION
}

pub unsafe fn guttertide_c_open(structure: u32, nodes: u32, handles: *mut guttertide_handle, count: usize) -> u32 {
    // SAFETY: there are this many handles, which nobody else has.
    let handles = unsafe { slice::from_raw_parts_mut(handles, count) };
    if structure > GUTTERTIDE_GIVE_UP_WIDE_TREE {
        return GUTTERTIDE_NO_STRUCTURE;
    }
    if !crate::NODES.contains(&nodes) || !crate::CALLERS.contains(&count) {
        return GUTTERTIDE_BAD_SIZE;
    }
    if handles.iter().any(|handle| !handle.at.is_null()) {
        return GUTTERTIDE_IN_USE;
    }
    let state = State { pairs: BTreeMap::new(), calls: 0, random: u64::from(nodes) };
    let shared = Arc::new(Shared { structure, nodes, callers: count as u32, state: Mutex::new(state) });
    for (index, handle) in (0..).zip(handles) {
        let caller = Caller { shared: Arc::clone(&shared), index, in_call: AtomicBool::new(false) };
        handle.at = Box::into_raw(Box::new(caller)).cast::<c_void>();
    }
    GUTTERTIDE_NOTHING
}

pub unsafe fn guttertide_c_get(handle: *mut guttertide_handle, key: u64, answer: *mut guttertide_answer) -> u32 {
    // SAFETY: as of this function.
    unsafe { at_key(handle, key, answer, |before| before) }
}

pub unsafe fn guttertide_c_put(
    handle: *mut guttertide_handle,
    key: u64,
    low: u64,
    high: u64,
    answer: *mut guttertide_answer,
) -> u32 {
    // SAFETY: as of this function.
    unsafe { at_key(handle, key, answer, |_| Some(whole(low, high))) }
}

pub unsafe fn guttertide_c_add(
    handle: *mut guttertide_handle,
    key: u64,
    low: u64,
    high: u64,
    answer: *mut guttertide_answer,
) -> u32 {
    // SAFETY: as of this function.
    unsafe { at_key(handle, key, answer, |before| before.or(Some(whole(low, high)))) }
}

pub unsafe fn guttertide_c_swap(
    handle: *mut guttertide_handle,
    key: u64,
    old_low: u64,
    old_high: u64,
    new_low: u64,
    new_high: u64,
    answer: *mut guttertide_answer,
) -> u32 {
    let (old, new) = (whole(old_low, old_high), whole(new_low, new_high));
    // SAFETY: as of this function.
    unsafe { at_key(handle, key, answer, |before| before.map(|value| if value == old { new } else { value })) }
}

pub unsafe fn guttertide_c_del(handle: *mut guttertide_handle, key: u64, answer: *mut guttertide_answer) -> u32 {
    // SAFETY: as of this function.
    unsafe { at_key(handle, key, answer, |_| None) }
}

pub unsafe fn guttertide_c_scan(
    handle: *mut guttertide_handle,
    low: u64,
    last: u64,
    pairs: *mut guttertide_pair,
    room: usize,
    part: *mut guttertide_part,
) -> u32 {
    // SAFETY: there is room for this many pairs; the part is the caller's own.
    let (pairs, part) = unsafe { (slice::from_raw_parts_mut(pairs, room), &mut *part) };
    if last < low {
        return GUTTERTIDE_BAD_SPAN;
    }
    if room < GUTTERTIDE_PART {
        return GUTTERTIDE_NO_ROOM;
    }
    let (next, count) = (&mut part.next, &mut part.count);
    let call = |caller: &Caller, state: &mut State, answer: &mut guttertide_answer| {
        if [GUTTERTIDE_B_TREE, GUTTERTIDE_LINK_HASH_TABLE].contains(&caller.shared.structure) {
            return GUTTERTIDE_UNFIT;
        }
        answer.number = state.next_number();
        let most = state.below(GUTTERTIDE_PART as u64) as usize;
        let mut rest = state.pairs.range(low..=last);
        *count = 0;
        for (at, (&key, &value)) in pairs.iter_mut().zip(rest.by_ref().take(most)) {
            *at = guttertide_pair { key, value: halves(value) };
            *count += 1;
        }
        // The part ends before the next pair, if there is one and it is not the first key.
        match rest.next() {
            Some((&key, _)) if key > low => {
                *next = key;
                GUTTERTIDE_MORE
            }
            Some((&key, &value)) => {
                pairs[0] = guttertide_pair { key, value: halves(value) };
                *count = 1;
                *next = key.wrapping_add(1);
                if key == last { GUTTERTIDE_NOTHING } else { GUTTERTIDE_MORE }
            }
            None => GUTTERTIDE_NOTHING,
        }
    };
    // SAFETY: as of this function.
    unsafe { with(handle, &mut part.answer, call) }
}

pub unsafe fn guttertide_c_close(handle: *mut guttertide_handle) -> u32 {
    // SAFETY: the handle is the caller's own.
    let handle = unsafe { &mut *handle };
    if handle.at.is_null() {
        return GUTTERTIDE_CLOSED;
    }
    // SAFETY: `guttertide_c_open` made it, and it is closed once.
    drop(unsafe { Box::from_raw(handle.at.cast::<Caller>()) });
    handle.at = ptr::null_mut();
    GUTTERTIDE_NOTHING
}
