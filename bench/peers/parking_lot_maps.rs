//! The calls over a `BTreeMap` of the standard library behind one lock of `parking_lot`. A call draws its number while it
//! holds the lock, and values have 128 bits, as in `ordered_maps.rs`.
//!
//! usage: parking_lot_maps mutex|rwlock [times] CALLERS CALLS FIRST
//!        parking_lot_maps mutex|rwlock script WORKERS

mod locked;
mod serving;

use locked::Locked;
use parking_lot::{Mutex, RwLock};
use serving::{Answer, Op, Served};
use std::collections::BTreeMap;
use std::sync::atomic::{AtomicU64, Ordering};

impl Served for Mutex<Locked<u128>> {
    type Value = u128;

    fn call(&self, _caller: usize, op: Op<u128>) -> Answer<u128> {
        self.lock().answer(op)
    }

    fn into_pairs(self) -> BTreeMap<u64, u128> {
        self.into_inner().pairs
    }
}

#[derive(Default)]
struct Shared {
    pairs: RwLock<BTreeMap<u64, u128>>,
    calls: AtomicU64,
}

impl Shared {
    /// The next number, drawn while the lock is held.
    fn number(&self) -> u64 {
        self.calls.fetch_add(1, Ordering::Relaxed)
    }
}

impl Served for Shared {
    type Value = u128;

    fn call(&self, _caller: usize, op: Op<u128>) -> Answer<u128> {
        match op {
            Op::Put(key, value) => {
                let mut pairs = self.pairs.write();
                Answer { number: self.number(), found: pairs.insert(key, value) }
            }
            Op::Get(key) => {
                let pairs = self.pairs.read();
                Answer { number: self.number(), found: pairs.get(&key).copied() }
            }
            Op::Del(key) => {
                let mut pairs = self.pairs.write();
                Answer { number: self.number(), found: pairs.remove(&key) }
            }
        }
    }

    fn into_pairs(self) -> BTreeMap<u64, u128> {
        self.pairs.into_inner()
    }
}

fn main() {
    let words: Vec<String> = std::env::args().skip(1).collect();
    let words: Vec<&str> = words.iter().map(String::as_str).collect();
    let is_served = match words[..] {
        ["mutex", ref calls @ ..] => serving::run(Mutex::<Locked<u128>>::default(), calls),
        ["rwlock", ref calls @ ..] => serving::run(Shared::default(), calls),
        _ => false,
    };
    assert!(is_served, "usage: parking_lot_maps mutex|rwlock [times] CALLERS CALLS FIRST, or mutex|rwlock script WORKERS");
}
