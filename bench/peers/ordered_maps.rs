//! The calls over a `BTreeMap` of the standard library behind one lock.
//!
//! usage: ordered_maps mutex|mutex64|rwlock [times] CALLERS CALLS FIRST
//!        ordered_maps mutex|mutex64|rwlock script WORKERS
//!
//! Workers draw callers; for generated calls each caller has one. A call draws its number while it holds the lock. Values
//! have 128 bits, as the program's have; of `mutex64` they have 64.

mod locked;
mod serving;

use locked::Locked;
use serving::{Answer, Op, Served, Value};
use std::collections::BTreeMap;
use std::sync::atomic::{AtomicU64, Ordering};
use std::sync::{Mutex, RwLock};

impl<V: Value> Served for Mutex<Locked<V>> {
    type Value = V;

    fn call(&self, _caller: usize, op: Op<V>) -> Answer<V> {
        self.lock().unwrap().answer(op)
    }

    fn into_pairs(self) -> BTreeMap<u64, V> {
        self.into_inner().unwrap().pairs
    }
}

#[derive(Default)]
struct Shared<V> {
    pairs: RwLock<BTreeMap<u64, V>>,
    calls: AtomicU64,
}

impl<V> Shared<V> {
    /// The next number, drawn while the lock is held.
    fn number(&self) -> u64 {
        self.calls.fetch_add(1, Ordering::Relaxed)
    }
}

impl<V: Value> Served for Shared<V> {
    type Value = V;

    fn call(&self, _caller: usize, op: Op<V>) -> Answer<V> {
        match op {
            Op::Put(key, value) => {
                let mut pairs = self.pairs.write().unwrap();
                Answer { number: self.number(), found: pairs.insert(key, value) }
            }
            Op::Get(key) => {
                let pairs = self.pairs.read().unwrap();
                Answer { number: self.number(), found: pairs.get(&key).copied() }
            }
            Op::Del(key) => {
                let mut pairs = self.pairs.write().unwrap();
                Answer { number: self.number(), found: pairs.remove(&key) }
            }
        }
    }

    fn into_pairs(self) -> BTreeMap<u64, V> {
        self.pairs.into_inner().unwrap()
    }
}

fn main() {
    let words: Vec<String> = std::env::args().skip(1).collect();
    let words: Vec<&str> = words.iter().map(String::as_str).collect();
    let is_served = match words[..] {
        ["mutex", ref calls @ ..] => serving::run(Mutex::<Locked<u128>>::default(), calls),
        ["mutex64", ref calls @ ..] => serving::run(Mutex::<Locked<u64>>::default(), calls),
        ["rwlock", ref calls @ ..] => serving::run(Shared::<u128>::default(), calls),
        _ => false,
    };
    assert!(is_served, "usage: ordered_maps mutex|mutex64|rwlock [times] CALLERS CALLS FIRST, or mutex|mutex64|rwlock script WORKERS");
}
