//! A `BTreeMap` and the count of its calls, behind one lock.

use crate::serving::{Answer, Op, Value};
use std::collections::BTreeMap;

#[derive(Default)]
pub struct Locked<V> {
    pub pairs: BTreeMap<u64, V>,
    calls: u64,
}

impl<V: Value> Locked<V> {
    /// Makes a call, and draws its number.
    pub fn answer(&mut self, op: Op<V>) -> Answer<V> {
        let number = self.calls;
        self.calls += 1;
        let found = match op {
            Op::Put(key, value) => self.pairs.insert(key, value),
            Op::Get(key) => self.pairs.get(&key).copied(),
            Op::Del(key) => self.pairs.remove(&key),
        };
        Answer { number, found }
    }
}
