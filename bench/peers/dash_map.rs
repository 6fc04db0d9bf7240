//! The calls over a `DashMap`. It gives no order of all calls, so calls have no numbers, and a run has 0 in their place.
//!
//! usage: dash_map [times] CALLERS CALLS FIRST
//!        dash_map script WORKERS

mod serving;

use dashmap::DashMap;
use serving::{Answer, Op, Served};
use std::collections::BTreeMap;

#[derive(Default)]
struct Sharded {
    pairs: DashMap<u64, u128>,
}

impl Served for Sharded {
    type Value = u128;

    fn call(&self, _caller: usize, op: Op<u128>) -> Answer<u128> {
        let found = match op {
            Op::Put(key, value) => self.pairs.insert(key, value),
            Op::Get(key) => self.pairs.get(&key).map(|value| *value),
            Op::Del(key) => self.pairs.remove(&key).map(|(_key, value)| value),
        };
        Answer { number: 0, found }
    }

    fn into_pairs(self) -> BTreeMap<u64, u128> {
        self.pairs.into_iter().collect()
    }
}

fn main() {
    let words: Vec<String> = std::env::args().skip(1).collect();
    let words: Vec<&str> = words.iter().map(String::as_str).collect();
    assert!(
        serving::run(Sharded::default(), &words),
        "usage: dash_map [times] CALLERS CALLS FIRST, or dash_map script WORKERS"
    );
}
