//! The time of ordered scans and of gets of a large map of Rust under a lock, taken and printed as `crates/ks_scan_times`
//! does: workers put all keys, list spans of 1,000 keys that they draw, and get the keys of the same spans one by one.

use std::collections::BTreeMap;
use std::sync::atomic::{AtomicU64, Ordering::SeqCst};
use std::sync::{Mutex, RwLock};
use std::time::Instant;

const SPAN: u64 = 1000;
const STRIDE: u64 = 2654435761;

/// An ordered map that threads share; a call draws its number under the lock.
trait Map: Sync {
    fn put(&self, key: u64, value: u128);
    fn get(&self, key: u64) -> Option<u128>;
    fn list(&self, low: u64, last: u64, into: &mut Vec<(u64, u128)>);
}

/// A map and the number of calls so far, under one lock.
struct Locked(Mutex<(BTreeMap<u64, u128>, u64)>);

impl Map for Locked {
    fn put(&self, key: u64, value: u128) {
        let mut guard = self.0.lock().unwrap();
        guard.1 += 1;
        guard.0.insert(key, value);
    }

    fn get(&self, key: u64) -> Option<u128> {
        let mut guard = self.0.lock().unwrap();
        guard.1 += 1;
        guard.0.get(&key).copied()
    }

    fn list(&self, low: u64, last: u64, into: &mut Vec<(u64, u128)>) {
        let mut guard = self.0.lock().unwrap();
        guard.1 += 1;
        into.extend(guard.0.range(low..=last).map(|(key, value)| (*key, *value)));
    }
}

/// A map under a lock that readers share, and the number of calls so far.
struct Shared(RwLock<BTreeMap<u64, u128>>, AtomicU64);

impl Map for Shared {
    fn put(&self, key: u64, value: u128) {
        let mut map = self.0.write().unwrap();
        self.1.fetch_add(1, SeqCst);
        map.insert(key, value);
    }

    fn get(&self, key: u64) -> Option<u128> {
        let map = self.0.read().unwrap();
        self.1.fetch_add(1, SeqCst);
        map.get(&key).copied()
    }

    fn list(&self, low: u64, last: u64, into: &mut Vec<(u64, u128)>) {
        let map = self.0.read().unwrap();
        self.1.fetch_add(1, SeqCst);
        into.extend(map.range(low..=last).map(|(key, value)| (*key, *value)));
    }
}

fn next(state: u64) -> u64 {
    state.wrapping_mul(6364136223846793005).wrapping_add(1442695040888963407)
}

/// How many pairs one worker saw, and the sum of their values.
type Seen = (u64, u64);

fn fill(map: &dyn Map, keys: u64, worker: u64, workers: u64) -> Seen {
    let mine = || (worker..keys).step_by(workers as usize);
    for at in mine() {
        let key = at.wrapping_mul(STRIDE) & (keys - 1);
        map.put(key, u128::from(key) * 2);
    }
    (mine().count() as u64, 0)
}

fn lows(keys: u64, worker: u64, scans: u64) -> impl Iterator<Item = u64> {
    std::iter::successors(Some(next(next(worker))), |state| Some(next(*state)))
        .take(scans as usize)
        .map(move |state| (state >> 33) % (keys - (SPAN - 1)))
}

fn scan(map: &dyn Map, keys: u64, worker: u64, scans: u64) -> Seen {
    let mut pairs = Vec::with_capacity(SPAN as usize);
    let mut seen = (0, 0u64);
    for low in lows(keys, worker, scans) {
        pairs.clear();
        map.list(low, low + SPAN - 1, &mut pairs);
        seen.0 += pairs.len() as u64;
        seen.1 = pairs.iter().fold(seen.1, |sum, (_, value)| sum.wrapping_add(*value as u64));
    }
    seen
}

fn get(map: &dyn Map, keys: u64, worker: u64, scans: u64) -> Seen {
    let mut seen = (0, 0u64);
    for value in lows(keys, worker, scans).flat_map(|low| low..low + SPAN).filter_map(|key| map.get(key)) {
        seen.0 += 1;
        seen.1 = seen.1.wrapping_add(value as u64);
    }
    seen
}

/// Runs the work with each worker on a thread of its own: what all saw, and the nanoseconds that it took.
fn all(workers: u64, work: impl Fn(u64) -> Seen + Sync) -> (Seen, u128) {
    let begun = Instant::now();
    let seen = std::thread::scope(|scope| {
        let work = &work;
        let threads: Vec<_> = (0..workers).map(|worker| scope.spawn(move || work(worker))).collect();
        threads.into_iter().map(|thread| thread.join().unwrap()).fold((0, 0u64), |all, one| (all.0 + one.0, all.1.wrapping_add(one.1)))
    });
    (seen, begun.elapsed().as_nanos())
}

fn main() {
    let words: Vec<String> = std::env::args().skip(1).collect();
    let number = |at: usize| words[at].parse::<u64>().unwrap();
    let (keys, workers, scans) = (1u64 << number(1), number(2), number(3));
    let map: Box<dyn Map> = match words[0].as_str() {
        "mutex" => Box::new(Locked(Mutex::new((BTreeMap::new(), 0)))),
        _ => Box::new(Shared(RwLock::new(BTreeMap::new()), AtomicU64::new(0))),
    };
    let map = &*map;
    let (filled, _) = all(workers, |worker| fill(map, keys, worker, workers));
    let (listed, scanning) = all(workers, |worker| scan(map, keys, worker, scans));
    let (got, getting) = all(workers, |worker| get(map, keys, worker, scans));
    println!("pairs {} listed {} sum {} got {} sum {}", filled.0, listed.0, listed.1, got.0, got.1);
    println!("scans {scanning} gets {getting}");
}
