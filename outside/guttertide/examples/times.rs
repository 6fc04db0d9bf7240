//! Prints the time from call to call, with 1 to 8 threads, of each structure that is a tree and of a `BTreeMap` under one lock.
//! Of 100,000 keys half have a value at first; of ten calls eight are gets, one is an insert and one a removal. Run it with
//! --release.

use guttertide::{Dictionary, OpenError, Structure};
use std::collections::BTreeMap;
use std::error::Error;
use std::sync::{Barrier, Mutex};
use std::thread;
use std::time::{Duration, Instant};

const KEYS: u64 = 100_000;
const NODES: u32 = 32_768;
const CALLS: u32 = 500_000;

/// A map as one thread has it.
trait Map: Send {
    fn get(&mut self, key: u64) -> Option<u128>;
    fn insert(&mut self, key: u64, value: u128);
    fn remove(&mut self, key: u64);
}

impl Map for guttertide::Caller {
    fn get(&mut self, key: u64) -> Option<u128> {
        guttertide::Caller::get(self, key)
    }

    fn insert(&mut self, key: u64, value: u128) {
        guttertide::Caller::put(self, key, value).expect("there are nodes enough");
    }

    fn remove(&mut self, key: u64) {
        guttertide::Caller::del(self, key);
    }
}

impl Map for &Mutex<BTreeMap<u64, u128>> {
    fn get(&mut self, key: u64) -> Option<u128> {
        self.lock().expect("no thread panics").get(&key).copied()
    }

    fn insert(&mut self, key: u64, value: u128) {
        self.lock().expect("no thread panics").insert(key, value);
    }

    fn remove(&mut self, key: u64) {
        self.lock().expect("no thread panics").remove(&key);
    }
}

/// Makes the calls of one thread, and returns how many gets found a value.
fn serve(map: &mut impl Map, seed: u64) -> u32 {
    let mut state = seed;
    let mut found = 0;
    for _ in 0..CALLS {
        state = state.wrapping_mul(6364136223846793005).wrapping_add(1442695040888963407);
        let (key, kind) = ((state >> 33) % KEYS, (state >> 20) % 10);
        match kind {
            0 => map.insert(key, state.into()),
            1 => map.remove(key),
            _ => found += u32::from(map.get(key).is_some()),
        }
    }
    found
}

/// The time from when all threads begin until the last one ends. What they share is filled before, through the first.
fn time(mut maps: Vec<impl Map>) -> Duration {
    let threads = maps.len();
    (0..KEYS).step_by(2).for_each(|key| maps[0].insert(key, key.into()));
    let begin = Barrier::new(threads + 1);
    thread::scope(|scope| {
        let started: Vec<_> = (1..)
            .zip(&mut maps)
            .map(|(seed, map)| {
                let begin = &begin;
                scope.spawn(move || {
                    begin.wait();
                    serve(map, seed)
                })
            })
            .collect();
        begin.wait();
        let start = Instant::now();
        for thread in started {
            assert!(thread.join().expect("a thread ends") > 0);
        }
        start.elapsed()
    })
}

fn main() -> Result<(), Box<dyn Error>> {
    println!("nanoseconds from call to call, of all threads together");
    println!("threads  BLinkTree  GiveUpTree  BTree  Mutex<BTreeMap>");
    for threads in [1, 2, 4, 8] {
        let per_call = |time: Duration| time.as_nanos() / (u128::from(CALLS) * threads as u128);
        let of = |structure| -> Result<u128, OpenError> {
            let dictionary = Dictionary::open_as(structure, NODES, threads)?;
            Ok(per_call(time(std::iter::from_fn(|| dictionary.caller()).collect())))
        };
        let (blink, give_up, coupling) = (of(Structure::BLinkTree)?, of(Structure::GiveUpTree)?, of(Structure::BTree)?);
        let plain = per_call(time(vec![&Mutex::new(BTreeMap::new()); threads]));
        println!("{threads:7}  {blink:9}  {give_up:10}  {coupling:5}  {plain:15}");
    }
    Ok(())
}
