//! The time of each call, taken and printed as `crates/ks_call_times` does: each caller has a thread, and all wait for one
//! another before their first calls.

use super::{Op, Served};
use std::sync::Barrier;
use std::time::{Duration, Instant};

fn nanoseconds(span: Duration) -> u64 {
    span.as_nanos() as u64
}

/// Makes a caller's calls: the nanoseconds of each, and how many found a value.
fn call_each<M: Served>(map: &M, caller: usize, calls: &[Op<M::Value>], start: &Barrier) -> (Vec<u64>, u64) {
    let mut times = Vec::with_capacity(calls.len());
    let mut found = 0;
    start.wait();
    for op in calls {
        let begun = Instant::now();
        let answer = map.call(caller, *op);
        times.push(nanoseconds(begun.elapsed()));
        found += u64::from(answer.found.is_some());
    }
    (times, found)
}

/// Prints what the times come to: the time that stands after each share of the sorted times, the longest, and the mean.
fn print_sums(mut times: Vec<u64>, span: u64) {
    times.sort_unstable();
    for (name, share) in [("p50", 5000), ("p90", 9000), ("p99", 9900), ("p99.9", 9990), ("p99.99", 9999)] {
        print!("{name} {} ", times.get(times.len() * share / 10000).unwrap_or(&0));
    }
    let mean = times.iter().sum::<u64>() / times.len().max(1) as u64;
    println!("max {} mean {mean} span {span}", times.last().unwrap_or(&0));
}

/// Makes the calls of the script over the map, and prints how many there were, how many found a value, how many pairs are
/// left, and what the times come to.
pub fn print<M: Served>(map: M, script: &[Vec<Op<M::Value>>]) {
    let start = Barrier::new(script.len());
    let begun = Instant::now();
    let told: Vec<(Vec<u64>, u64)> = std::thread::scope(|scope| {
        let (map, start) = (&map, &start);
        let threads: Vec<_> = script
            .iter()
            .enumerate()
            .map(|(caller, calls)| scope.spawn(move || call_each(map, caller, calls, start)))
            .collect();
        threads.into_iter().map(|thread| thread.join().unwrap()).collect()
    });
    let span = nanoseconds(begun.elapsed());
    let found: u64 = told.iter().map(|(_, found)| found).sum();
    let times: Vec<u64> = told.into_iter().flat_map(|(times, _)| times).collect();
    println!("calls {} found {found} pairs {}", times.len(), map.into_pairs().len());
    print_sums(times, span);
}
