//! What the peers written in Rust share: the generated calls, or those of a script on standard input, served by workers that
//! draw callers, and what is printed of it. A map that numbers its calls draws the number where a call is decided, so that all
//! calls stand in one order, as the program's do.

#[path = "call_times.rs"]
mod call_times;

use std::collections::BTreeMap;
use std::fmt::{Debug, Display, Write};
use std::io::Read;
use std::str::FromStr;
use std::sync::atomic::{AtomicUsize, Ordering};

/// What a key leads to: 128 bits, as in the program, or 64.
pub trait Value: Copy + Display + From<u64> + FromStr<Err: Debug> + Send + Sync {
    /// The lower 64 bits.
    fn low(self) -> u64;
}

impl Value for u128 {
    fn low(self) -> u64 {
        self as u64
    }
}

impl Value for u64 {
    fn low(self) -> u64 {
        self
    }
}

#[derive(Clone, Copy)]
pub enum Op<V> {
    Put(u64, V),
    Get(u64),
    Del(u64),
}

pub struct Answer<V> {
    /// The call's number in the one order of all calls, or 0 where the map has none. The summary has no use for it.
    pub number: u64,
    pub found: Option<V>,
}

/// A map that many callers use at once.
pub trait Served: Sync {
    type Value: Value;
    fn call(&self, caller: usize, op: Op<Self::Value>) -> Answer<Self::Value>;
    fn into_pairs(self) -> BTreeMap<u64, Self::Value>;
}

struct Generator(u64);

impl Generator {
    fn draw(&mut self) -> u64 {
        self.0 = self.0.wrapping_mul(6364136223846793005).wrapping_add(1442695040888963407);
        self.0 >> 33
    }

    fn call<V: Value>(&mut self, caller: u64, callers: u64) -> Op<V> {
        let kind = self.draw() % 4;
        let key = caller + callers * (self.draw() % 256);
        match kind {
            0 | 1 => Op::Put(key, self.draw().into()),
            2 => Op::Get(key),
            _ => Op::Del(key),
        }
    }
}

fn made_script<V: Value>(callers: u64, calls: u64, first: u64) -> Vec<Vec<Op<V>>> {
    let mut generator = Generator(first);
    (0..callers)
        .map(|caller| (0..calls).map(|_| generator.call(caller, callers)).collect())
        .collect()
}

fn number<T: FromStr<Err: Debug>>(word: &str) -> T {
    word.parse().expect("a number")
}

/// The callers of a script that fits: the program says what does not.
fn read_script<V: Value>() -> Vec<Vec<Op<V>>> {
    let mut text = String::new();
    std::io::stdin().read_to_string(&mut text).expect("a text");
    let mut script: Vec<Vec<Op<V>>> = Vec::new();
    for line in text.lines() {
        let mut words = line.split(' ');
        let mut word = || words.next().expect("a word");
        let op = match word() {
            "put" => Op::Put(number(word()), number(word())),
            "get" => Op::Get(number(word())),
            "del" => Op::Del(number(word())),
            _ => {
                script.push(Vec::new());
                continue;
            }
        };
        script.last_mut().expect("a caller").push(op);
    }
    script
}

/// The answers to each caller's calls, by so many workers that draw callers.
fn serve<M: Served>(map: &M, script: &[Vec<Op<M::Value>>], workers: usize) -> Vec<Vec<Answer<M::Value>>> {
    let next = AtomicUsize::new(0);
    let draw = || Some(next.fetch_add(1, Ordering::Relaxed)).filter(|caller| *caller < script.len());
    let work = || {
        let mut served = Vec::new();
        while let Some(caller) = draw() {
            let answers: Vec<_> = script[caller].iter().map(|op| map.call(caller, *op)).collect();
            served.push((caller, answers));
        }
        served
    };
    let mut served: Vec<(usize, Vec<_>)> = std::thread::scope(|scope| {
        let workers: Vec<_> = (0..workers).map(|_| scope.spawn(work)).collect();
        workers.into_iter().flat_map(|worker| worker.join().unwrap()).collect()
    });
    served.sort_by_key(|(caller, _)| *caller);
    served.into_iter().map(|(_, answers)| answers).collect()
}

/// Prints what the program prints of a run.
fn print_run<M: Served>(map: M, script: &[Vec<Op<M::Value>>], workers: usize) {
    let answers = serve(&map, script, workers);
    let mut text = String::new();
    for (caller, answers) in answers.iter().enumerate() {
        writeln!(text, "caller {caller}").unwrap();
        for Answer { number, found } in answers {
            match found {
                Some(value) => writeln!(text, "{number} {value}").unwrap(),
                None => writeln!(text, "{number} none").unwrap(),
            }
        }
    }
    text.push_str("map\n");
    for (key, value) in map.into_pairs() {
        writeln!(text, "{key} {value}").unwrap();
    }
    print!("{text}end\n");
}

fn print_summary<M: Served>(map: M, script: &[Vec<Op<M::Value>>]) {
    let answers = serve(&map, script, script.len());
    let calls: usize = answers.iter().map(Vec::len).sum();
    let found = answers.iter().flatten().filter(|answer| answer.found.is_some()).count();
    let pairs = map.into_pairs();
    let sum = pairs.iter().fold(0u64, |sum, (key, value)| sum.wrapping_add(key.wrapping_mul(value.low())));
    println!("callers {}\ncalls {calls}\nfound {found}\nnone {}", script.len(), calls - found);
    println!("full 0\npairs {}\nsum {sum}", pairs.len());
}

/// Serves what the words ask for, CALLERS CALLS FIRST, `times` before them, or `script WORKERS`, over the map: false, where
/// they ask for nothing of these.
pub fn run<M: Served>(map: M, words: &[&str]) -> bool {
    match *words {
        ["script", workers] => print_run(map, &read_script(), number(workers)),
        [callers, calls, first] => print_summary(map, &made_script(number(callers), number(calls), number(first))),
        ["times", callers, calls, first] => call_times::print(map, &made_script(number(callers), number(calls), number(first))),
        _ => return false,
    }
    true
}
