//! Threads make a script's calls on one dictionary, and what `check` judges is printed: the script, and the run. The
//! script is made from a number, which also chooses the structure: run [FIRST].

use guttertide::{Caller, Dictionary, Full, Structure};
use std::error::Error;
use std::fmt::{self, Write};
use std::thread;

const CALLERS: usize = 4;
const CALLS: usize = 25000;
const KEYS: u64 = 96;
const NODES: u32 = 256;

/// A call, as a line of a script has it.
#[derive(Clone, Copy)]
enum Call {
    Put(u64, u128),
    Get(u64),
    Del(u64),
    Add(u64, u128),
    Swap(u64, u128, u128),
}

impl fmt::Display for Call {
    fn fmt(&self, f: &mut fmt::Formatter<'_>) -> fmt::Result {
        match self {
            Call::Put(key, value) => write!(f, "put {key} {value}"),
            Call::Get(key) => write!(f, "get {key}"),
            Call::Del(key) => write!(f, "del {key}"),
            Call::Add(key, value) => write!(f, "add {key} {value}"),
            Call::Swap(key, old, new) => write!(f, "swap {key} {old} {new}"),
        }
    }
}

/// A line of the run: the number of a call, and its reply.
struct Line {
    number: u64,
    reply: Result<Option<u128>, Full>,
}

impl fmt::Display for Line {
    fn fmt(&self, f: &mut fmt::Formatter<'_>) -> fmt::Result {
        match self.reply {
            Ok(None) => write!(f, "{} none", self.number),
            Ok(Some(value)) => write!(f, "{} {value}", self.number),
            Err(Full) => write!(f, "{} full", self.number),
        }
    }
}

/// Random numbers.
struct Random(u64);

impl Random {
    fn below(&mut self, limit: u64) -> u64 {
        self.0 = self.0.wrapping_mul(6364136223846793005).wrapping_add(1442695040888963407);
        (self.0 >> 33) % limit
    }

    /// Returns a value of up to 80 bits, which each half determines.
    fn value(&mut self) -> u128 {
        u128::from(self.below(4)) * ((1 << 78) + 1)
    }

    fn call(&mut self) -> Call {
        let (kind, key) = (self.below(5), self.below(KEYS));
        match kind {
            0 => Call::Put(key, self.value()),
            1 => Call::Get(key),
            2 => Call::Del(key),
            3 => Call::Add(key, self.value()),
            _ => Call::Swap(key, self.value(), self.value()),
        }
    }
}

fn make(caller: &mut Caller, call: Call) -> Line {
    let reply = match call {
        Call::Put(key, value) => caller.put(key, value),
        Call::Get(key) => Ok(caller.get(key)),
        Call::Del(key) => Ok(caller.del(key)),
        Call::Add(key, value) => caller.add(key, value),
        Call::Swap(key, old, new) => Ok(caller.swap(key, old, new)),
    };
    Line { number: caller.number().expect("a call was made"), reply }
}

fn serve(caller: &mut Caller, calls: &[Call]) -> Vec<Line> {
    calls.iter().map(|&call| make(caller, call)).collect()
}

/// The script and the run, and the map by the replies to gets of its keys at the end.
fn text(scripts: &[Vec<Call>], lines: &[Vec<Line>], map: &[Line]) -> Result<String, fmt::Error> {
    let mut text = String::from("script 2\n");
    for script in scripts {
        writeln!(text, "caller")?;
        script.iter().try_for_each(|call| writeln!(text, "{call}"))?;
    }
    writeln!(text, "run")?;
    for (caller, lines) in lines.iter().enumerate() {
        writeln!(text, "caller {caller}")?;
        lines.iter().try_for_each(|line| writeln!(text, "{line}"))?;
    }
    writeln!(text, "map")?;
    for (key, line) in map.iter().enumerate() {
        if let Ok(Some(value)) = line.reply {
            writeln!(text, "{key} {value}")?;
        }
    }
    writeln!(text, "end")?;
    Ok(text)
}

fn main() -> Result<(), Box<dyn Error>> {
    let first = std::env::args().nth(1).map_or(Ok(1), |word| word.parse::<u64>())?;
    let structure = Structure::ALL[(first % 6) as usize];
    let mut random = Random(first);
    let mut scripts: Vec<Vec<Call>> = (0..CALLERS).map(|_| (0..CALLS).map(|_| random.call()).collect()).collect();
    let dictionary = Dictionary::open_as(structure, NODES, CALLERS)?;
    let mut callers: Vec<Caller> = std::iter::from_fn(|| dictionary.caller()).collect();
    let mut lines: Vec<Vec<Line>> = thread::scope(|scope| {
        let work = callers.iter_mut().zip(&scripts);
        let threads: Vec<_> = work.map(|(caller, script)| scope.spawn(move || serve(caller, script))).collect();
        threads.into_iter().map(|thread| thread.join().expect("a thread ends")).collect()
    });
    // When all threads have ended, the first caller asks for each key.
    let all: Vec<Call> = (0..KEYS).map(Call::Get).collect();
    lines[0].extend(serve(&mut callers[0], &all));
    scripts[0].extend(all);
    print!("{}", text(&scripts, &lines, &lines[0][CALLS..])?);
    Ok(())
}
