//! What `check` of the program does, in plain Rust, with nothing proved: reads a script and a run of it piece by piece, keeps
//! calls and replies packed, and judges them over one map of the standard library: of two kinds, since only one lists a span.
//!
//! usage: plain_check <TEXT
//!
//! It prints `legal N` or `wrong N` and ends with 0 or 6, as the program does. Where the text does not fit it ends with 2.

use std::collections::{BTreeMap, HashMap};
use std::io::Read;
use std::process::exit;

/// More than the longest line takes.
const LONGEST: usize = 1024;
const PIECE: usize = 1 << 16;
const MOST_BYTES: usize = 1 << 27;
const MOST_CALLS: usize = 1 << 20;
/// Of all scans of a script, and of the pairs of one part.
const MOST_PARTS: usize = 1 << 16;
const MOST_PAIRS: usize = 16;
/// In a slot: no reply has the number, or it is wrong. Else the slot has the caller.
const NOBODY: u32 = u32::MAX;
const WRONG: u32 = u32::MAX - 1;

/// A line of a script.
#[derive(Clone, Copy)]
enum Op {
    Get(u64),
    Put(u64, u128),
    Del(u64),
    Add(u64, u128),
    Swap(u64, u128, u128),
    Move(u64, u64),
    /// From one key to another, in so many parts at most, each of which is a call.
    Scan(u64, u64, usize),
}

#[derive(Clone, Copy, PartialEq)]
enum Reply {
    Nothing,
    Value(u128),
    Full,
    Kept,
}

/// A part of a scan: the pairs of a span.
struct Part {
    low: u64,
    last: u64,
    pairs: Vec<(u64, u128)>,
}

/// A call in 24 bytes; one with more in it stands among others.
enum Call {
    Get(u64),
    Put(u64, u64),
    Del(u64),
    Other(usize),
}

#[derive(Default)]
struct Calls {
    small: Vec<Call>,
    others: Vec<Op>,
}

impl Calls {
    fn push(&mut self, op: Op) {
        self.small.push(match op {
            Op::Get(key) => Call::Get(key),
            Op::Put(key, value) if value <= u64::MAX.into() => Call::Put(key, value as u64),
            Op::Del(key) => Call::Del(key),
            _ => {
                self.others.push(op);
                Call::Other(self.others.len() - 1)
            }
        });
    }

    fn get(&self, at: usize) -> Op {
        match self.small[at] {
            Call::Get(key) => Op::Get(key),
            Call::Put(key, value) => Op::Put(key, value.into()),
            Call::Del(key) => Op::Del(key),
            Call::Other(place) => self.others[place],
        }
    }
}

/// A reply in 16 bytes; one with more in it is in the list of others, or is a part.
enum Line {
    Nothing,
    Value(u64),
    Full,
    Kept,
    Other(usize),
    Part(usize),
}

/// The numbered lines of a caller.
#[derive(Default)]
struct Lines {
    small: Vec<Line>,
    others: Vec<u128>,
    parts: Vec<Part>,
}

impl Lines {
    fn push(&mut self, reply: Reply) {
        self.small.push(match reply {
            Reply::Nothing => Line::Nothing,
            Reply::Full => Line::Full,
            Reply::Kept => Line::Kept,
            Reply::Value(value) if value <= u64::MAX.into() => Line::Value(value as u64),
            Reply::Value(value) => {
                self.others.push(value);
                Line::Other(self.others.len() - 1)
            }
        });
    }

    fn push_part(&mut self, part: Part) {
        self.parts.push(part);
        self.small.push(Line::Part(self.parts.len() - 1));
    }

    fn get(&self, at: usize) -> Result<Reply, &Part> {
        match self.small[at] {
            Line::Nothing => Ok(Reply::Nothing),
            Line::Value(value) => Ok(Reply::Value(value.into())),
            Line::Full => Ok(Reply::Full),
            Line::Kept => Ok(Reply::Kept),
            Line::Other(place) => Ok(Reply::Value(self.others[place])),
            Line::Part(place) => Err(&self.parts[place]),
        }
    }
}

/// What was read, and the bytes behind it; none where the bytes do not begin so.
type Parsed<'a, T> = Option<(T, &'a [u8])>;

const POWERS: [u64; 9] = [1, 10, 100, 1000, 10_000, 100_000, 1_000_000, 10_000_000, 100_000_000];

/// The number in the digits that come next, at most eight of them, and how many they are.
#[inline(always)]
fn up_to_eight(bytes: &[u8]) -> (u64, usize) {
    let eight = bytes.first_chunk().copied().unwrap_or_else(|| std::array::from_fn(|at| bytes.get(at).copied().unwrap_or(0)));
    let word = u64::from_le_bytes(eight);
    let digits = word.wrapping_sub(0x3030303030303030);
    let others = (word.wrapping_add(0x4646464646464646) | digits) & 0x8080808080808080;
    let count = others.trailing_zeros() / 8;
    let digits = digits.checked_shl(64 - 8 * count).unwrap_or(0);
    let pairs = digits.wrapping_mul(10).wrapping_add(digits >> 8);
    let four = |pairs: u64| (pairs & 255) * 100 + (pairs >> 16 & 255);
    (four(pairs) * 10_000 + four(pairs >> 32), count as usize)
}

/// What stands behind a number of so many digits: it has one spelling, in which no zero leads others.
#[inline(always)]
fn behind(bytes: &[u8], count: usize) -> Option<&[u8]> {
    let is_number = count > 0 && (bytes[0] != b'0' || count == 1);
    is_number.then(|| &bytes[count..])
}

fn number(bytes: &[u8]) -> Parsed<'_, u64> {
    let (mut number, mut count) = up_to_eight(bytes);
    let mut more = count;
    while more == 8 {
        let next;
        (next, more) = up_to_eight(&bytes[count..]);
        number = number.checked_mul(POWERS[more])?.checked_add(next)?;
        count += more;
    }
    Some((number, behind(bytes, count)?))
}

fn value(bytes: &[u8]) -> Parsed<'_, u128> {
    let (first, mut count) = up_to_eight(bytes);
    let (mut value, mut more) = (u128::from(first), count);
    while more == 8 {
        let next;
        (next, more) = up_to_eight(&bytes[count..]);
        value = value.checked_mul(POWERS[more].into())?.checked_add(next.into())?;
        count += more;
    }
    Some((value, behind(bytes, count)?))
}

/// What was read, if the line ends here: only the last one may lack its byte 10.
fn ended<T>(it: T, bytes: &[u8]) -> Parsed<'_, T> {
    match bytes {
        [] => Some((it, bytes)),
        [b'\n', rest @ ..] => Some((it, rest)),
        _ => None,
    }
}

fn key_and_value(bytes: &[u8]) -> Parsed<'_, (u64, u128)> {
    let (key, rest) = number(bytes)?;
    let (value, rest) = value(rest.strip_prefix(b" ")?)?;
    Some(((key, value), rest))
}

fn scan(bytes: &[u8]) -> Parsed<'_, Op> {
    let (low, rest) = number(bytes)?;
    let (last, rest) = number(rest.strip_prefix(b" ")?)?;
    let (most, rest) = number(rest.strip_prefix(b" ")?)?;
    let fits = low <= last && (1..=64).contains(&most);
    fits.then_some((Op::Scan(low, last, most as usize), rest))
}

fn move_of(bytes: &[u8]) -> Parsed<'_, Op> {
    let (from, rest) = number(bytes)?;
    let (to, rest) = number(rest.strip_prefix(b" ")?)?;
    (from != to).then_some((Op::Move(from, to), rest))
}

/// A line of a call: whose it may be hangs on the version of the script.
fn call(version: u32, bytes: &[u8]) -> Parsed<'_, Op> {
    let (kind, bytes) = (bytes.get(..4)?, bytes.get(4..)?);
    let (op, rest) = match kind {
        b"get " => number(bytes).map(|(key, rest)| (Op::Get(key), rest)),
        b"del " => number(bytes).map(|(key, rest)| (Op::Del(key), rest)),
        b"put " => key_and_value(bytes).map(|((key, value), rest)| (Op::Put(key, value), rest)),
        b"add " if version >= 2 => key_and_value(bytes).map(|((key, value), rest)| (Op::Add(key, value), rest)),
        b"swap" if version >= 2 => {
            let ((key, old), rest) = key_and_value(bytes.strip_prefix(b" ")?)?;
            let (new, rest) = value(rest.strip_prefix(b" ")?)?;
            Some((Op::Swap(key, old, new), rest))
        }
        b"scan" if version >= 3 => scan(bytes.strip_prefix(b" ")?),
        b"move" if version >= 4 => move_of(bytes.strip_prefix(b" ")?),
        _ => None,
    }?;
    let is_narrow = version >= 2 || !matches!(op, Op::Put(_, value) if value > u64::MAX.into());
    if is_narrow { ended(op, rest) } else { None }
}

/// A line of a reply, with the number of its call.
fn line(bytes: &[u8]) -> Parsed<'_, (u64, Reply)> {
    let (number, rest) = number(bytes)?;
    let rest = rest.strip_prefix(b" ")?;
    let (reply, rest) = if let Some(rest) = rest.strip_prefix(b"none") {
        (Reply::Nothing, rest)
    } else if let Some(rest) = rest.strip_prefix(b"full") {
        (Reply::Full, rest)
    } else if let Some(rest) = rest.strip_prefix(b"kept") {
        (Reply::Kept, rest)
    } else {
        let (value, rest) = value(rest)?;
        (Reply::Value(value), rest)
    };
    ended((number, reply), rest)
}

/// A line of a part that begins at this key, with the number of its call.
fn part(low: u64, bytes: &[u8]) -> Parsed<'_, (u64, Part)> {
    let (number, rest) = number(bytes)?;
    let (last, mut rest) = self::number(rest.strip_prefix(b" ")?)?;
    let mut pairs = Vec::new();
    while let Some(more) = rest.strip_prefix(b" ") {
        let pair;
        (pair, rest) = key_and_value(more)?;
        pairs.push(pair);
    }
    ended((number, Part { low, last, pairs }), rest)
}

fn pair(bytes: &[u8]) -> Parsed<'_, (u64, u128)> {
    let (pair, rest) = key_and_value(bytes)?;
    ended(pair, rest)
}

/// The text on standard input, of which a piece is in memory at a time.
struct Text {
    piece: Vec<u8>,
    at: usize,
    read: usize,
    is_over: bool,
}

impl Text {
    /// The bytes from here on: a whole line, if there is one.
    fn rest(&mut self) -> &[u8] {
        if self.piece.len() - self.at < LONGEST && !self.is_over {
            self.fill();
        }
        &self.piece[self.at..]
    }

    fn fill(&mut self) {
        self.piece.drain(..self.at);
        self.at = 0;
        let wanted = (PIECE - self.piece.len()) as u64;
        let came = std::io::stdin().lock().take(wanted).read_to_end(&mut self.piece).expect("a text");
        self.read += came;
        self.is_over = came == 0;
    }

    /// Reads what comes next; nothing is taken where it does not come.
    fn next<T>(&mut self, parse: impl FnOnce(&[u8]) -> Parsed<T>) -> Option<T> {
        let rest = self.rest();
        let (it, behind) = parse(rest)?;
        let taken = rest.len() - behind.len();
        self.at += taken;
        Some(it)
    }

    /// Whether this line comes next, which is taken then.
    fn has(&mut self, line: &str) -> bool {
        self.next(|bytes| ended((), bytes.strip_prefix(line.as_bytes())?)).is_some()
    }
}

fn read_script(text: &mut Text) -> Option<Vec<Calls>> {
    let version = (2..=4).find(|version| text.has(&format!("script {version}"))).unwrap_or(1);
    let most_callers = if version == 1 { 64 } else { 1024 };
    let mut callers: Vec<Calls> = Vec::new();
    let (mut calls, mut parts) = (0, 0);
    loop {
        if let Some(op) = text.next(|bytes| call(version, bytes)) {
            callers.last_mut()?.push(op);
            calls += 1;
            if let Op::Scan(_, _, most) = op {
                parts += most;
            }
        } else if text.has("caller") {
            callers.push(Calls::default());
        } else {
            return text.has("run").then_some(callers);
        }
        if callers.len() > most_callers || calls > MOST_CALLS || parts > MOST_PARTS {
            return None;
        }
    }
}

/// For each number the caller who has it.
struct Slots {
    callers: Vec<u32>,
    taken: usize,
}

impl Slots {
    /// A slot for each number that the lines can have.
    fn of(callers: &[Calls]) -> Slots {
        let most = |op: &Op| if let Op::Scan(_, _, most) = op { *most } else { 0 };
        let lines = |calls: &Calls| calls.small.len() + calls.others.iter().map(most).sum::<usize>();
        Slots { callers: vec![NOBODY; callers.iter().map(lines).sum()], taken: 0 }
    }

    /// One line more of a caller, of whose numbers so far this is the greatest.
    fn note(&mut self, caller: usize, number: u64, greatest: &mut u64) {
        if let Some(slot) = usize::try_from(number).ok().and_then(|number| self.callers.get_mut(number)) {
            *slot = if *slot == NOBODY && *greatest <= number { caller as u32 } else { WRONG };
        }
        *greatest = number.max(*greatest);
        self.taken += 1;
    }
}

/// The parts of a scan with their numbers: as many as there must be, up to where it must have stopped.
fn read_parts(text: &mut Text, low: u64, last: u64, most: usize) -> Option<Vec<(u64, Part)>> {
    let (mut parts, mut begin) = (Vec::new(), low);
    loop {
        let (number, part) = text.next(|bytes| part(begin, bytes))?;
        let end = part.last;
        if end < begin || last < end || part.pairs.len() > MOST_PAIRS {
            return None;
        }
        parts.push((number, part));
        if end == last {
            return text.has("whole").then_some(parts);
        }
        begin = end + 1;
        if parts.len() == most {
            return text.has(&format!("until {begin}")).then_some(parts);
        }
    }
}

/// The numbered lines of each caller, and for each number the caller who has it.
fn read_replies(text: &mut Text, callers: &[Calls]) -> Option<(Vec<Lines>, Vec<u32>)> {
    let mut slots = Slots::of(callers);
    let mut replies = Vec::with_capacity(callers.len());
    for (caller, calls) in callers.iter().enumerate() {
        if !text.has(&format!("caller {caller}")) {
            return None;
        }
        let mut lines = Lines { small: Vec::with_capacity(calls.small.len()), ..Lines::default() };
        let mut greatest = 0;
        for at in 0..calls.small.len() {
            let op = if let Call::Other(place) = calls.small[at] { Some(calls.others[place]) } else { None };
            if let Some(Op::Scan(low, last, most)) = op {
                for (number, part) in read_parts(text, low, last, most)? {
                    slots.note(caller, number, &mut greatest);
                    lines.push_part(part);
                }
                continue;
            }
            let (number, reply) = text.next(line)?;
            if reply == Reply::Kept && !matches!(op, Some(Op::Move(..))) {
                return None;
            }
            slots.note(caller, number, &mut greatest);
            lines.push(reply);
        }
        replies.push(lines);
    }
    slots.callers.truncate(slots.taken);
    Some((replies, slots.callers))
}

fn read_pairs(text: &mut Text) -> Option<Vec<(u64, u128)>> {
    let mut pairs: Vec<(u64, u128)> = Vec::new();
    if !text.has("map") {
        return None;
    }
    while let Some((key, value)) = text.next(pair) {
        if pairs.last().is_some_and(|(last, _)| *last >= key) {
            return None;
        }
        pairs.push((key, value));
    }
    let is_whole = text.has("end") && text.rest().is_empty() && text.read <= MOST_BYTES;
    is_whole.then_some(pairs)
}

/// A map of the standard library.
trait Map {
    fn value(&self, key: u64) -> Option<u128>;
    fn set(&mut self, key: u64, value: u128) -> Option<u128>;
    fn unset(&mut self, key: u64) -> Option<u128>;
    /// Whether the part has all its pairs of the span.
    fn lists(&self, part: &Part) -> bool;
    fn is(&self, pairs: &[(u64, u128)]) -> bool;
}

/// The calls at one key, which both maps of the standard library name alike.
macro_rules! one_key_calls {
    () => {
        fn value(&self, key: u64) -> Option<u128> {
            self.get(&key).copied()
        }

        fn set(&mut self, key: u64, value: u128) -> Option<u128> {
            self.insert(key, value)
        }

        fn unset(&mut self, key: u64) -> Option<u128> {
            self.remove(&key)
        }
    };
}

impl Map for HashMap<u64, u128> {
    one_key_calls!();

    fn lists(&self, _: &Part) -> bool {
        unreachable!("a run without scans")
    }

    fn is(&self, pairs: &[(u64, u128)]) -> bool {
        self.len() == pairs.len() && pairs.iter().all(|(key, value)| self.get(key) == Some(value))
    }
}

impl Map for BTreeMap<u64, u128> {
    one_key_calls!();

    fn lists(&self, part: &Part) -> bool {
        self.range(part.low..=part.last).map(|(key, value)| (*key, *value)).eq(part.pairs.iter().copied())
    }

    fn is(&self, pairs: &[(u64, u128)]) -> bool {
        self.iter().map(|(key, value)| (*key, *value)).eq(pairs.iter().copied())
    }
}

/// Makes the call, and says whether this is its reply.
fn is_reply<M: Map>(map: &mut M, op: Op, reply: Reply) -> bool {
    if reply == Reply::Full {
        return matches!(op, Op::Put(..) | Op::Add(..) | Op::Move(..));
    }
    let before = match op {
        Op::Get(key) => map.value(key),
        Op::Put(key, value) => map.set(key, value),
        Op::Del(key) => map.unset(key),
        Op::Add(key, value) => {
            let before = map.value(key);
            if before.is_none() {
                map.set(key, value);
            }
            before
        }
        Op::Swap(key, old, new) => {
            let before = map.value(key);
            if before == Some(old) {
                map.set(key, new);
            }
            before
        }
        Op::Move(from, to) => {
            let before = map.value(from);
            if before.is_some() && map.value(to).is_some() {
                return reply == Reply::Kept;
            }
            if let Some(value) = before {
                map.unset(from);
                map.set(to, value);
            }
            before
        }
        Op::Scan(..) => return false,
    };
    before.map_or(Reply::Nothing, Reply::Value) == reply
}

/// How far a caller's script and lines have been judged.
#[derive(Clone, Copy, Default)]
struct Place {
    call: usize,
    line: usize,
}

/// The least number that is wrong, if there is one.
fn wrong<M: Map>(map: &mut M, callers: &[Calls], replies: &[Lines], slots: &[u32], pairs: &[(u64, u128)]) -> Option<usize> {
    let mut places = vec![Place::default(); callers.len()];
    for (number, slot) in slots.iter().enumerate() {
        let caller = *slot as usize;
        let Some(place) = places.get_mut(caller) else { return Some(number) };
        let is_right = match replies[caller].get(place.line) {
            Ok(reply) => {
                let mut op = callers[caller].get(place.call);
                while let Op::Scan(..) = op {
                    place.call += 1;
                    op = callers[caller].get(place.call);
                }
                place.call += 1;
                is_reply(map, op, reply)
            }
            Err(part) => map.lists(part),
        };
        if !is_right {
            return Some(number);
        }
        place.line += 1;
    }
    (!map.is(pairs)).then_some(slots.len())
}

/// Reads and judges; none where the text does not fit.
fn check() -> Option<Result<usize, usize>> {
    let mut text = Text { piece: Vec::with_capacity(PIECE), at: 0, read: 0, is_over: false };
    let callers = read_script(&mut text)?;
    let (replies, slots) = read_replies(&mut text, &callers)?;
    let pairs = read_pairs(&mut text)?;
    let has_parts = replies.iter().any(|lines| !lines.parts.is_empty());
    let wrong = if has_parts {
        wrong(&mut BTreeMap::new(), &callers, &replies, &slots, &pairs)
    } else {
        wrong(&mut HashMap::new(), &callers, &replies, &slots, &pairs)
    };
    Some(wrong.map_or(Ok(slots.len()), Err))
}

fn main() {
    match check() {
        Some(Ok(calls)) => println!("legal {calls}"),
        Some(Err(number)) => {
            println!("wrong {number}");
            exit(6)
        }
        None => exit(2),
    }
}
