//! Scans beside a `BTreeMap`: of one caller, and of some among the calls of others, in the order of their numbers.

use guttertide::{Caller, Dictionary, Later, OpenError, Part, Structure, Unfit};
use std::collections::BTreeMap;
use std::ops::RangeInclusive;
use std::thread;

type Plain = BTreeMap<u64, u128>;

const KEYS: u64 = 400;

/// Random numbers.
struct Random(u64);

impl Random {
    fn below(&mut self, limit: u64) -> u64 {
        self.0 = self.0.wrapping_mul(6364136223846793005).wrapping_add(1442695040888963407);
        (self.0 >> 33) % limit
    }

    /// Returns a value that each half determines.
    fn value(&mut self) -> u128 {
        u128::from(self.below(1000)) * ((1 << 100) + 1)
    }

    fn span(&mut self) -> RangeInclusive<u64> {
        let low = self.below(KEYS);
        low..=low + self.below(KEYS / 4)
    }
}

/// A change of the map, or a part of a scan, that was made.
enum Made {
    Inserted(u64, u64, u128),
    Removed(u64, u64, Option<u128>),
    Listed(Box<Part>),
}

impl Made {
    fn number(&self) -> u64 {
        match self {
            Made::Inserted(number, ..) | Made::Removed(number, ..) => *number,
            Made::Listed(part) => part.number(),
        }
    }

    /// Makes the change on a plain map, or checks that the part is of it.
    fn on(self, plain: &mut Plain) {
        match self {
            Made::Inserted(_, key, value) => {
                plain.insert(key, value);
            }
            Made::Removed(number, key, found) => assert_eq!(plain.remove(&key), found, "{number}"),
            Made::Listed(part) => assert!(part.pairs().eq(pairs_of(plain, part.keys())), "{part:?}"),
        }
    }
}

fn pairs_of(plain: &Plain, keys: RangeInclusive<u64>) -> impl DoubleEndedIterator<Item = (u64, u128)> + '_ {
    plain.range(keys).map(|(&key, &value)| (key, value))
}

fn with_scans() -> impl Iterator<Item = Structure> {
    Structure::ALL.into_iter().filter(|structure| structure.has_scans())
}

/// Inserts or removes a random key.
fn change(caller: &mut Caller, random: &mut Random) -> Made {
    let (key, value) = (random.below(KEYS), random.value());
    if random.below(2) == 0 {
        let found = caller.del(key);
        return Made::Removed(caller.number().expect("a call was made"), key, found);
    }
    caller.put(key, value).expect("there are nodes enough");
    Made::Inserted(caller.number().expect("a call was made"), key, value)
}

/// Lists a random span, whose parts are it, each beside the one before.
fn list(caller: &mut Caller, random: &mut Random) -> Vec<Made> {
    let span = random.span();
    let parts: Vec<Part> = caller.parts(span.clone()).expect("it has scans").collect();
    let mut next = *span.start();
    for part in &parts {
        assert_eq!(*part.keys().start(), next);
        assert!(part.keys().end() <= span.end() && part.pairs().len() <= 16);
        next = part.keys().end() + 1;
    }
    assert_eq!(next, span.end() + 1);
    assert_eq!(caller.number(), parts.last().map(Part::number));
    parts.into_iter().map(|part| Made::Listed(Box::new(part))).collect()
}

#[test]
fn scans_of_one_caller() -> Result<(), OpenError> {
    for structure in with_scans() {
        let mut caller = Dictionary::open_as(structure, 256, 1)?.caller().expect("it has one");
        let (mut plain, mut random) = (Plain::new(), Random(7));
        for _ in 0..2_000 {
            (0..5).for_each(|_| change(&mut caller, &mut random).on(&mut plain));
            let span = random.span();
            assert!(caller.scan(span.clone()).expect("it has scans").eq(pairs_of(&plain, span.clone())));
            assert_eq!(caller.first(span.clone()), Ok(pairs_of(&plain, span.clone()).next()));
            assert_eq!(caller.last(span.clone()), Ok(pairs_of(&plain, span.clone()).next_back()));
            let key = *span.start();
            assert_eq!(caller.next_after(key), Ok(pairs_of(&plain, key + 1..=u64::MAX).next()));
        }
    }
    Ok(())
}

#[test]
fn each_part_among_calls_of_others_is_the_map_at_its_number() -> Result<(), OpenError> {
    for structure in with_scans() {
        let dictionary = Dictionary::open_as(structure, 512, 8)?;
        let mut all: Vec<Made> = thread::scope(|scope| {
            let started: Vec<_> = (0..8)
                .map(|seed| {
                    let mut caller = dictionary.caller().expect("a caller for each thread");
                    let mut random = Random(seed);
                    scope.spawn(move || match seed {
                        0..3 => (0..3_000).flat_map(|_| list(&mut caller, &mut random)).collect::<Vec<_>>(),
                        _ => (0..10_000).map(|_| change(&mut caller, &mut random)).collect(),
                    })
                })
                .collect();
            started.into_iter().flat_map(|thread| thread.join().expect("the thread ends")).collect()
        });
        all.sort_by_key(Made::number);
        let mut plain = Plain::new();
        for (number, made) in (0..).zip(all) {
            assert_eq!(made.number(), number, "each number is that of one call");
            made.on(&mut plain);
        }
    }
    Ok(())
}

#[test]
fn a_part_that_is_put_off_may_be_asked_for_again() -> Result<(), OpenError> {
    for structure in with_scans() {
        let dictionary = Dictionary::open_as(structure, 64, 2)?;
        let (mut caller, mut other) = (dictionary.caller().expect("two"), dictionary.caller().expect("two"));
        thread::scope(|scope| {
            scope.spawn(move || assert!((0..20_000).all(|key| other.put(key % 50, key.into()).is_ok())));
            for _ in 0..2_000 {
                let (mut parts, mut next) = (caller.parts(..).expect("it has scans"), Some(0));
                while let Some(low) = next {
                    match parts.try_next() {
                        Ok(part) => {
                            let part = part.expect("the span is not yet listed");
                            assert_eq!(*part.keys().start(), low);
                            next = part.keys().end().checked_add(1);
                        }
                        Err(Later::Busy { node, .. } | Later::Moved { node }) => assert!(node < 64),
                        Err(Later::Far) => {
                            assert!(matches!(structure, Structure::GiveUpTree | Structure::GiveUpWideTree))
                        }
                    }
                }
                assert!(parts.try_next().is_ok_and(|part| part.is_none()));
            }
        });
    }
    Ok(())
}

#[test]
fn spans_without_keys_and_to_the_greatest_key() -> Result<(), OpenError> {
    for structure in with_scans() {
        let mut caller = Dictionary::open_as(structure, 64, 1)?.caller().expect("it has one");
        assert_eq!(caller.put(u64::MAX, 1), Ok(None));
        assert_eq!(caller.put(0, u128::MAX), Ok(None));
        assert_eq!(caller.scan(5..5).map(Iterator::count), Ok(0));
        assert_eq!(caller.parts(5..5).map(Iterator::count), Ok(0));
        assert_eq!(caller.number(), Some(1));
        assert!(caller.scan(..).expect("it has scans").eq([(0, u128::MAX), (u64::MAX, 1)]));
        assert_eq!(caller.next_after(0), Ok(Some((u64::MAX, 1))));
        assert_eq!(caller.next_after(u64::MAX), Ok(None));
    }
    Ok(())
}

#[test]
fn structures_without_scans() -> Result<(), OpenError> {
    for structure in Structure::ALL.into_iter().filter(|structure| !structure.has_scans()) {
        let mut caller = Dictionary::open_as(structure, 64, 1)?.caller().expect("it has one");
        assert_eq!(caller.scan(..).err(), Some(Unfit));
        assert_eq!((caller.first(..), caller.last(..), caller.next_after(0)), (Err(Unfit), Err(Unfit), Err(Unfit)));
        assert_eq!(caller.number(), None);
    }
    Ok(())
}
