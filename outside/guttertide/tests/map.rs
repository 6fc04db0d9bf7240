//! `Map` beside a `BTreeMap`, by one thread and by more threads than it has callers; and its keys and values as numbers.

use guttertide::{Full, Key, Map, OpenError, Pinned, Structure, Value};
use std::collections::BTreeMap;
use std::collections::BTreeSet;
use std::fmt::Debug;
use std::net::{Ipv4Addr, Ipv6Addr};
use std::ops::Bound::{Excluded, Included, Unbounded};
use std::sync::atomic::{AtomicU64, Ordering};
use std::thread;

const STRUCTURES: [Structure; 4] =
    [Structure::BLinkTree, Structure::GiveUpTree, Structure::BLinkWideTree, Structure::GiveUpWideTree];

/// Random numbers.
struct Random(u64);

impl Random {
    fn below(&mut self, limit: u64) -> u64 {
        self.0 = self.0.wrapping_mul(6364136223846793005).wrapping_add(1442695040888963407);
        (self.0 >> 33) % limit
    }
}

/// Makes a random call on both, and compares what they return.
fn call(map: &Map<i16, u64>, plain: &mut BTreeMap<i16, u64>, random: &mut Random) {
    let (key, value) = (random.below(300) as i16 - 150, random.below(4));
    let before = plain.get(&key).copied();
    match random.below(12) {
        0 | 1 => assert_eq!(map.insert(key, value), Ok(plain.insert(key, value))),
        2 => assert_eq!(map.remove(key), plain.remove(&key)),
        3 => {
            assert_eq!(map.add(key, value), Ok(before));
            plain.entry(key).or_insert(value);
        }
        4 => assert_eq!(map.get_or_insert(key, value), Ok(*plain.entry(key).or_insert(value))),
        5 if before == Some(value) => {
            assert_eq!(map.replace(key, value, 7), Ok(()));
            plain.insert(key, 7);
        }
        5 => assert_eq!(map.replace(key, value, 7), Err(before)),
        6 => {
            assert_eq!(map.update(key, |value| value + 1), before);
            plain.entry(key).and_modify(|value| *value += 1);
        }
        7 => assert_eq!(map.first_key_value(), plain.first_key_value().map(|(&key, &value)| (key, value))),
        8 => assert_eq!(map.last_key_value(), plain.last_key_value().map(|(&key, &value)| (key, value))),
        9 if random.below(8) == 0 => assert_eq!(map.pop_first(), plain.pop_first()),
        10 => assert!(map.range(key..).take(9).eq(plain.range(key..).take(9).map(|(&key, &value)| (key, value)))),
        _ => assert_eq!((map.get(key), map.contains_key(key)), (before, before.is_some())),
    }
}

#[test]
fn one_thread_beside_a_plain_map() -> Result<(), OpenError> {
    for structure in STRUCTURES {
        let map = Map::builder().structure(structure).capacity(400).callers(3).open()?;
        let (mut plain, mut random) = (BTreeMap::new(), Random(11));
        for turn in 0..20_000 {
            call(&map, &mut plain, &mut random);
            if turn % 1000 == 0 {
                assert!(map.iter().eq(plain.iter().map(|(&key, &value)| (key, value))));
                assert!(map.keys().eq(plain.keys().copied()) && map.values().eq(plain.values().copied()));
                assert_eq!((map.count(), map.is_empty()), (plain.len(), plain.is_empty()));
                assert_eq!(format!("{map:?}"), format!("{plain:?}"));
                map.retain(|key, value| (key ^ value as i16) % 5 != 0);
                plain.retain(|key, value| (key ^ *value as i16) % 5 != 0);
            }
        }
        map.clear();
        assert!(map.is_empty() && map.count() == 0);
    }
    Ok(())
}

#[test]
fn ranges_of_each_kind() -> Result<(), Box<dyn std::error::Error>> {
    let map: Map<i8, ()> = (-20..20).map(|key| (key * 6, ())).collect();
    let plain: BTreeSet<i8> = map.keys().collect();
    assert_eq!(plain.len(), 40);
    let bounds = |key| [Included(key), Excluded(key), Unbounded];
    for low in i8::MIN..=i8::MAX {
        for high in [i8::MIN, -7, -6, 0, 6, 113, 114, i8::MAX] {
            for (low, high) in bounds(low).into_iter().flat_map(|low| bounds(high).map(|high| (low, high))) {
                let inside = plain.iter().copied().filter(|key| std::ops::RangeBounds::contains(&(low, high), key));
                assert!(map.range((low, high)).map(|(key, ())| key).eq(inside), "{low:?} {high:?}");
            }
        }
    }
    Ok(())
}

#[test]
fn more_threads_than_callers() -> Result<(), OpenError> {
    const THREADS: u64 = 32;
    const EACH: u64 = 400;
    for (structure, callers) in STRUCTURES.into_iter().zip([2, 5, 5, 2]) {
        let map: Map<(u32, u32), u64> = Map::builder().structure(structure).capacity(20_000).callers(callers).open()?;
        thread::scope(|scope| {
            for thread in 0..THREADS {
                let map = map.clone();
                scope.spawn(move || {
                    for at in 0..EACH {
                        let key = (at as u32, thread as u32);
                        assert_eq!(map.insert(key, at), Ok(None));
                        assert_eq!(map.update(key, |value| value + 1), Some(at));
                        assert_eq!(map.get(key), Some(at + 1));
                    }
                });
            }
        });
        assert_eq!(map.count() as u64, THREADS * EACH);
        assert!(map.keys().is_sorted());
        assert!(map.range((3, 0)..(4, 0)).eq((0..THREADS).map(|thread| ((3, thread as u32), 4))));
    }
    Ok(())
}

#[test]
fn each_pair_is_popped_once() -> Result<(), OpenError> {
    for structure in STRUCTURES {
        let map: Map<u64, u64> = Map::builder().structure(structure).capacity(20_000).callers(4).open()?;
        map.try_extend((0..5_000).map(|key| (key, key))).expect("there is room");
        let popped = AtomicU64::new(0);
        thread::scope(|scope| {
            for _ in 0..8 {
                scope.spawn(|| {
                    while let Some((key, value)) = map.pop_first() {
                        assert_eq!(key, value);
                        popped.fetch_add(1, Ordering::Relaxed);
                    }
                });
            }
        });
        assert_eq!(popped.into_inner(), 5_000);
    }
    Ok(())
}

#[test]
fn updates_of_threads_add_up() -> Result<(), OpenError> {
    let map: Map<bool, u128> = Map::builder().nodes(16).callers(3).open()?;
    assert_eq!(map.insert(true, 0), Ok(None));
    thread::scope(|scope| {
        for _ in 0..8 {
            scope.spawn(|| (0..500).for_each(|_| assert!(map.update(true, |value| value + 1).is_some())));
        }
    });
    assert_eq!(map.get(true), Some(4_000));
    Ok(())
}

/// Each call takes a ticket before and after it. In the order of the calls' numbers, none began after a later one returned.
#[test]
fn calls_of_a_map_are_in_the_order_of_time() -> Result<(), OpenError> {
    for structure in STRUCTURES {
        let map: Map<u64, u64> = Map::builder().structure(structure).nodes(64).callers(3).open()?;
        let tickets = AtomicU64::new(0);
        let next_ticket = || tickets.fetch_add(1, Ordering::SeqCst);
        let call = |random: &mut Random| {
            let begin = next_ticket();
            let mut pinned = map.pin();
            let key = random.below(48);
            match random.below(3) {
                0 => drop(pinned.insert(key, begin)),
                1 => drop(pinned.remove(key)),
                _ => drop(pinned.get(key)),
            }
            let number = pinned.number().expect("a call was made");
            drop(pinned);
            (number, begin, next_ticket())
        };
        let mut all: Vec<(u64, u64, u64)> = thread::scope(|scope| {
            let work = |seed| (0..1_000).scan(Random(seed), |random, _| Some(call(random))).collect::<Vec<_>>();
            let started: Vec<_> = (0..6).map(|seed| scope.spawn(move || work(seed))).collect();
            started.into_iter().flat_map(|thread| thread.join().expect("the thread ends")).collect()
        });
        all.sort();
        let mut latest = 0;
        for (at, (number, begin, end)) in (0..).zip(all) {
            assert_eq!(number, at, "each number is that of one call");
            latest = latest.max(begin);
            assert!(latest < end, "{structure:?}: call {number} returned before one with a lesser number began");
        }
    }
    Ok(())
}

#[test]
fn a_full_map_stays_as_it_is() -> Result<(), OpenError> {
    let mut map: Map = Map::builder().nodes(4).callers(1).open()?;
    let count = (0..).find(|&key| map.insert(key, key.into()) == Err(Full)).expect("four nodes are soon full");
    assert_eq!((map.add(count, 0), map.get_or_insert(count, 0)), (Err(Full), Err(Full)));
    assert_eq!(map.try_extend([(0, 1), (count, 0), (1, 2)]), Err(Full));
    assert_eq!((map.get(0), map.get(1), map.count() as u64), (Some(1), Some(1), count));
    map.extend([(0, 5)]);
    assert_eq!(map.get(0), Some(5));
    Ok(())
}

#[test]
fn a_thread_with_a_pinned_caller_may_call_the_map() -> Result<(), OpenError> {
    let map: Map<u64, u64> = Map::builder().callers(2).open()?;
    let mut pinned: Pinned<u64, u64> = map.pin();
    for key in 0..100 {
        assert_eq!(pinned.insert(key, key), Ok(None));
        assert_eq!(map.get(key), Some(key));
    }
    assert_eq!(pinned.number(), Some(198));
    assert_eq!((pinned.get(5), pinned.replace(5, 5, 6), pinned.add(5, 7)), (Some(5), Ok(()), Ok(Some(6))));
    assert_eq!(pinned.remove(5), Some(6));
    Ok(())
}

#[test]
fn a_map_outlives_a_thread_that_panics_with_a_caller() -> Result<(), OpenError> {
    let map: Map<u64, u64> = Map::builder().callers(1).open()?;
    let other = map.clone();
    let panicked = thread::spawn(move || {
        let mut pinned = other.pin();
        pinned.insert(5, 50).expect("there is room");
        panic!("on purpose");
    });
    assert!(panicked.join().is_err());
    assert_eq!(map.get(5), Some(50));
    Ok(())
}

#[test]
fn what_cannot_be_opened() {
    let of = |structure| Map::<u64, u64>::builder().structure(structure);
    assert_eq!(of(Structure::BTree).open().err(), Some(OpenError::Unfit(Structure::BTree)));
    assert_eq!(of(Structure::BLinkTree).nodes(3).open().err(), Some(OpenError::Nodes(3)));
    assert_eq!(of(Structure::BLinkTree).callers(0).open().err(), Some(OpenError::Callers(0)));
}

#[test]
fn what_may_go_to_another_thread() {
    fn is_shared<T: Send + Sync + Clone>() {}
    is_shared::<Map>();
    is_shared::<Map<i8, f64>>();
}

/// Checks that keys in ascending order have ascending numbers, and come back from them.
fn ascend<K: Key + PartialOrd + Debug>(keys: &[K]) {
    for pair in keys.windows(2) {
        assert!(pair[0] < pair[1] && pair[0].encode() < pair[1].encode(), "{pair:?}");
    }
    keys.iter().for_each(|key| assert_eq!(K::decode(key.encode()), *key));
}

/// Checks that values come back from their numbers.
fn come_back<V: Value + PartialEq + Debug>(values: &[V]) {
    values.iter().for_each(|value| assert_eq!(V::decode(value.encode()), *value));
}

macro_rules! whole_numbers {
    ($($kind:ty)*) => {$(
        let keys: [$kind; 5] = [<$kind>::MIN, <$kind>::MIN + 1, <$kind>::MAX / 2, <$kind>::MAX - 1, <$kind>::MAX];
        ascend(&keys);
        come_back(&keys);
    )*};
}

#[test]
fn keys_and_values_as_numbers() {
    whole_numbers!(u8 u16 u32 u64 usize i8 i16 i32 i64 isize);
    ascend(&[i64::MIN, -1, 0, 1, i64::MAX]);
    ascend(&[-1i32, 0, 1]);
    ascend(&[false, true]);
    ascend(&['\0', 'a', '\u{d7ff}', '\u{e000}', char::MAX]);
    ascend(&[Ipv4Addr::new(9, 255, 255, 255), Ipv4Addr::new(10, 0, 0, 1), Ipv4Addr::BROADCAST]);
    ascend(&[*b"aaaaaaaa", *b"aaaaaaab", *b"baaaaaaa", [255; 8]]);
    ascend(&[(0, u32::MAX), (1, 0), (1, 1), (u32::MAX, 0)]);
    come_back(&[false, true]);
    come_back(&['a', char::MAX]);
    come_back(&[0, u128::MAX]);
    come_back(&[i128::MIN, -1, i128::MAX]);
    come_back(&[0.5f32, -0.0, f32::INFINITY, f32::MIN_POSITIVE]);
    come_back(&[0.5, -0.0, f64::INFINITY, f64::MIN_POSITIVE]);
    assert!(f64::decode(f64::NAN.encode()).is_nan());
    come_back(&[Ipv4Addr::LOCALHOST]);
    come_back(&[Ipv6Addr::LOCALHOST, Ipv6Addr::UNSPECIFIED]);
    come_back(&[*b"abcdefgh"]);
    come_back(&[*b"abcdefghijklmnop"]);
    come_back(&[(1u32, u32::MAX)]);
    come_back(&[(1u64, u64::MAX)]);
    come_back(&[()]);
}
