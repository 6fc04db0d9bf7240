//! Random calls of one thread and of many, beside a `BTreeMap`: the calls in the order of their numbers are its calls.

use guttertide::{Caller, Dictionary, Full, Later, OpenError, Structure, TryPutError};
use std::collections::BTreeMap;
use std::sync::mpsc;
use std::thread;

type Plain = BTreeMap<u64, u128>;
type Reply = Result<Option<u128>, Full>;

#[derive(Clone, Copy, Debug)]
enum Call {
    Get(u64),
    Insert(u64, u128),
    Add(u64, u128),
    Replace(u64, u128, u128),
    Remove(u64),
}

/// A call that was made.
#[derive(Debug)]
struct Made {
    number: u64,
    call: Call,
    reply: Reply,
}

impl Call {
    /// Makes the call, and waits for other callers.
    fn wait(self, caller: &mut Caller) -> Made {
        let reply = match self {
            Call::Get(key) => Ok(caller.get(key)),
            Call::Insert(key, value) => caller.put(key, value),
            Call::Add(key, value) => caller.add(key, value),
            Call::Replace(key, old, new) => Ok(caller.swap(key, old, new)),
            Call::Remove(key) => Ok(caller.del(key)),
        };
        self.made(caller, reply)
    }

    /// Makes the call, if no other caller is in the way.
    fn attempt(self, caller: &mut Caller) -> Result<Made, Later> {
        let reply = match self {
            Call::Get(key) => Ok(caller.try_get(key)?),
            Call::Insert(key, value) => split(caller.try_put(key, value))?,
            Call::Add(key, value) => split(caller.try_add(key, value))?,
            Call::Replace(key, old, new) => Ok(caller.try_swap(key, old, new)?),
            Call::Remove(key) => Ok(caller.try_del(key)?),
        };
        Ok(self.made(caller, reply))
    }

    fn made(self, caller: &Caller, reply: Reply) -> Made {
        Made { number: caller.number().expect("a call was made"), call: self, reply }
    }

    /// Makes the call on a plain map.
    fn on(self, plain: &mut Plain) -> Option<u128> {
        let (Call::Get(key) | Call::Insert(key, _) | Call::Add(key, _) | Call::Replace(key, ..) | Call::Remove(key)) =
            self;
        let found = plain.get(&key).copied();
        match self {
            Call::Insert(_, value) => drop(plain.insert(key, value)),
            Call::Add(_, value) if found.is_none() => drop(plain.insert(key, value)),
            Call::Replace(_, old, new) if found == Some(old) => drop(plain.insert(key, new)),
            Call::Remove(_) => drop(plain.remove(&key)),
            _ => {}
        }
        found
    }
}

fn split(reply: Result<Option<u128>, TryPutError>) -> Result<Reply, Later> {
    match reply {
        Ok(found) => Ok(Ok(found)),
        Err(TryPutError::Full(full)) => Ok(Err(full)),
        Err(TryPutError::Later(later)) => Err(later),
    }
}

/// An endless supply of random calls at this number of keys.
fn calls(seed: u64, keys: u64) -> impl Iterator<Item = Call> {
    let mut state = seed;
    let mut draw = move |below: u64| {
        state = state.wrapping_mul(6364136223846793005).wrapping_add(1442695040888963407);
        (state >> 33) % below
    };
    // Each half of a value says which it is, and few values make replacing likely.
    let value = |drawn: u64| u128::from(drawn) * ((1 << 100) + 1);
    std::iter::repeat_with(move || {
        let key = draw(keys);
        match draw(5) {
            0 => Call::Get(key),
            1 => Call::Insert(key, value(draw(4))),
            2 => Call::Add(key, value(draw(4))),
            3 => Call::Replace(key, value(draw(4)), value(draw(4))),
            _ => Call::Remove(key),
        }
    })
}

/// The work of each thread beside all others, in the threads' order.
fn on_threads(
    dictionary: &Dictionary,
    threads: u64,
    work: impl Fn(u64, &mut Caller) -> Vec<Made> + Sync,
) -> Vec<Vec<Made>> {
    let work = &work;
    thread::scope(|scope| {
        let started: Vec<_> = (0..threads)
            .map(|thread| {
                let mut caller = dictionary.caller().expect("a caller for each thread");
                scope.spawn(move || work(thread, &mut caller))
            })
            .collect();
        started.into_iter().map(|thread| thread.join().expect("the thread ends")).collect()
    })
}

/// Makes all calls again on a plain map, in the order of their numbers, and returns it and how many were full.
fn replay(threads: Vec<Vec<Made>>) -> (Plain, usize) {
    for made in &threads {
        assert!(made.is_sorted_by(|one, next| one.number < next.number), "a caller's calls stand in their order");
    }
    let mut all: Vec<Made> = threads.into_iter().flatten().collect();
    all.sort_by_key(|made| made.number);
    let (mut plain, mut full) = (Plain::new(), 0);
    for (number, made) in (0..).zip(all) {
        assert_eq!(made.number, number, "each number is that of one call");
        match (made.reply, made.call) {
            (Ok(found), call) => assert_eq!(found, call.on(&mut plain), "{number}: {call:?}"),
            (Err(Full), Call::Insert(key, _) | Call::Add(key, _)) if !plain.contains_key(&key) => full += 1,
            (Err(Full), call) => panic!("{number}: {call:?} needs no room"),
        }
    }
    (plain, full)
}

/// Checks that each key has the same in the dictionary as in the plain map.
fn assert_same(dictionary: &Dictionary, plain: &Plain, keys: u64) {
    let mut caller = dictionary.caller().expect("the callers have come back");
    for key in 0..keys {
        assert_eq!(caller.get(key), plain.get(&key).copied(), "key {key}");
    }
}

/// Makes `calls` calls that wait on each of some threads, and returns how many were full.
fn wait_on_threads(structure: Structure, nodes: u32, threads: u64, keys: u64, each: usize) -> Result<usize, OpenError> {
    let dictionary = Dictionary::open_as(structure, nodes, threads as usize)?;
    let made = on_threads(&dictionary, threads, |thread, caller| {
        calls(thread, keys).take(each).map(|call| call.wait(caller)).collect()
    });
    let (plain, full) = replay(made);
    assert_same(&dictionary, &plain, keys);
    Ok(full)
}

#[test]
fn one_caller() -> Result<(), OpenError> {
    for structure in Structure::ALL {
        assert_eq!(wait_on_threads(structure, 64, 1, 200, 100_000)?, 0, "{structure:?}");
    }
    Ok(())
}

#[test]
fn eight_threads_at_few_keys() -> Result<(), OpenError> {
    for structure in Structure::ALL {
        assert_eq!(wait_on_threads(structure, 64, 8, 48, 20_000)?, 0, "{structure:?}");
    }
    Ok(())
}

#[test]
fn eight_threads_in_too_few_nodes() -> Result<(), OpenError> {
    for structure in Structure::ALL {
        assert!(wait_on_threads(structure, 16, 8, 1000, 20_000)? > 0, "{structure:?}");
    }
    Ok(())
}

#[test]
fn eight_threads_that_do_not_wait() -> Result<(), OpenError> {
    Structure::ALL.into_iter().try_for_each(do_not_wait_on_threads)
}

/// Whether the searches of a structure may restart.
fn gives_up(structure: Structure) -> bool {
    matches!(structure, Structure::GiveUpTree | Structure::GiveUpWideTree)
}

/// Whether the calls of a structure may be put off like this, in a dictionary of 1024 nodes and 8 callers.
fn may_be_put_off(structure: Structure, later: Later) -> bool {
    match later {
        Later::Busy { node, holder } => node < 1024 && holder < 8,
        Later::Moved { node } => node < 1024 && gives_up(structure),
        Later::Far => gives_up(structure) || structure == Structure::BTree,
    }
}

fn do_not_wait_on_threads(structure: Structure) -> Result<(), OpenError> {
    let dictionary = Dictionary::open_as(structure, 1024, 8)?;
    let made = on_threads(&dictionary, 8, |thread, caller| {
        let tried = calls(thread, 2000).take(20_000).map(|call| call.attempt(caller));
        tried
            .filter_map(|made| match made {
                Ok(made) => Some(made),
                Err(later) => {
                    assert!(may_be_put_off(structure, later), "{structure:?}: {later}");
                    None
                }
            })
            .collect()
    });
    let (plain, full) = replay(made);
    assert_eq!(full, 0);
    assert_same(&dictionary, &plain, 2000);
    Ok(())
}

#[test]
fn a_full_dictionary_stays_as_it_is() -> Result<(), OpenError> {
    let dictionary = Dictionary::open(4, 1)?;
    let mut caller = dictionary.caller().expect("it has one");
    let count = (0..).find(|&key| caller.put(key, key.into()) == Err(Full)).expect("four nodes are soon full");
    assert_eq!(caller.number(), Some(count));
    assert!((8..=64).contains(&count));
    assert_eq!(caller.try_put(count, 0), Err(TryPutError::Full(Full)));
    assert_eq!(caller.add(count, 0), Err(Full));
    assert!((0..count).all(|key| caller.get(key) == Some(key.into())));
    assert_eq!((caller.get(count), caller.put(0, 1), caller.add(0, 2)), (None, Ok(Some(0)), Ok(Some(1))));
    assert_eq!(caller.del(count - 1), Some((count - 1).into()));
    assert_eq!(caller.put(count, 7), Ok(None));
    Ok(())
}

#[test]
fn an_eighth_of_the_keys_and_half_as_much_again_are_enough_nodes() -> Result<(), OpenError> {
    const KEYS: u64 = 10_000;
    // The factor is odd, and so 16384 different keys come in an order that goes up and down.
    let orders: [fn(u64) -> u64; 3] = [|at| at, |at| KEYS - at, |at| at * 6361 % 16384];
    for order in orders {
        let dictionary = Dictionary::open((KEYS / 8 + KEYS / 16) as u32, 1)?;
        let mut caller = dictionary.caller().expect("it has one");
        assert!((0..KEYS).all(|at| caller.put(order(at), at.into()) == Ok(None)));
        assert!((0..KEYS).all(|at| caller.get(order(at)) == Some(at.into())));
    }
    Ok(())
}

/// Two threads that hand on a number in turn: each call has a greater number than the one before, of the other thread.
#[test]
fn a_call_comes_after_those_that_returned_before_it() -> Result<(), OpenError> {
    for structure in Structure::ALL {
        let dictionary = Dictionary::open_as(structure, 64, 3)?;
        let (to_first, first) = mpsc::channel();
        let (to_second, second) = mpsc::channel();
        to_first.send(None).expect("the first thread waits");
        thread::scope(|scope| {
            for (seed, before, next) in [(1, first, to_second), (2, second, to_first)] {
                let mut caller = dictionary.caller().expect("a caller for each thread");
                scope.spawn(move || {
                    for call in calls(seed, 48).take(2_000) {
                        let before: Option<u64> = before.recv().expect("the other thread sends");
                        let made = call.wait(&mut caller);
                        assert!(before < Some(made.number), "{before:?}: {made:?}");
                        // The other thread has ended when the last number is sent.
                        next.send(Some(made.number)).ok();
                    }
                });
            }
            let mut caller = dictionary.caller().expect("a third caller");
            calls(3, 48).take(20_000).for_each(|call| {
                call.wait(&mut caller);
            });
        });
    }
    Ok(())
}

#[test]
fn callers_come_back_from_threads_that_come_and_go() -> Result<(), OpenError> {
    let dictionary = Dictionary::open(256, 3)?;
    let made = thread::scope(|scope| {
        let serve = |thread: u64| {
            let mut caller = loop {
                match dictionary.caller() {
                    Some(caller) => break caller,
                    None => thread::yield_now(),
                }
            };
            assert_eq!(caller.number(), None);
            calls(thread, 100).take(500).map(|call| call.wait(&mut caller)).collect::<Vec<_>>()
        };
        let started: Vec<_> = (0..30).map(|thread| scope.spawn(move || serve(thread))).collect();
        started.into_iter().map(|thread| thread.join().expect("the thread ends")).collect()
    });
    let (plain, _) = replay(made);
    assert_same(&dictionary, &plain, 100);
    Ok(())
}

#[test]
fn callers_outlive_their_dictionary() -> Result<(), OpenError> {
    let dictionary = Dictionary::open(16, 2)?;
    let mut callers: Vec<Caller> = std::iter::from_fn(|| dictionary.caller()).collect();
    assert_eq!(callers.len(), 2);
    drop(dictionary);
    let mut last = callers.pop().expect("two callers");
    assert_eq!(last.put(3, u128::MAX), Ok(None));
    let mut first = callers.pop().expect("two callers");
    let found = thread::spawn(move || first.get(3)).join().expect("the thread ends");
    assert_eq!(found, Some(u128::MAX));
    assert_eq!(last.del(3), found);
    Ok(())
}

#[test]
fn sizes() {
    for nodes in [0, 3, 1_048_577, u32::MAX] {
        assert_eq!(Dictionary::open(nodes, 1).err(), Some(OpenError::Nodes(nodes)));
    }
    for callers in [0, 1025, usize::MAX] {
        assert_eq!(Dictionary::open(4, callers).err(), Some(OpenError::Callers(callers)));
    }
    let dictionary = Dictionary::open(4, 1024).expect("the most callers");
    let callers: Vec<Caller> = std::iter::from_fn(|| dictionary.caller()).collect();
    assert_eq!(callers.len(), 1024);
}

#[test]
fn what_may_go_to_another_thread() {
    fn is_send<T: Send>() {}
    fn is_sync<T: Sync>() {}
    is_send::<Caller>();
    is_send::<Dictionary>();
    is_sync::<Dictionary>();
}
