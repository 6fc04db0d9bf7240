//! The thin layer over the library: a dictionary that hands out its callers.

use crate::handle::Call;
use crate::seat::{Seat, never_full};
use crate::{Full, Later, OpenError, Structure, TryPutError};
use std::mem;
use std::sync::{Arc, Mutex, MutexGuard, PoisonError};

/// A dictionary, which hands out its callers.
///
/// Its memory is freed when it and all its callers are dropped.
///
/// ```
/// use guttertide::Dictionary;
/// use std::thread;
///
/// let dictionary = Dictionary::open(64, 2)?;
/// thread::scope(|scope| {
///     for first in [0, 1] {
///         let mut caller = dictionary.caller().expect("one for each thread");
///         scope.spawn(move || assert!((first..100).step_by(2).all(|key| caller.put(key, 7) == Ok(None))));
///     }
/// });
/// assert_eq!(dictionary.caller().map(|mut caller| caller.count(..)), Some(Ok(100)));
/// # Ok::<(), guttertide::OpenError>(())
/// ```
#[derive(Debug)]
pub struct Dictionary {
    free: Arc<FreeSeats>,
}

impl Dictionary {
    /// Opens an empty B-link tree of `nodes` nodes ([`NODES`](crate::NODES)), for at most `callers` callers at a time
    /// ([`CALLERS`](crate::CALLERS)).
    ///
    /// It takes all memory that the tree will use, some 660 bytes a node (`docs/COSTS.md` of the repository, "A start"). A leaf
    /// holds at most 16 pairs, and after inserts in any order at least 8, unless it is the only one. So take an eighth of the
    /// number of keys for the leaves, and half as much again for inner nodes. A node that has been used stays in use, though
    /// its keys are removed.
    ///
    /// # Errors
    ///
    /// [`OpenError`] if one of the numbers is out of its range, or memory runs out.
    ///
    /// # Examples
    ///
    /// ```
    /// use guttertide::{Dictionary, OpenError};
    ///
    /// assert!(Dictionary::open(4, 1).is_ok());
    /// assert_eq!(Dictionary::open(3, 1).unwrap_err(), OpenError::Nodes(3));
    /// assert_eq!(Dictionary::open(4, 0).unwrap_err(), OpenError::Callers(0));
    /// ```
    pub fn open(nodes: u32, callers: usize) -> Result<Dictionary, OpenError> {
        Dictionary::open_as(Structure::default(), nodes, callers)
    }

    /// Opens an empty dictionary of a structure, as [`open`](Dictionary::open).
    ///
    /// [`nodes_for`](Structure::nodes_for) says how many nodes a structure needs for some number of pairs.
    ///
    /// # Errors
    ///
    /// As of [`open`](Dictionary::open).
    ///
    /// # Examples
    ///
    /// ```
    /// use guttertide::{Dictionary, Structure};
    ///
    /// let dictionary = Dictionary::open_as(Structure::GiveUpTree, 256, 4)?;
    /// # Ok::<(), guttertide::OpenError>(())
    /// ```
    pub fn open_as(structure: Structure, nodes: u32, callers: usize) -> Result<Dictionary, OpenError> {
        let seats = Seat::open(structure, nodes, callers)?;
        Ok(Dictionary { free: Arc::new(FreeSeats { structure, seats: Mutex::new(seats) }) })
    }

    /// Hands out a caller, or returns `None` if all are out. One that is dropped may be handed out again.
    ///
    /// A caller may outlive the `Dictionary`.
    ///
    /// ```
    /// # let dictionary = guttertide::Dictionary::open(64, 2)?;
    /// let (first, second) = (dictionary.caller(), dictionary.caller());
    /// assert!(first.is_some() && second.is_some() && dictionary.caller().is_none());
    /// drop(first);
    /// assert!(dictionary.caller().is_some());
    /// # Ok::<(), guttertide::OpenError>(())
    /// ```
    pub fn caller(&self) -> Option<Caller> {
        let seat = self.free.lock().pop()?.fresh();
        Some(Caller { seat, free: Arc::clone(&self.free) })
    }
}

/// The seats of one dictionary, of this structure, that no caller has.
#[derive(Debug)]
pub(crate) struct FreeSeats {
    pub(crate) structure: Structure,
    seats: Mutex<Vec<Seat>>,
}

impl FreeSeats {
    fn lock(&self) -> MutexGuard<'_, Vec<Seat>> {
        self.seats.lock().unwrap_or_else(PoisonError::into_inner)
    }
}

/// One caller of a dictionary, which makes one call at a time.
///
/// Each call at a key replies with the value that the key had just before it, or `None` if it had none.
///
/// A caller may be sent to another thread, and is not shared between two:
///
/// ```compile_fail,E0277
/// # let dictionary = guttertide::Dictionary::open(64, 2).unwrap();
/// let caller = dictionary.caller().unwrap();
/// std::thread::scope(|scope| {
///     scope.spawn(|| &caller);
/// });
/// ```
///
/// Nor is it cloned:
///
/// ```compile_fail,E0599
/// # let dictionary = guttertide::Dictionary::open(64, 2).unwrap();
/// let caller = dictionary.caller().unwrap();
/// let other = caller.clone();
/// ```
#[derive(Debug)]
pub struct Caller {
    pub(crate) seat: Seat,
    pub(crate) free: Arc<FreeSeats>,
}

impl Caller {
    /// Returns the value of a key.
    ///
    /// ```
    /// # let dictionary = guttertide::Dictionary::open(64, 1).unwrap();
    /// # let mut caller = dictionary.caller().unwrap();
    /// assert_eq!(caller.get(5), None);
    /// caller.put(5, 50)?;
    /// assert_eq!(caller.get(5), Some(50));
    /// # Ok::<(), guttertide::Full>(())
    /// ```
    pub fn get(&mut self, key: u64) -> Option<u128> {
        never_full(self.seat.wait(Call::Get { key }))
    }

    /// Sets the value of a key, and replies with the one before.
    ///
    /// # Errors
    ///
    /// [`Full`] if the key has no value, there is no room for it, and no node was found free.
    ///
    /// # Examples
    ///
    /// ```
    /// # let dictionary = guttertide::Dictionary::open(64, 1).unwrap();
    /// # let mut caller = dictionary.caller().unwrap();
    /// assert_eq!(caller.put(5, 50)?, None);
    /// assert_eq!(caller.put(5, 51)?, Some(50));
    /// # Ok::<(), guttertide::Full>(())
    /// ```
    #[doc(alias = "insert")]
    pub fn put(&mut self, key: u64, value: u128) -> Result<Option<u128>, Full> {
        self.seat.wait(Call::Put { key, value })
    }

    /// Sets the value of a key that has none. A value that the key has stays, and is the reply.
    ///
    /// # Errors
    ///
    /// As of [`put`](Caller::put).
    ///
    /// # Examples
    ///
    /// ```
    /// # let dictionary = guttertide::Dictionary::open(64, 1).unwrap();
    /// # let mut caller = dictionary.caller().unwrap();
    /// assert_eq!(caller.add(5, 50)?, None);
    /// assert_eq!(caller.add(5, 51)?, Some(50));
    /// assert_eq!(caller.get(5), Some(50));
    /// # Ok::<(), guttertide::Full>(())
    /// ```
    pub fn add(&mut self, key: u64, value: u128) -> Result<Option<u128>, Full> {
        self.seat.wait(Call::Add { key, value })
    }

    /// Sets the value of a key to `after` if and only if it is `before`.
    ///
    /// The reply is the value that the key had: it was set if and only if that is `Some(before)`.
    ///
    /// ```
    /// # let dictionary = guttertide::Dictionary::open(64, 1).unwrap();
    /// # let mut caller = dictionary.caller().unwrap();
    /// caller.put(5, 50)?;
    /// assert_eq!(caller.swap(5, 50, 51), Some(50));
    /// assert_eq!(caller.swap(5, 50, 52), Some(51));
    /// assert_eq!(caller.get(5), Some(51));
    /// # Ok::<(), guttertide::Full>(())
    /// ```
    #[must_use = "the reply says whether the value was set"]
    #[doc(alias = "compare_exchange")]
    pub fn swap(&mut self, key: u64, before: u128, after: u128) -> Option<u128> {
        never_full(self.seat.wait(Call::Swap { key, before, after }))
    }

    /// Deletes a key, and replies with its value.
    ///
    /// ```
    /// # let dictionary = guttertide::Dictionary::open(64, 1).unwrap();
    /// # let mut caller = dictionary.caller().unwrap();
    /// caller.put(5, 50)?;
    /// assert_eq!(caller.del(5), Some(50));
    /// assert_eq!(caller.del(5), None);
    /// # Ok::<(), guttertide::Full>(())
    /// ```
    #[doc(alias = "remove")]
    pub fn del(&mut self, key: u64) -> Option<u128> {
        never_full(self.seat.wait(Call::Del { key }))
    }

    /// As [`get`](Caller::get), without waiting.
    ///
    /// # Errors
    ///
    /// [`Later`] if another caller was in the way.
    ///
    /// # Examples
    ///
    /// ```
    /// # let dictionary = guttertide::Dictionary::open(64, 1).unwrap();
    /// # let mut caller = dictionary.caller().unwrap();
    /// match caller.try_get(5) {
    ///     Ok(Some(value)) => println!("the key has {value}"),
    ///     Ok(None) => println!("the key has no value"),
    ///     Err(later) => println!("not now: {later}"),
    /// }
    /// ```
    pub fn try_get(&mut self, key: u64) -> Result<Option<u128>, Later> {
        self.seat.attempt(Call::Get { key }).map(never_full)
    }

    /// As [`put`](Caller::put), without waiting.
    ///
    /// # Errors
    ///
    /// [`TryPutError::Later`] if another caller was in the way, and [`TryPutError::Full`] as of
    /// [`put`](Caller::put).
    ///
    /// # Examples
    ///
    /// ```
    /// use guttertide::TryPutError;
    ///
    /// # let dictionary = guttertide::Dictionary::open(64, 1).unwrap();
    /// # let mut caller = dictionary.caller().unwrap();
    /// match caller.try_put(5, 50) {
    ///     Ok(before) => println!("it had {before:?}"),
    ///     Err(TryPutError::Full(full)) => println!("{full}"),
    ///     Err(TryPutError::Later(later)) => println!("not now: {later}"),
    /// }
    /// ```
    pub fn try_put(&mut self, key: u64, value: u128) -> Result<Option<u128>, TryPutError> {
        Ok(self.seat.attempt(Call::Put { key, value })??)
    }

    /// As [`add`](Caller::add), without waiting.
    ///
    /// # Errors
    ///
    /// As of [`try_put`](Caller::try_put).
    ///
    /// # Examples
    ///
    /// ```
    /// # let dictionary = guttertide::Dictionary::open(64, 1)?;
    /// # let mut caller = dictionary.caller().expect("it has one");
    /// assert_eq!(caller.try_add(5, 50)?, None);
    /// assert_eq!(caller.try_add(5, 51)?, Some(50));
    /// # Ok::<(), Box<dyn std::error::Error>>(())
    /// ```
    pub fn try_add(&mut self, key: u64, value: u128) -> Result<Option<u128>, TryPutError> {
        Ok(self.seat.attempt(Call::Add { key, value })??)
    }

    /// As [`swap`](Caller::swap), without waiting.
    ///
    /// # Errors
    ///
    /// [`Later`] if another caller was in the way.
    ///
    /// # Examples
    ///
    /// ```
    /// # let dictionary = guttertide::Dictionary::open(64, 1)?;
    /// # let mut caller = dictionary.caller().expect("it has one");
    /// caller.put(5, 50)?;
    /// assert_eq!(caller.try_swap(5, 50, 51)?, Some(50));
    /// # Ok::<(), Box<dyn std::error::Error>>(())
    /// ```
    pub fn try_swap(&mut self, key: u64, before: u128, after: u128) -> Result<Option<u128>, Later> {
        self.seat.attempt(Call::Swap { key, before, after }).map(never_full)
    }

    /// As [`del`](Caller::del), without waiting.
    ///
    /// # Errors
    ///
    /// [`Later`] if another caller was in the way.
    ///
    /// # Examples
    ///
    /// ```
    /// # let dictionary = guttertide::Dictionary::open(64, 1)?;
    /// # let mut caller = dictionary.caller().expect("it has one");
    /// caller.put(5, 50)?;
    /// assert_eq!(caller.try_del(5)?, Some(50));
    /// # Ok::<(), Box<dyn std::error::Error>>(())
    /// ```
    pub fn try_del(&mut self, key: u64) -> Result<Option<u128>, Later> {
        self.seat.attempt(Call::Del { key }).map(never_full)
    }

    /// Returns the number of the last call that was made through this value, or `None` before the first.
    ///
    /// It is how many calls are before that one in the history of all callers of the dictionary. A call that is [`Full`] has
    /// a number; one that is put off ([`Later`]) has none.
    ///
    /// ```
    /// # let dictionary = guttertide::Dictionary::open(64, 2).unwrap();
    /// # let (mut caller, mut other) = (dictionary.caller().unwrap(), dictionary.caller().unwrap());
    /// assert_eq!(caller.number(), None);
    /// caller.get(5);
    /// other.get(5);
    /// assert_eq!((caller.number(), other.number()), (Some(0), Some(1)));
    /// ```
    pub fn number(&self) -> Option<u64> {
        self.seat.number()
    }
}

/// Returns the handle to the dictionary.
impl Drop for Caller {
    fn drop(&mut self) {
        let seat = mem::replace(&mut self.seat, Seat::closed());
        self.free.lock().push(seat);
    }
}
