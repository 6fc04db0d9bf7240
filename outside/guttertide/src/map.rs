//! A map with std's words, which each thread that has a reference may call.

use crate::handle::Call;
use crate::pool::Pool;
use crate::scans::ends_of;
use crate::seat::{Reply, Seat, never_full};
use crate::wait::until_done;
use crate::{Full, Key, Keys, Later, OpenError, Part, Range, Structure, TryPutError, Value, Values};
use std::fmt;
use std::marker::PhantomData;
use std::num::NonZeroUsize;
use std::ops::{Bound, RangeBounds};
use std::sync::{Arc, MutexGuard};
use std::thread;

/// A map from keys to values that threads share.
///
/// Its size is fixed when it is made: an insert beyond it returns [`Full`]. Keys and values are copied, as numbers of 64 and
/// 128 bits ([`Key`], [`Value`]). A clone is the same map.
///
/// Each call is one moment of the map's history, also among calls of other threads; the methods that make several calls
/// say so. The calls of one thread are in its order: proved of those through one [`pin`](Map::pin), tested of others.
///
/// ```
/// use guttertide::Map;
///
/// let map: Map<u16, f64> = Map::with_capacity(1000)?;
/// assert_eq!(map.insert(5, 0.5)?, None);
/// assert_eq!(map.replace(5, 0.5, 1.5), Ok(()));
/// assert_eq!(map.remove(5), Some(1.5));
/// # Ok::<(), Box<dyn std::error::Error>>(())
/// ```
pub struct Map<K = u64, V = u128> {
    pool: Arc<Pool>,
    pairs: PhantomData<fn(K) -> V>,
}

/// What a [`Map`] is to be, which [`Map::builder`] returns.
///
/// ```
/// use guttertide::{Map, Structure};
///
/// let map: Map<u64, u64> = Map::builder().structure(Structure::GiveUpTree).capacity(10_000).callers(8).open()?;
/// assert!(map.is_empty());
/// # Ok::<(), guttertide::OpenError>(())
/// ```
#[derive(Clone, Debug)]
pub struct Builder<K = u64, V = u128> {
    structure: Structure,
    pairs: usize,
    nodes: Option<u32>,
    callers: usize,
    types: PhantomData<fn(K) -> V>,
}

impl<K: Key, V: Value> Builder<K, V> {
    /// Sets the structure, one that [has scans](Structure::has_scans). It is a [`BLinkTree`](Structure::BLinkTree) if not set.
    ///
    /// ```
    /// use guttertide::{Map, Structure};
    ///
    /// let map: Map = Map::builder().structure(Structure::GiveUpTree).open()?;
    /// # Ok::<(), guttertide::OpenError>(())
    /// ```
    pub fn structure(mut self, structure: Structure) -> Self {
        self.structure = structure;
        self
    }

    /// Sets how many pairs there is to be room for, if their keys are spread. It is 1,000 if not set.
    ///
    /// ```
    /// let map: guttertide::Map = guttertide::Map::builder().capacity(10_000).open()?;
    /// # Ok::<(), guttertide::OpenError>(())
    /// ```
    pub fn capacity(mut self, pairs: usize) -> Self {
        self.pairs = pairs;
        self
    }

    /// Sets the number of nodes ([`NODES`](crate::NODES)), in place of what the capacity needs.
    ///
    /// ```
    /// let map: guttertide::Map = guttertide::Map::builder().nodes(64).open()?;
    /// # Ok::<(), guttertide::OpenError>(())
    /// ```
    pub fn nodes(mut self, nodes: u32) -> Self {
        self.nodes = Some(nodes);
        self
    }

    /// Sets how many calls may be made at a time ([`CALLERS`](crate::CALLERS)): four for each processor if not set. More
    /// threads than that work too, and then wait for one another.
    ///
    /// ```
    /// let map: guttertide::Map = guttertide::Map::builder().callers(2).open()?;
    /// # Ok::<(), guttertide::OpenError>(())
    /// ```
    pub fn callers(mut self, callers: usize) -> Self {
        self.callers = callers;
        self
    }

    /// Opens the map, and takes all memory that it will use, some 660 bytes a node.
    ///
    /// # Errors
    ///
    /// [`OpenError`] if the structure has no scans, a number is out of its range, or memory runs out.
    ///
    /// # Examples
    ///
    /// ```
    /// use guttertide::{Map, OpenError, Structure};
    ///
    /// let refused = Map::<u64, u64>::builder().structure(Structure::BTree).open();
    /// assert_eq!(refused.err(), Some(OpenError::Unfit(Structure::BTree)));
    /// ```
    pub fn open(self) -> Result<Map<K, V>, OpenError> {
        if !self.structure.has_scans() {
            return Err(OpenError::Unfit(self.structure));
        }
        let nodes = self.nodes.unwrap_or_else(|| self.structure.nodes_for(self.pairs, self.callers));
        Ok(Map { pool: Arc::new(Pool::open(self.structure, nodes, self.callers)?), pairs: PhantomData })
    }
}

impl<K: Key, V: Value> Map<K, V> {
    /// Opens an empty map with room for this many pairs, if their keys are spread.
    ///
    /// # Errors
    ///
    /// As of [`Builder::open`].
    ///
    /// # Examples
    ///
    /// ```
    /// let map: guttertide::Map<u64, u64> = guttertide::Map::with_capacity(100)?;
    /// assert!((0..100).all(|key| map.insert(key, key * key) == Ok(None)));
    /// # Ok::<(), guttertide::OpenError>(())
    /// ```
    pub fn with_capacity(pairs: usize) -> Result<Map<K, V>, OpenError> {
        Map::builder().capacity(pairs).open()
    }

    /// Returns what a map is to be, to be changed.
    ///
    /// ```
    /// let map: guttertide::Map = guttertide::Map::builder().nodes(64).open()?;
    /// # Ok::<(), guttertide::OpenError>(())
    /// ```
    pub fn builder() -> Builder<K, V> {
        let processors = thread::available_parallelism().map_or(2, NonZeroUsize::get);
        let callers = (4 * processors).min(1024);
        Builder { structure: Structure::default(), pairs: 1000, nodes: None, callers, types: PhantomData }
    }

    /// Takes a caller of the map for a loop of calls, which need not find one each.
    ///
    /// It is back when the value is dropped. If all callers are out it waits, for ever if this thread has them.
    ///
    /// ```
    /// # let map: guttertide::Map<u64, u64> = guttertide::Map::with_capacity(100)?;
    /// let mut pinned = map.pin();
    /// for key in 0..100 {
    ///     pinned.insert(key, key)?;
    /// }
    /// assert_eq!(pinned.number(), Some(99));
    /// # Ok::<(), Box<dyn std::error::Error>>(())
    /// ```
    pub fn pin(&self) -> Pinned<'_, K, V> {
        Pinned { seat: self.pool.seat(), pairs: PhantomData }
    }

    /// Returns the value of a key.
    ///
    /// ```
    /// # let map: guttertide::Map<u64, u64> = guttertide::Map::with_capacity(100)?;
    /// map.insert(5, 50)?;
    /// assert_eq!((map.get(5), map.get(6)), (Some(50), None));
    /// # Ok::<(), Box<dyn std::error::Error>>(())
    /// ```
    pub fn get(&self, key: K) -> Option<V> {
        self.pin().get(key)
    }

    /// Returns whether a key has a value.
    ///
    /// ```
    /// # let map: guttertide::Map<u64, u64> = guttertide::Map::with_capacity(100)?;
    /// map.insert(5, 50)?;
    /// assert!(map.contains_key(5) && !map.contains_key(6));
    /// # Ok::<(), Box<dyn std::error::Error>>(())
    /// ```
    pub fn contains_key(&self, key: K) -> bool {
        self.get(key).is_some()
    }

    /// Sets the value of a key, and returns the one before.
    ///
    /// # Errors
    ///
    /// [`Full`] if the key has no value and there is no room for it; the map is then as before.
    ///
    /// # Examples
    ///
    /// ```
    /// # let map: guttertide::Map<u64, u64> = guttertide::Map::with_capacity(100)?;
    /// assert_eq!(map.insert(5, 50)?, None);
    /// assert_eq!(map.insert(5, 51)?, Some(50));
    /// # Ok::<(), Box<dyn std::error::Error>>(())
    /// ```
    #[doc(alias = "put")]
    pub fn insert(&self, key: K, value: V) -> Result<Option<V>, Full> {
        self.pin().insert(key, value)
    }

    /// Sets the value of a key that has none. A value that the key has stays, and is returned.
    ///
    /// # Errors
    ///
    /// As of [`insert`](Map::insert).
    ///
    /// # Examples
    ///
    /// ```
    /// # let map: guttertide::Map<u64, u64> = guttertide::Map::with_capacity(100)?;
    /// assert_eq!(map.add(5, 50)?, None);
    /// assert_eq!(map.add(5, 51)?, Some(50));
    /// assert_eq!(map.get(5), Some(50));
    /// # Ok::<(), Box<dyn std::error::Error>>(())
    /// ```
    #[doc(alias = "try_insert")]
    pub fn add(&self, key: K, value: V) -> Result<Option<V>, Full> {
        self.pin().add(key, value)
    }

    /// Returns the value of a key, which is set to this one if it has none.
    ///
    /// # Errors
    ///
    /// As of [`insert`](Map::insert).
    ///
    /// # Examples
    ///
    /// ```
    /// # let map: guttertide::Map<u64, u64> = guttertide::Map::with_capacity(100)?;
    /// assert_eq!(map.get_or_insert(5, 50)?, 50);
    /// assert_eq!(map.get_or_insert(5, 51)?, 50);
    /// # Ok::<(), Box<dyn std::error::Error>>(())
    /// ```
    pub fn get_or_insert(&self, key: K, value: V) -> Result<V, Full> {
        Ok(self.add(key, value)?.unwrap_or(value))
    }

    /// Sets the value of a key to `after` if and only if it is `before`.
    ///
    /// # Errors
    ///
    /// The value that the key had, if any, if that is not `before`.
    ///
    /// # Examples
    ///
    /// ```
    /// # let map: guttertide::Map<u64, u64> = guttertide::Map::with_capacity(100)?;
    /// map.insert(5, 50)?;
    /// assert_eq!(map.replace(5, 50, 51), Ok(()));
    /// assert_eq!(map.replace(5, 50, 52), Err(Some(51)));
    /// assert_eq!(map.replace(6, 50, 52), Err(None));
    /// # Ok::<(), Box<dyn std::error::Error>>(())
    /// ```
    #[doc(alias = "swap")]
    #[doc(alias = "compare_exchange")]
    pub fn replace(&self, key: K, before: V, after: V) -> Result<(), Option<V>> {
        self.pin().replace(key, before, after)
    }

    /// Removes a key, and returns its value.
    ///
    /// ```
    /// # let map: guttertide::Map<u64, u64> = guttertide::Map::with_capacity(100)?;
    /// map.insert(5, 50)?;
    /// assert_eq!((map.remove(5), map.remove(5)), (Some(50), None));
    /// # Ok::<(), Box<dyn std::error::Error>>(())
    /// ```
    #[doc(alias = "del")]
    pub fn remove(&self, key: K) -> Option<V> {
        self.pin().remove(key)
    }

    /// Sets the value of a key that has one to what the function makes of it, and returns the one before.
    ///
    /// The value is set only if it is still the one that the function got; else the function is called again, with the new
    /// one. No caller of the map is taken while it runs.
    ///
    /// ```
    /// # let map: guttertide::Map<u64, u64> = guttertide::Map::with_capacity(100)?;
    /// map.insert(5, 50)?;
    /// assert_eq!(map.update(5, |value| value + 1), Some(50));
    /// assert_eq!((map.get(5), map.update(6, |value| value + 1)), (Some(51), None));
    /// # Ok::<(), Box<dyn std::error::Error>>(())
    /// ```
    pub fn update(&self, key: K, mut function: impl FnMut(V) -> V) -> Option<V> {
        let mut before = self.get(key)?;
        loop {
            match self.replace(key, before, function(before)) {
                Ok(()) => return Some(before),
                Err(found) => before = found?,
            }
        }
    }

    /// Returns the pairs of a span of keys, in ascending order. A span without keys has none.
    ///
    /// ```
    /// # let map: guttertide::Map<i32, u64> = guttertide::Map::with_capacity(100)?;
    /// for key in -3..3 {
    ///     map.insert(key, 7)?;
    /// }
    /// assert_eq!(map.range(..-1).collect::<Vec<_>>(), [(-3, 7), (-2, 7)]);
    /// assert_eq!(map.range(1..=9).count(), 2);
    /// assert_eq!(map.range(1..1).count(), 0);
    /// # Ok::<(), Box<dyn std::error::Error>>(())
    /// ```
    #[doc(alias = "scan")]
    pub fn range(&self, keys: impl RangeBounds<K>) -> Range<'_, K, V> {
        let code = |bound: Bound<&K>| bound.map(|&key| key.encode());
        Range::new(self, ends_of(&(code(keys.start_bound()), code(keys.end_bound()))))
    }

    /// Returns all pairs, in ascending order of their keys.
    ///
    /// ```
    /// # let map: guttertide::Map<char, u8> = guttertide::Map::with_capacity(100)?;
    /// map.insert('b', 2)?;
    /// map.insert('a', 1)?;
    /// assert_eq!(map.iter().collect::<Vec<_>>(), [('a', 1), ('b', 2)]);
    /// # Ok::<(), Box<dyn std::error::Error>>(())
    /// ```
    pub fn iter(&self) -> Range<'_, K, V> {
        self.range(..)
    }

    /// Returns all keys, in ascending order.
    ///
    /// ```
    /// # let map: guttertide::Map<char, u8> = guttertide::Map::with_capacity(100)?;
    /// map.insert('b', 2)?;
    /// map.insert('a', 1)?;
    /// assert_eq!(map.keys().collect::<String>(), "ab");
    /// # Ok::<(), Box<dyn std::error::Error>>(())
    /// ```
    pub fn keys(&self) -> Keys<'_, K, V> {
        Keys(self.iter())
    }

    /// Returns all values, in ascending order of their keys.
    ///
    /// ```
    /// # let map: guttertide::Map<char, u8> = guttertide::Map::with_capacity(100)?;
    /// map.insert('b', 2)?;
    /// map.insert('a', 1)?;
    /// assert_eq!(map.values().collect::<Vec<_>>(), [1, 2]);
    /// # Ok::<(), Box<dyn std::error::Error>>(())
    /// ```
    pub fn values(&self) -> Values<'_, K, V> {
        Values(self.iter())
    }

    /// Returns the first pair of the [range](Map::range) of all keys.
    ///
    /// ```
    /// # let map: guttertide::Map<u64, u64> = guttertide::Map::with_capacity(100)?;
    /// map.insert(7, 70)?;
    /// map.insert(5, 50)?;
    /// assert_eq!(map.first_key_value(), Some((5, 50)));
    /// # Ok::<(), Box<dyn std::error::Error>>(())
    /// ```
    pub fn first_key_value(&self) -> Option<(K, V)> {
        self.iter().next()
    }

    /// Returns the last pair of the [range](Map::range) of all keys. It lists them all.
    ///
    /// ```
    /// # let map: guttertide::Map<u64, u64> = guttertide::Map::with_capacity(100)?;
    /// map.insert(7, 70)?;
    /// map.insert(5, 50)?;
    /// assert_eq!(map.last_key_value(), Some((7, 70)));
    /// # Ok::<(), Box<dyn std::error::Error>>(())
    /// ```
    pub fn last_key_value(&self) -> Option<(K, V)> {
        self.iter().last()
    }

    /// Removes the first key, and returns it with its value.
    ///
    /// The key was the first one when it was found. Another thread may have set a lesser one since.
    ///
    /// ```
    /// # let map: guttertide::Map<u64, u64> = guttertide::Map::with_capacity(100)?;
    /// map.insert(7, 70)?;
    /// map.insert(5, 50)?;
    /// assert_eq!((map.pop_first(), map.pop_first(), map.pop_first()), (Some((5, 50)), Some((7, 70)), None));
    /// # Ok::<(), Box<dyn std::error::Error>>(())
    /// ```
    pub fn pop_first(&self) -> Option<(K, V)> {
        loop {
            let (key, _) = self.first_key_value()?;
            if let Some(value) = self.remove(key) {
                return Some((key, value));
            }
        }
    }

    /// Returns how many pairs the [range](Map::range) of all keys lists, each part at its own moment.
    ///
    /// ```
    /// # let map: guttertide::Map<u64, u64> = guttertide::Map::with_capacity(100)?;
    /// map.insert(5, 50)?;
    /// assert_eq!(map.count(), 1);
    /// # Ok::<(), Box<dyn std::error::Error>>(())
    /// ```
    #[doc(alias = "len")]
    pub fn count(&self) -> usize {
        self.keys().count()
    }

    /// Returns whether the [range](Map::range) of all keys lists none.
    ///
    /// ```
    /// # let map: guttertide::Map<u64, u64> = guttertide::Map::with_capacity(100)?;
    /// assert!(map.is_empty());
    /// # Ok::<(), Box<dyn std::error::Error>>(())
    /// ```
    pub fn is_empty(&self) -> bool {
        self.first_key_value().is_none()
    }

    /// Removes the keys of all pairs of which the function says false, in ascending order.
    ///
    /// A key is removed with the value that it has then, which another thread may have set since the function was asked.
    ///
    /// ```
    /// # let map: guttertide::Map<u64, u64> = guttertide::Map::with_capacity(100)?;
    /// map.try_extend((0..10).map(|key| (key, key)))?;
    /// map.retain(|key, _| key % 4 == 0);
    /// assert!(map.keys().eq([0, 4, 8]));
    /// # Ok::<(), Box<dyn std::error::Error>>(())
    /// ```
    pub fn retain(&self, mut keep: impl FnMut(K, V) -> bool) {
        for (key, value) in self {
            if !keep(key, value) {
                self.remove(key);
            }
        }
    }

    /// Removes all keys that the [range](Map::range) of all keys lists.
    ///
    /// ```
    /// # let map: guttertide::Map<u64, u64> = guttertide::Map::with_capacity(100)?;
    /// map.insert(5, 50)?;
    /// map.clear();
    /// assert!(map.is_empty());
    /// # Ok::<(), Box<dyn std::error::Error>>(())
    /// ```
    pub fn clear(&self) {
        self.retain(|_, _| false);
    }

    /// Inserts all pairs, one after another.
    ///
    /// # Errors
    ///
    /// [`Full`] at the first pair that there is no room for. Those before it are in the map.
    ///
    /// # Examples
    ///
    /// ```
    /// # let map: guttertide::Map<u64, u64> = guttertide::Map::with_capacity(100)?;
    /// map.try_extend([(5, 50), (7, 70)])?;
    /// assert_eq!(map.count(), 2);
    /// # Ok::<(), Box<dyn std::error::Error>>(())
    /// ```
    pub fn try_extend(&self, pairs: impl IntoIterator<Item = (K, V)>) -> Result<(), Full> {
        pairs.into_iter().try_for_each(|(key, value)| self.insert(key, value).map(drop))
    }

    /// One part of the pairs from `low` to `last`, both included.
    pub(crate) fn part(&self, low: u64, last: u64) -> Part {
        let mut seat = self.pool.seat();
        until_done(|| seat.try_part(low, last))
    }
}

/// One caller of a [`Map`], which [`Map::pin`] returns.
///
/// Its calls are those of the map; their order in the history is that in which they are made, which is proved.
///
/// ```
/// use guttertide::{Full, Map, Pinned};
///
/// fn fill(mut pinned: Pinned<'_, u64, u64>) -> Result<(), Full> {
///     (0..100).try_for_each(|key| pinned.insert(key, 7).map(drop))
/// }
///
/// let map = Map::with_capacity(100)?;
/// fill(map.pin())?;
/// assert_eq!(map.count(), 100);
/// # Ok::<(), Box<dyn std::error::Error>>(())
/// ```
pub struct Pinned<'a, K = u64, V = u128> {
    seat: MutexGuard<'a, Seat>,
    pairs: PhantomData<fn(K) -> V>,
}

impl<K: Key, V: Value> Pinned<'_, K, V> {
    /// As [`Map::get`].
    ///
    /// ```
    /// # let map: guttertide::Map<u64, u64> = guttertide::Map::with_capacity(100)?;
    /// let mut pinned = map.pin();
    /// assert_eq!(pinned.get(5), None);
    /// # Ok::<(), Box<dyn std::error::Error>>(())
    /// ```
    pub fn get(&mut self, key: K) -> Option<V> {
        value_in(self.seat.wait(Call::Get { key: key.encode() }))
    }

    /// As [`Map::insert`].
    ///
    /// # Errors
    ///
    /// As there.
    ///
    /// # Examples
    ///
    /// ```
    /// # let map: guttertide::Map<u64, u64> = guttertide::Map::with_capacity(100)?;
    /// let mut pinned = map.pin();
    /// assert_eq!(pinned.insert(5, 50)?, None);
    /// # Ok::<(), Box<dyn std::error::Error>>(())
    /// ```
    pub fn insert(&mut self, key: K, value: V) -> Result<Option<V>, Full> {
        decoded(self.seat.wait(put(key, value)))
    }

    /// As [`Map::add`].
    ///
    /// # Errors
    ///
    /// As there.
    ///
    /// # Examples
    ///
    /// ```
    /// # let map: guttertide::Map<u64, u64> = guttertide::Map::with_capacity(100)?;
    /// let mut pinned = map.pin();
    /// assert_eq!((pinned.add(5, 50)?, pinned.add(5, 51)?), (None, Some(50)));
    /// # Ok::<(), Box<dyn std::error::Error>>(())
    /// ```
    pub fn add(&mut self, key: K, value: V) -> Result<Option<V>, Full> {
        decoded(self.seat.wait(add(key, value)))
    }

    /// As [`Map::replace`].
    ///
    /// # Errors
    ///
    /// As there.
    ///
    /// # Examples
    ///
    /// ```
    /// # let map: guttertide::Map<u64, u64> = guttertide::Map::with_capacity(100)?;
    /// let mut pinned = map.pin();
    /// pinned.insert(5, 50)?;
    /// assert_eq!((pinned.replace(5, 50, 51), pinned.replace(5, 50, 52)), (Ok(()), Err(Some(51))));
    /// # Ok::<(), Box<dyn std::error::Error>>(())
    /// ```
    pub fn replace(&mut self, key: K, before: V, after: V) -> Result<(), Option<V>> {
        let found = never_full(self.seat.wait(swap(key, before, after)));
        replaced(found, before)
    }

    /// As [`Map::remove`].
    ///
    /// ```
    /// # let map: guttertide::Map<u64, u64> = guttertide::Map::with_capacity(100)?;
    /// let mut pinned = map.pin();
    /// pinned.insert(5, 50)?;
    /// assert_eq!(pinned.remove(5), Some(50));
    /// # Ok::<(), Box<dyn std::error::Error>>(())
    /// ```
    pub fn remove(&mut self, key: K) -> Option<V> {
        value_in(self.seat.wait(Call::Del { key: key.encode() }))
    }

    /// As [`Map::get`], without waiting.
    ///
    /// # Errors
    ///
    /// [`Later`] if another caller was in the way.
    ///
    /// # Examples
    ///
    /// ```
    /// # let map: guttertide::Map<u64, u64> = guttertide::Map::with_capacity(100)?;
    /// match map.pin().try_get(5) {
    ///     Ok(Some(value)) => println!("the key has {value}"),
    ///     Ok(None) => println!("the key has no value"),
    ///     Err(later) => println!("not now: {later}"),
    /// }
    /// # Ok::<(), guttertide::OpenError>(())
    /// ```
    pub fn try_get(&mut self, key: K) -> Result<Option<V>, Later> {
        self.seat.attempt(Call::Get { key: key.encode() }).map(value_in)
    }

    /// As [`Map::insert`], without waiting.
    ///
    /// # Errors
    ///
    /// [`TryPutError::Later`] if another caller was in the way, and [`TryPutError::Full`] as of [`Map::insert`].
    ///
    /// # Examples
    ///
    /// ```
    /// # let map: guttertide::Map<u64, u64> = guttertide::Map::with_capacity(100)?;
    /// let mut pinned = map.pin();
    /// match pinned.try_insert(5, 50) {
    ///     Ok(before) => println!("it had {before:?}"),
    ///     Err(error) => println!("not set: {error}"),
    /// }
    /// # Ok::<(), Box<dyn std::error::Error>>(())
    /// ```
    pub fn try_insert(&mut self, key: K, value: V) -> Result<Option<V>, TryPutError> {
        Ok(decoded(self.seat.attempt(put(key, value))?)?)
    }

    /// As [`Map::add`], without waiting.
    ///
    /// # Errors
    ///
    /// As of [`try_insert`](Pinned::try_insert).
    ///
    /// # Examples
    ///
    /// ```
    /// # let map: guttertide::Map<u64, u64> = guttertide::Map::builder().callers(1).open()?;
    /// let mut pinned = map.pin();
    /// assert!(pinned.try_add(5, 50).is_ok(), "there is no other caller");
    /// # Ok::<(), Box<dyn std::error::Error>>(())
    /// ```
    pub fn try_add(&mut self, key: K, value: V) -> Result<Option<V>, TryPutError> {
        Ok(decoded(self.seat.attempt(add(key, value))?)?)
    }

    /// As [`Map::replace`], without waiting; inside, as there, whether it was replaced.
    ///
    /// # Errors
    ///
    /// [`Later`] if another caller was in the way.
    ///
    /// # Examples
    ///
    /// ```
    /// # let map: guttertide::Map<u64, u64> = guttertide::Map::builder().callers(1).open()?;
    /// let mut pinned = map.pin();
    /// pinned.insert(5, 50)?;
    /// assert_eq!(pinned.try_replace(5, 50, 51)?, Ok(()));
    /// # Ok::<(), Box<dyn std::error::Error>>(())
    /// ```
    pub fn try_replace(&mut self, key: K, before: V, after: V) -> Result<Result<(), Option<V>>, Later> {
        let found = never_full(self.seat.attempt(swap(key, before, after))?);
        Ok(replaced(found, before))
    }

    /// As [`Map::remove`], without waiting.
    ///
    /// # Errors
    ///
    /// [`Later`] if another caller was in the way.
    ///
    /// # Examples
    ///
    /// ```
    /// # let map: guttertide::Map<u64, u64> = guttertide::Map::builder().callers(1).open()?;
    /// let mut pinned = map.pin();
    /// pinned.insert(5, 50)?;
    /// assert_eq!(pinned.try_remove(5)?, Some(50));
    /// # Ok::<(), Box<dyn std::error::Error>>(())
    /// ```
    pub fn try_remove(&mut self, key: K) -> Result<Option<V>, Later> {
        self.seat.attempt(Call::Del { key: key.encode() }).map(value_in)
    }

    /// Returns the number of the last call of this caller of the map, before or after it was pinned: how many calls are
    /// before that one in the history. `None` if it has made none.
    ///
    /// ```
    /// # let map: guttertide::Map<u64, u64> = guttertide::Map::builder().callers(1).open()?;
    /// map.insert(5, 50)?;
    /// assert_eq!(map.pin().number(), Some(0));
    /// # Ok::<(), Box<dyn std::error::Error>>(())
    /// ```
    pub fn number(&self) -> Option<u64> {
        self.seat.number()
    }
}

fn put<K: Key, V: Value>(key: K, value: V) -> Call {
    Call::Put { key: key.encode(), value: value.encode() }
}

fn add<K: Key, V: Value>(key: K, value: V) -> Call {
    Call::Add { key: key.encode(), value: value.encode() }
}

fn swap<K: Key, V: Value>(key: K, before: V, after: V) -> Call {
    Call::Swap { key: key.encode(), before: before.encode(), after: after.encode() }
}

fn decoded<V: Value>(reply: Reply) -> Result<Option<V>, Full> {
    Ok(reply?.map(V::decode))
}

fn value_in<V: Value>(reply: Reply) -> Option<V> {
    never_full(reply).map(V::decode)
}

/// Whether a value was replaced, by what the key had.
fn replaced<V: Value>(found: Option<u128>, before: V) -> Result<(), Option<V>> {
    match found {
        Some(code) if code == before.encode() => Ok(()),
        found => Err(found.map(V::decode)),
    }
}

impl<K, V> Clone for Map<K, V> {
    fn clone(&self) -> Self {
        Map { pool: Arc::clone(&self.pool), pairs: PhantomData }
    }
}

impl<K: Key + fmt::Debug, V: Value + fmt::Debug> fmt::Debug for Map<K, V> {
    fn fmt(&self, f: &mut fmt::Formatter<'_>) -> fmt::Result {
        f.debug_map().entries(self).finish()
    }
}

impl<K, V> fmt::Debug for Pinned<'_, K, V> {
    fn fmt(&self, f: &mut fmt::Formatter<'_>) -> fmt::Result {
        f.debug_struct("Pinned").field("number", &self.seat.number()).finish_non_exhaustive()
    }
}

impl<'a, K: Key, V: Value> IntoIterator for &'a Map<K, V> {
    type Item = (K, V);
    type IntoIter = Range<'a, K, V>;

    fn into_iter(self) -> Range<'a, K, V> {
        self.iter()
    }
}

/// Panics if there is no room for a pair: see [`Map::try_extend`].
impl<K: Key, V: Value> Extend<(K, V)> for Map<K, V> {
    fn extend<I: IntoIterator<Item = (K, V)>>(&mut self, pairs: I) {
        self.try_extend(pairs).expect("the map has room for all pairs");
    }
}

/// Makes room for twice the pairs. Panics if memory runs out, or there are more pairs than a map has room for.
impl<K: Key, V: Value> FromIterator<(K, V)> for Map<K, V> {
    fn from_iter<I: IntoIterator<Item = (K, V)>>(pairs: I) -> Self {
        let pairs: Vec<(K, V)> = pairs.into_iter().collect();
        let mut map = Map::with_capacity(2 * pairs.len()).expect("there is memory for the map");
        map.extend(pairs);
        map
    }
}
