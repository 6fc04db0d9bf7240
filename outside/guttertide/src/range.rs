//! The pairs of a map in the order of their keys.

use crate::scans::rest_after;
use crate::{Key, Map, Part, Value};
use std::fmt;
use std::iter::FusedIterator;

/// The pairs of a span of keys in ascending order, which [`Map::range`] and [`Map::iter`] return.
///
/// It lists the map part by part, at most 16 pairs each, and each part as the map is at one moment. Between two parts it has no
/// lock, so a loop over it may call the map, and other threads may change it: a key that has a value all the while is
/// listed, with a value that it had meanwhile; one that has none all the while is not.
///
/// ```
/// # let map: guttertide::Map<u64, u64> = guttertide::Map::with_capacity(100)?;
/// map.try_extend([(5, 50), (7, 70)])?;
/// for (key, value) in map.range(6..) {
///     map.replace(key, value, value + 1).expect("no other thread is here");
/// }
/// assert!(map.iter().eq([(5, 50), (7, 71)]));
/// # Ok::<(), Box<dyn std::error::Error>>(())
/// ```
#[derive(Clone)]
pub struct Range<'a, K, V> {
    map: &'a Map<K, V>,
    /// What is still to be listed: from the first key to the last, both included.
    rest: Option<(u64, u64)>,
    part: Option<Part>,
    at: usize,
}

impl<'a, K: Key, V: Value> Range<'a, K, V> {
    pub(crate) fn new(map: &'a Map<K, V>, span: Option<(u64, u64)>) -> Range<'a, K, V> {
        Range { map, rest: span, part: None, at: 0 }
    }

    /// The rest of the part that is listed now, and then the next part.
    fn next_pair(&mut self) -> Option<(u64, u128)> {
        loop {
            if let Some(pair) = self.part.as_ref().and_then(|part| part.pair(self.at)) {
                self.at += 1;
                return Some(pair);
            }
            let (low, last) = self.rest?;
            let part = self.map.part(low, last);
            self.rest = rest_after(&part, last);
            (self.part, self.at) = (Some(part), 0);
        }
    }
}

impl<K: Key, V: Value> Iterator for Range<'_, K, V> {
    type Item = (K, V);

    fn next(&mut self) -> Option<(K, V)> {
        self.next_pair().map(|(key, value)| (K::decode(key), V::decode(value)))
    }
}

impl<K: Key, V: Value> FusedIterator for Range<'_, K, V> {}

/// The keys of a map in ascending order, which [`Map::keys`] returns. See [`Range`].
///
/// ```
/// # let map: guttertide::Map<u64, u64> = guttertide::Map::with_capacity(100)?;
/// map.try_extend([(7, 70), (5, 50)])?;
/// assert_eq!(map.keys().max(), Some(7));
/// # Ok::<(), Box<dyn std::error::Error>>(())
/// ```
#[derive(Clone)]
pub struct Keys<'a, K, V>(pub(crate) Range<'a, K, V>);

impl<K: Key, V: Value> Iterator for Keys<'_, K, V> {
    type Item = K;

    fn next(&mut self) -> Option<K> {
        self.0.next_pair().map(|(key, _)| K::decode(key))
    }
}

impl<K: Key, V: Value> FusedIterator for Keys<'_, K, V> {}

/// The values of a map in the order of their keys, which [`Map::values`] returns. See [`Range`].
///
/// ```
/// # let map: guttertide::Map<u64, u64> = guttertide::Map::with_capacity(100)?;
/// map.try_extend([(7, 70), (5, 50)])?;
/// assert_eq!(map.values().sum::<u64>(), 120);
/// # Ok::<(), Box<dyn std::error::Error>>(())
/// ```
#[derive(Clone)]
pub struct Values<'a, K, V>(pub(crate) Range<'a, K, V>);

impl<K: Key, V: Value> Iterator for Values<'_, K, V> {
    type Item = V;

    fn next(&mut self) -> Option<V> {
        self.0.next_pair().map(|(_, value)| V::decode(value))
    }
}

impl<K: Key, V: Value> FusedIterator for Values<'_, K, V> {}

impl<K, V> fmt::Debug for Range<'_, K, V> {
    fn fmt(&self, f: &mut fmt::Formatter<'_>) -> fmt::Result {
        f.debug_struct("Range").field("rest", &self.rest).finish_non_exhaustive()
    }
}

impl<K, V> fmt::Debug for Keys<'_, K, V> {
    fn fmt(&self, f: &mut fmt::Formatter<'_>) -> fmt::Result {
        f.debug_tuple("Keys").field(&self.0).finish()
    }
}

impl<K, V> fmt::Debug for Values<'_, K, V> {
    fn fmt(&self, f: &mut fmt::Formatter<'_>) -> fmt::Result {
        f.debug_tuple("Values").field(&self.0).finish()
    }
}
