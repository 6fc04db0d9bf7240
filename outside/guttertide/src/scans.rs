//! Scans: the pairs of a span of keys in ascending order, part by part.

use crate::raw::{GUTTERTIDE_PART, guttertide_pair};
use crate::seat::whole;
use crate::wait::until_done;
use crate::{Caller, Later, Unfit};
use std::iter::FusedIterator;
use std::ops::{Bound, RangeBounds, RangeInclusive};

/// One part of a scan: the pairs that the map had from its first key to its last, all at one moment.
///
/// ```
/// # let dictionary = guttertide::Dictionary::open(64, 1)?;
/// # let mut caller = dictionary.caller().expect("it has one");
/// caller.put(5, 50)?;
/// for part in caller.parts(..)? {
///     println!("call {}: {} pairs from key {}", part.number(), part.pairs().len(), part.keys().start());
/// }
/// # Ok::<(), Box<dyn std::error::Error>>(())
/// ```
#[derive(Clone, Debug)]
pub struct Part {
    number: u64,
    keys: RangeInclusive<u64>,
    pairs: [guttertide_pair; GUTTERTIDE_PART],
    count: usize,
}

impl Part {
    pub(crate) fn new(
        number: u64,
        keys: RangeInclusive<u64>,
        pairs: [guttertide_pair; GUTTERTIDE_PART],
        count: usize,
    ) -> Part {
        Part { number, keys, pairs, count }
    }

    /// Returns the [number](Caller::number) of the call.
    ///
    /// ```
    /// # let dictionary = guttertide::Dictionary::open(64, 1)?;
    /// # let mut caller = dictionary.caller().expect("it has one");
    /// caller.put(5, 50)?;
    /// let part = caller.parts(..)?.next().expect("a span has a part");
    /// assert_eq!((part.number(), caller.number()), (1, Some(1)));
    /// # Ok::<(), Box<dyn std::error::Error>>(())
    /// ```
    pub fn number(&self) -> u64 {
        self.number
    }

    /// Returns the span of keys that the part covers, with and without a value.
    ///
    /// ```
    /// # let dictionary = guttertide::Dictionary::open(64, 1)?;
    /// # let mut caller = dictionary.caller().expect("it has one");
    /// let part = caller.parts(3..9)?.next().expect("a span has a part");
    /// assert_eq!(part.keys(), 3..=8);
    /// # Ok::<(), Box<dyn std::error::Error>>(())
    /// ```
    pub fn keys(&self) -> RangeInclusive<u64> {
        self.keys.clone()
    }

    /// Returns the pairs, at most 16, in ascending order of their keys.
    ///
    /// ```
    /// # let dictionary = guttertide::Dictionary::open(64, 1)?;
    /// # let mut caller = dictionary.caller().expect("it has one");
    /// caller.put(5, 50)?;
    /// let part = caller.parts(..=5)?.next().expect("a span has a part");
    /// assert_eq!(part.pairs().next_back(), Some((5, 50)));
    /// # Ok::<(), Box<dyn std::error::Error>>(())
    /// ```
    pub fn pairs(&self) -> impl DoubleEndedIterator<Item = (u64, u128)> + ExactSizeIterator + '_ {
        self.pairs[..self.count].iter().map(pair_of)
    }

    /// The pair at an index.
    pub(crate) fn pair(&self, at: usize) -> Option<(u64, u128)> {
        self.pairs[..self.count].get(at).map(pair_of)
    }
}

fn pair_of(pair: &guttertide_pair) -> (u64, u128) {
    (pair.key, whole(pair.value))
}

/// The parts of a scan, in ascending order, which [`Caller::parts`] returns.
///
/// Each part begins right after the keys that the one before it covers. Calls of other callers may come between two parts, so
/// the whole scan is no snapshot.
///
/// ```
/// # let dictionary = guttertide::Dictionary::open(64, 1)?;
/// # let mut caller = dictionary.caller().expect("it has one");
/// for key in 0..100 {
///     caller.put(key, 7)?;
/// }
/// let most = caller.parts(..)?.map(|part| part.pairs().len()).max();
/// assert!(most <= Some(16));
/// # Ok::<(), Box<dyn std::error::Error>>(())
/// ```
#[derive(Debug)]
pub struct Parts<'a> {
    caller: &'a mut Caller,
    /// What is still to be listed: from the first key to the last, both included.
    rest: Option<(u64, u64)>,
}

impl Parts<'_> {
    /// Returns the next part without waiting, or `None` after the last.
    ///
    /// # Errors
    ///
    /// [`Later`] if another caller was in the way: the part may be asked for again.
    ///
    /// # Examples
    ///
    /// ```
    /// # let dictionary = guttertide::Dictionary::open(64, 1).unwrap();
    /// # let mut caller = dictionary.caller().unwrap();
    /// # caller.put(5, 50).unwrap();
    /// let mut parts = caller.parts(..)?;
    /// match parts.try_next() {
    ///     Ok(Some(part)) => println!("{} pairs", part.pairs().len()),
    ///     Ok(None) => println!("all is listed"),
    ///     Err(later) => println!("not now: {later}"),
    /// }
    /// # Ok::<(), guttertide::Unfit>(())
    /// ```
    pub fn try_next(&mut self) -> Result<Option<Part>, Later> {
        let Some((low, last)) = self.rest else { return Ok(None) };
        let part = self.caller.seat.try_part(low, last)?;
        self.rest = rest_after(&part, last);
        Ok(Some(part))
    }
}

impl Iterator for Parts<'_> {
    type Item = Part;

    fn next(&mut self) -> Option<Part> {
        until_done(|| self.try_next())
    }
}

impl FusedIterator for Parts<'_> {}

/// The pairs of a scan, in ascending order of their keys, which [`Caller::scan`] returns.
///
/// ```
/// # let dictionary = guttertide::Dictionary::open(64, 1)?;
/// # let mut caller = dictionary.caller().expect("it has one");
/// caller.put(5, 50)?;
/// for (key, value) in caller.scan(..)? {
///     println!("{key} has {value}");
/// }
/// # Ok::<(), Box<dyn std::error::Error>>(())
/// ```
#[derive(Debug)]
pub struct Scan<'a> {
    parts: Parts<'a>,
    part: Option<Part>,
    at: usize,
}

impl Iterator for Scan<'_> {
    type Item = (u64, u128);

    fn next(&mut self) -> Option<(u64, u128)> {
        loop {
            if let Some(pair) = self.part.as_ref().and_then(|part| part.pair(self.at)) {
                self.at += 1;
                return Some(pair);
            }
            self.part = Some(self.parts.next()?);
            self.at = 0;
        }
    }
}

impl FusedIterator for Scan<'_> {}

/// Scans. Trees along links and by giving up have them: see [`Structure::has_scans`](crate::Structure::has_scans).
impl Caller {
    /// Returns the pairs of a span of keys, in ascending order.
    ///
    /// It lists the next of the [`parts`](Caller::parts) when a pair of it is asked for. So a key that has a value all the
    /// while is listed, with a value that it had meanwhile; one that has none all the while is not.
    ///
    /// # Errors
    ///
    /// [`Unfit`] if the structure has no scans.
    ///
    /// # Examples
    ///
    /// ```
    /// let dictionary = guttertide::Dictionary::open(64, 1)?;
    /// let mut caller = dictionary.caller().expect("it has one");
    /// for key in 0..100 {
    ///     caller.put(key * 3, key.into())?;
    /// }
    /// let pairs: Vec<(u64, u128)> = caller.scan(10..20)?.collect();
    /// assert_eq!(pairs, [(12, 4), (15, 5), (18, 6)]);
    /// assert_eq!(caller.scan(..)?.count(), 100);
    /// # Ok::<(), Box<dyn std::error::Error>>(())
    /// ```
    pub fn scan(&mut self, keys: impl RangeBounds<u64>) -> Result<Scan<'_>, Unfit> {
        Ok(Scan { parts: self.parts(keys)?, part: None, at: 0 })
    }

    /// Returns the parts of a scan of a span of keys, in ascending order.
    ///
    /// Each part is one call of the history, with a [number](Part::number) of its own. It has just the pairs that the map has
    /// then at the [keys](Part::keys) that it covers.
    ///
    /// # Errors
    ///
    /// [`Unfit`] if the structure has no scans.
    ///
    /// # Examples
    ///
    /// ```
    /// # let dictionary = guttertide::Dictionary::open(64, 1)?;
    /// # let mut caller = dictionary.caller().expect("it has one");
    /// caller.put(5, 50)?;
    /// let mut parts = caller.parts(..=9)?;
    /// let part = parts.next().expect("a span has a part");
    /// assert_eq!(part.pairs().collect::<Vec<_>>(), [(5, 50)]);
    /// assert_eq!((part.keys(), part.number()), (0..=9, 1));
    /// assert!(parts.next().is_none());
    /// # Ok::<(), Box<dyn std::error::Error>>(())
    /// ```
    pub fn parts(&mut self, keys: impl RangeBounds<u64>) -> Result<Parts<'_>, Unfit> {
        match self.free.structure.has_scans() {
            true => Ok(Parts { caller: self, rest: ends_of(&keys) }),
            false => Err(Unfit),
        }
    }

    /// Returns the first pair that a scan of a span lists, or `None` if it lists none.
    ///
    /// # Errors
    ///
    /// [`Unfit`] if the structure has no scans.
    ///
    /// # Examples
    ///
    /// ```
    /// # let dictionary = guttertide::Dictionary::open(64, 1)?;
    /// # let mut caller = dictionary.caller().expect("it has one");
    /// caller.put(5, 50)?;
    /// caller.put(7, 70)?;
    /// assert_eq!(caller.first(..)?, Some((5, 50)));
    /// assert_eq!(caller.first(6..)?, Some((7, 70)));
    /// # Ok::<(), Box<dyn std::error::Error>>(())
    /// ```
    pub fn first(&mut self, keys: impl RangeBounds<u64>) -> Result<Option<(u64, u128)>, Unfit> {
        Ok(self.scan(keys)?.next())
    }

    /// Returns the last pair that a scan of a span lists, or `None` if it lists none.
    ///
    /// It lists the whole span, from the least key on.
    ///
    /// # Errors
    ///
    /// [`Unfit`] if the structure has no scans.
    ///
    /// # Examples
    ///
    /// ```
    /// # let dictionary = guttertide::Dictionary::open(64, 1)?;
    /// # let mut caller = dictionary.caller().expect("it has one");
    /// caller.put(5, 50)?;
    /// caller.put(7, 70)?;
    /// assert_eq!(caller.last(..)?, Some((7, 70)));
    /// assert_eq!(caller.last(..7)?, Some((5, 50)));
    /// # Ok::<(), Box<dyn std::error::Error>>(())
    /// ```
    pub fn last(&mut self, keys: impl RangeBounds<u64>) -> Result<Option<(u64, u128)>, Unfit> {
        Ok(self.scan(keys)?.last())
    }

    /// Returns the first pair that a scan of the keys above a key lists, or `None` if it lists none.
    ///
    /// # Errors
    ///
    /// [`Unfit`] if the structure has no scans.
    ///
    /// # Examples
    ///
    /// ```
    /// # let dictionary = guttertide::Dictionary::open(64, 1)?;
    /// # let mut caller = dictionary.caller().expect("it has one");
    /// caller.put(5, 50)?;
    /// caller.put(7, 70)?;
    /// assert_eq!(caller.next_after(5)?, Some((7, 70)));
    /// assert_eq!(caller.next_after(7)?, None);
    /// # Ok::<(), Box<dyn std::error::Error>>(())
    /// ```
    pub fn next_after(&mut self, key: u64) -> Result<Option<(u64, u128)>, Unfit> {
        self.first((Bound::Excluded(key), Bound::Unbounded))
    }

    /// Returns the last pair that a scan of the keys below a key lists, or `None` if it lists none.
    ///
    /// It lists all keys below, from the least on.
    ///
    /// # Errors
    ///
    /// [`Unfit`] if the structure has no scans.
    ///
    /// # Examples
    ///
    /// ```
    /// # let dictionary = guttertide::Dictionary::open(64, 1)?;
    /// # let mut caller = dictionary.caller().expect("it has one");
    /// caller.put(5, 50)?;
    /// caller.put(7, 70)?;
    /// assert_eq!(caller.next_before(7)?, Some((5, 50)));
    /// assert_eq!(caller.next_before(5)?, None);
    /// # Ok::<(), Box<dyn std::error::Error>>(())
    /// ```
    pub fn next_before(&mut self, key: u64) -> Result<Option<(u64, u128)>, Unfit> {
        self.last(..key)
    }

    /// Returns how many pairs a scan of a span lists.
    ///
    /// Each part is counted at its own moment.
    ///
    /// # Errors
    ///
    /// [`Unfit`] if the structure has no scans.
    ///
    /// # Examples
    ///
    /// ```
    /// # let dictionary = guttertide::Dictionary::open(64, 1)?;
    /// # let mut caller = dictionary.caller().expect("it has one");
    /// caller.put(5, 50)?;
    /// caller.put(7, 70)?;
    /// assert_eq!((caller.count(..)?, caller.count(6..)?), (2, 1));
    /// # Ok::<(), Box<dyn std::error::Error>>(())
    /// ```
    pub fn count(&mut self, keys: impl RangeBounds<u64>) -> Result<usize, Unfit> {
        Ok(self.parts(keys)?.map(|part| part.pairs().len()).sum())
    }
}

/// What is still to be listed after a part, of a span with this last key.
pub(crate) fn rest_after(part: &Part, last: u64) -> Option<(u64, u64)> {
    let end = *part.keys.end();
    (end < last).then(|| (end + 1, last))
}

/// The least and the greatest key of a span, if it has any.
pub(crate) fn ends_of(keys: &impl RangeBounds<u64>) -> Option<(u64, u64)> {
    let low = match keys.start_bound() {
        Bound::Included(&key) => key,
        Bound::Excluded(&key) => key.checked_add(1)?,
        Bound::Unbounded => 0,
    };
    let last = match keys.end_bound() {
        Bound::Included(&key) => key,
        Bound::Excluded(&key) => key.checked_sub(1)?,
        Bound::Unbounded => u64::MAX,
    };
    (low <= last).then_some((low, last))
}

#[cfg(test)]
mod tests {
    use super::ends_of;
    use std::ops::Bound::{Excluded, Included};

    #[test]
    fn ends_of_spans() {
        assert_eq!(ends_of(&..), Some((0, u64::MAX)));
        assert_eq!((ends_of(&(3..5)), ends_of(&(3..=5))), (Some((3, 4)), Some((3, 5))));
        assert_eq!((ends_of(&(3..)), ends_of(&(..5))), (Some((3, u64::MAX)), Some((0, 4))));
        assert_eq!((ends_of(&(3..3)), ends_of(&(..0))), (None, None));
        assert_eq!(ends_of(&(Excluded(u64::MAX), Included(u64::MAX))), None);
    }
}
