//! A map from 64-bit keys to 128-bit values that many threads use at once.
//!
//! The library behind it is proved: all calls of all callers are one history of one map, in which each call occurs once,
//! each caller's in their order, and each replies with the value that its key had just before it. A call holds at most
//! three nodes at a time, and none takes memory but those that open a map. This crate, a front of the library in Rust, is
//! tested, and not proved. So is order in time: a call comes after each call of another caller that returned before it
//! began.
//!
//! [`Map`] has the words of std's maps, for keys and values of many types, and each thread that has a reference may call it:
//!
//! ```
//! use guttertide::{Full, Map};
//! use std::thread;
//!
//! let map: Map<u32, i64> = Map::with_capacity(400)?;
//! thread::scope(|scope| {
//!     for first in 0..4 {
//!         let map = &map;
//!         scope.spawn(move || {
//!             for key in (first..400).step_by(4) {
//!                 map.insert(key, -10 * i64::from(key))?;
//!             }
//!             Ok::<(), Full>(())
//!         });
//!     }
//! });
//! assert_eq!((map.get(7), map.count()), (Some(-70), 400));
//! assert_eq!(map.range(3..5).collect::<Vec<_>>(), [(3, -30), (4, -40)]);
//! assert_eq!(map.remove(7), Some(-70));
//! assert_eq!(map.get(7), None);
//! # Ok::<(), guttertide::OpenError>(())
//! ```
//!
//! [`Dictionary`] and [`Caller`] are the thin layer below it, with the library's words: a thread has a caller of its own, and
//! learns the [number](Caller::number) of each call in the history. They have structures without scans, too.
//!
//! # Waiting
//!
//! A call that another caller is in the way of is put off: it is not in the history, and leaves the map as it was. It is
//! made again: after the first failure in a row the thread spins a little, after each of the next 16 it yields the
//! processor, and then it sleeps, for 50 microseconds to a millisecond. There is no bound in time. The calls that begin with
//! `try_` are made once and do not wait: they report why they were put off ([`Later`]).
//!
//! # Unsafe code
//!
//! Safe code over this crate cannot break what the library asks of its users (`guttertide.h` of the repository says it).
//! Unsafe code of a program must keep `malloc`, `realloc` and `free` of one allocator, and make no call from a signal
//! handler, nor in a child that it forked while there were several threads; and a thread that it ends in a call keeps the
//! nodes that this holds, for which others then wait for ever.

mod caller;
mod code;
mod errors;
mod handle;
mod map;
#[cfg(guttertide_model)]
mod model;
mod pool;
mod range;
pub mod raw;
mod scans;
mod seat;
mod wait;

pub use caller::{Caller, Dictionary};
pub use code::{Key, Value};
pub use errors::{Full, Later, OpenError, TryPutError, Unfit};
pub use map::{Builder, Map, Pinned};
pub use range::{Keys, Range, Values};
pub use scans::{Part, Parts, Scan};
use std::ops::RangeInclusive;

/// The numbers of nodes that a dictionary may have.
pub const NODES: RangeInclusive<u32> = 4..=1_048_576;

/// The numbers of callers that a dictionary may have.
pub const CALLERS: RangeInclusive<usize> = 1..=1024;

/// The structure of a dictionary. All have the same calls, except that two have no scans.
///
/// ```
/// use guttertide::{Dictionary, Structure};
///
/// for structure in Structure::ALL {
///     let mut caller = Dictionary::open_as(structure, 64, 1)?.caller().expect("it has one");
///     assert_eq!(caller.put(5, 50), Ok(None));
///     assert_eq!(caller.get(5), Some(50));
/// }
/// # Ok::<(), guttertide::OpenError>(())
/// ```
#[derive(Clone, Copy, Debug, Default, PartialEq, Eq)]
pub enum Structure {
    /// A B-link tree: searches hold one node at a time and go on to the right where a node was split, and nodes are never
    /// merged. Take it unless many keys are removed.
    #[default]
    BLinkTree,
    /// A B+ tree by giving up: searches hold one node at a time, and restart if another caller moved their key away.
    /// Nodes are merged as keys are removed, unless another caller holds them.
    GiveUpTree,
    /// A B+ tree by lock coupling: a search holds a node until it holds the next. Nodes are merged as keys are removed,
    /// unless another caller holds them.
    BTree,
    /// A hash table along links, whose nodes have 32 pairs, or 64 children. Nodes are never merged.
    LinkHashTable,
    /// A [`BLinkTree`](Structure::BLinkTree) whose nodes have up to 64 children, for many keys.
    BLinkWideTree,
    /// A [`GiveUpTree`](Structure::GiveUpTree) whose nodes have up to 64 children, for many keys.
    GiveUpWideTree,
}

impl Structure {
    /// All structures.
    pub const ALL: [Structure; 6] = [
        Structure::BLinkTree,
        Structure::GiveUpTree,
        Structure::BTree,
        Structure::LinkHashTable,
        Structure::BLinkWideTree,
        Structure::GiveUpWideTree,
    ];

    /// Returns whether a dictionary of this structure has scans.
    ///
    /// ```
    /// use guttertide::Structure;
    ///
    /// assert!(Structure::BLinkTree.has_scans() && Structure::GiveUpTree.has_scans());
    /// assert!(!Structure::BTree.has_scans() && !Structure::LinkHashTable.has_scans());
    /// ```
    pub fn has_scans(self) -> bool {
        !matches!(self, Structure::BTree | Structure::LinkHashTable)
    }

    /// How many pairs a leaf has that is half full, and how many leaves have one inner node.
    fn halves(self) -> (usize, usize) {
        match self {
            Structure::BLinkTree | Structure::GiveUpTree | Structure::BTree => (8, 2),
            Structure::LinkHashTable => (16, 30),
            Structure::BLinkWideTree | Structure::GiveUpWideTree => (8, 30),
        }
    }

    /// Returns how many nodes this many pairs may need, beside three for each caller: an eighth as many leaves, or a
    /// sixteenth as many buckets of a hash table; and half as many inner nodes, or one for 30 where a node has 64 children.
    ///
    /// ```
    /// use guttertide::{NODES, Structure};
    ///
    /// assert_eq!(Structure::BLinkTree.nodes_for(8_000, 2), 1_510);
    /// assert_eq!(Structure::BLinkWideTree.nodes_for(8_000, 2), 1_043);
    /// assert_eq!(Structure::BLinkTree.nodes_for(usize::MAX, 2), *NODES.end());
    /// ```
    pub fn nodes_for(self, pairs: usize, callers: usize) -> u32 {
        let (pairs_held, leaves_held) = self.halves();
        let leaves = pairs / pairs_held + 1;
        let inner = leaves / leaves_held;
        let nodes = leaves.saturating_add(inner).saturating_add(callers.saturating_mul(3) + 3);
        u32::try_from(nodes).unwrap_or(u32::MAX).min(*NODES.end())
    }

    /// The word of the library.
    fn word(self) -> u32 {
        match self {
            Structure::BLinkTree => raw::GUTTERTIDE_BLINK_TREE,
            Structure::GiveUpTree => raw::GUTTERTIDE_GIVE_UP_TREE,
            Structure::BTree => raw::GUTTERTIDE_B_TREE,
            Structure::LinkHashTable => raw::GUTTERTIDE_LINK_HASH_TABLE,
            Structure::BLinkWideTree => raw::GUTTERTIDE_BLINK_WIDE_TREE,
            Structure::GiveUpWideTree => raw::GUTTERTIDE_GIVE_UP_WIDE_TREE,
        }
    }
}
