//! Why nothing was opened, and why a call did not do what it was to do.

use crate::{CALLERS, NODES, Structure};
use std::error::Error;
use std::fmt;

/// Why a dictionary was not opened.
///
/// ```
/// use guttertide::{Dictionary, OpenError};
///
/// let error = Dictionary::open(3, 1).unwrap_err();
/// assert_eq!(error, OpenError::Nodes(3));
/// assert_eq!(error.to_string(), "a dictionary has 4 to 1048576 nodes, and not 3");
/// ```
#[derive(Clone, Copy, Debug, PartialEq, Eq)]
pub enum OpenError {
    /// No dictionary has this number of nodes: see [`NODES`].
    Nodes(u32),
    /// No dictionary has this number of callers: see [`CALLERS`].
    Callers(usize),
    /// Memory ran out.
    OutOfMemory,
    /// The structure has no scans, which a [`Map`](crate::Map) needs.
    Unfit(Structure),
    /// The library is of this version, and the crate of another one: 65536 times the first number, 256 times the second
    /// one, and the third.
    Version(u32),
}

impl fmt::Display for OpenError {
    fn fmt(&self, f: &mut fmt::Formatter<'_>) -> fmt::Result {
        match self {
            OpenError::Nodes(nodes) => {
                write!(f, "a dictionary has {} to {} nodes, and not {nodes}", NODES.start(), NODES.end())
            }
            OpenError::Callers(callers) => {
                write!(f, "a dictionary has {} to {} callers, and not {callers}", CALLERS.start(), CALLERS.end())
            }
            OpenError::OutOfMemory => f.write_str("memory ran out"),
            OpenError::Unfit(_) => f.write_str("the structure has no scans"),
            OpenError::Version(_) => f.write_str("the library is of another version"),
        }
    }
}

impl Error for OpenError {}

/// There was no room for a new key, and too few nodes were found free.
///
/// The call leaves the map as it was. It is in the history all the same, and has its [number](crate::Caller::number).
///
/// ```
/// use guttertide::{Full, Map};
///
/// let map: Map = Map::builder().nodes(4).open()?;
/// let refused = (0..100).find(|&key| map.insert(key, 7) == Err(Full));
/// assert!(refused.is_some_and(|key| !map.contains_key(key)));
/// # Ok::<(), guttertide::OpenError>(())
/// ```
#[derive(Clone, Copy, Debug, PartialEq, Eq)]
pub struct Full;

impl fmt::Display for Full {
    fn fmt(&self, f: &mut fmt::Formatter<'_>) -> fmt::Result {
        f.write_str("there is no room for the key, and too few nodes are free")
    }
}

impl Error for Full {}

/// Why a call was put off: another caller was in the way.
///
/// The call is not in the history, has no number, and leaves the map as it was; nodes that it split stay split. It may be
/// made again.
///
/// ```
/// use guttertide::Later;
///
/// fn reason(later: Later) -> String {
///     match later {
///         Later::Busy { node, holder } => format!("caller {holder} has node {node}"),
///         Later::Moved { node } => format!("node {node} was split or merged"),
///         Later::Far => later.to_string(),
///     }
/// }
/// assert_eq!(reason(Later::Busy { node: 5, holder: 1 }), "caller 1 has node 5");
/// ```
#[derive(Clone, Copy, Debug, PartialEq, Eq)]
pub enum Later {
    /// Another caller held a node that the search came to.
    Busy {
        /// The index of the node, below the number of nodes.
        node: u32,
        /// The index of the caller that held it, below the number of callers.
        holder: u32,
    },
    /// Another caller split or merged a node that was on the search path, and that later no search for the key could reach.
    /// Only a [`GiveUpTree`](crate::Structure::GiveUpTree) and a [`GiveUpWideTree`](crate::Structure::GiveUpWideTree) report it.
    Moved {
        /// The index of the node.
        node: u32,
    },
    /// The call took as many nodes as the dictionary has, while another caller changed some. Only structures that report
    /// `Moved` and a [`BTree`](crate::Structure::BTree) report it.
    Far,
}

impl fmt::Display for Later {
    fn fmt(&self, f: &mut fmt::Formatter<'_>) -> fmt::Result {
        match self {
            Later::Busy { .. } => f.write_str("another caller held a node"),
            Later::Moved { .. } => f.write_str("another caller changed a node of the search path"),
            Later::Far => f.write_str("as many nodes were taken as there are"),
        }
    }
}

impl Error for Later {}

/// Why a put or an add that does not wait set nothing.
///
/// ```
/// use guttertide::{Dictionary, Full, TryPutError};
///
/// let mut caller = Dictionary::open(4, 1)?.caller().expect("it has one");
/// let error = (0..100).find_map(|key| caller.try_put(key, 7).err());
/// assert_eq!(error, Some(TryPutError::Full(Full)), "there is no other caller");
/// # Ok::<(), guttertide::OpenError>(())
/// ```
#[derive(Clone, Copy, Debug, PartialEq, Eq)]
pub enum TryPutError {
    /// The call was made, and found no room for a new key, and too few nodes free.
    Full(Full),
    /// The call was not made, and may be made again.
    Later(Later),
}

impl fmt::Display for TryPutError {
    fn fmt(&self, f: &mut fmt::Formatter<'_>) -> fmt::Result {
        match self {
            TryPutError::Full(full) => full.fmt(f),
            TryPutError::Later(later) => later.fmt(f),
        }
    }
}

impl Error for TryPutError {}

impl From<Full> for TryPutError {
    fn from(full: Full) -> TryPutError {
        TryPutError::Full(full)
    }
}

impl From<Later> for TryPutError {
    fn from(later: Later) -> TryPutError {
        TryPutError::Later(later)
    }
}

/// The structure has no scans: see [`Structure::has_scans`](crate::Structure::has_scans).
///
/// ```
/// use guttertide::{Dictionary, Structure, Unfit};
///
/// let mut caller = Dictionary::open_as(Structure::BTree, 64, 1)?.caller().expect("it has one");
/// assert_eq!(caller.count(..), Err(Unfit));
/// # Ok::<(), guttertide::OpenError>(())
/// ```
#[derive(Clone, Copy, Debug, PartialEq, Eq)]
pub struct Unfit;

impl fmt::Display for Unfit {
    fn fmt(&self, f: &mut fmt::Formatter<'_>) -> fmt::Result {
        f.write_str("the structure has no scans")
    }
}

impl Error for Unfit {}
