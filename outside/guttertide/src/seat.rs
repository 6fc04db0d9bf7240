//! One caller of a dictionary and the number of its last call: what [`Caller`](crate::Caller) and
//! [`Map`](crate::Map) make their calls through.

use crate::handle::{Call, Handle};
use crate::raw::{self, GUTTERTIDE_PART, guttertide_answer, guttertide_pair, guttertide_part, guttertide_value};
use crate::wait::until_done;
use crate::{CALLERS, Full, Later, OpenError, Part, Structure};

/// The reply of a call that was made.
pub(crate) type Reply = Result<Option<u128>, Full>;

#[derive(Debug)]
pub(crate) struct Seat {
    handle: Handle,
    number: Option<u64>,
}

impl Seat {
    /// Opens a dictionary, and returns its callers in their order.
    pub(crate) fn open(structure: Structure, nodes: u32, callers: usize) -> Result<Vec<Seat>, OpenError> {
        if Handle::version() >> 8 != raw::GUTTERTIDE_VERSION >> 8 {
            return Err(OpenError::Version(Handle::version()));
        }
        if !CALLERS.contains(&callers) {
            return Err(OpenError::Callers(callers));
        }
        let mut handles: Vec<Handle> = (0..callers).map(|_| Handle::closed()).collect();
        match Handle::open(structure.word(), nodes, &mut handles) {
            raw::GUTTERTIDE_NOTHING => Ok(handles.into_iter().map(|handle| Seat { handle, number: None }).collect()),
            raw::GUTTERTIDE_BAD_SIZE => Err(OpenError::Nodes(nodes)),
            raw::GUTTERTIDE_NO_MEMORY => Err(OpenError::OutOfMemory),
            code => unexpected(code),
        }
    }

    /// A seat with no caller, to leave in the place of one.
    pub(crate) const fn closed() -> Seat {
        Seat { handle: Handle::closed(), number: None }
    }

    pub(crate) fn number(&self) -> Option<u64> {
        self.number
    }

    /// Forgets the number of the last call.
    pub(crate) fn fresh(mut self) -> Seat {
        self.number = None;
        self
    }

    /// Makes a call once.
    pub(crate) fn attempt(&mut self, call: Call) -> Result<Reply, Later> {
        let mut answer = guttertide_answer::default();
        let reply = match self.handle.call(call, &mut answer) {
            raw::GUTTERTIDE_NOTHING => Ok(None),
            raw::GUTTERTIDE_VALUE => Ok(Some(whole(answer.value))),
            raw::GUTTERTIDE_FULL => Err(Full),
            code => return Err(later(code, &answer)),
        };
        self.number = Some(answer.number);
        Ok(reply)
    }

    /// Makes a call until no other caller is in the way.
    pub(crate) fn wait(&mut self, call: Call) -> Reply {
        until_done(|| self.attempt(call))
    }

    /// Lists a part from `low` on, at most to `last`, both included, once.
    pub(crate) fn try_part(&mut self, low: u64, last: u64) -> Result<Part, Later> {
        let (mut pairs, mut part) = ([guttertide_pair::default(); GUTTERTIDE_PART], guttertide_part::default());
        let end = match self.handle.scan(low, last, &mut pairs, &mut part) {
            raw::GUTTERTIDE_NOTHING => last,
            raw::GUTTERTIDE_MORE => part.next - 1,
            code => return Err(later(code, &part.answer)),
        };
        if part.count > GUTTERTIDE_PART {
            unexpected(raw::GUTTERTIDE_NO_ROOM);
        }
        self.number = Some(part.answer.number);
        Ok(Part::new(part.answer.number, low..=end, pairs, part.count))
    }
}

/// Why a call was put off, by its code.
fn later(code: u32, answer: &guttertide_answer) -> Later {
    match code {
        raw::GUTTERTIDE_BUSY => Later::Busy { node: answer.node, holder: answer.holder },
        raw::GUTTERTIDE_MOVED => Later::Moved { node: answer.node },
        raw::GUTTERTIDE_FAR => Later::Far,
        code => unexpected(code),
    }
}

/// A value from its halves.
pub(crate) fn whole(value: guttertide_value) -> u128 {
    u128::from(value.high) << 64 | u128::from(value.low)
}

/// The reply of a call that needs no room.
pub(crate) fn never_full(reply: Reply) -> Option<u128> {
    reply.unwrap_or_else(|Full| unexpected(raw::GUTTERTIDE_FULL))
}

/// Panics, since the library returned a code that it never returns for such a call.
fn unexpected(code: u32) -> ! {
    panic!("the library returned the code {code}, which guttertide.h does not have for this call")
}
