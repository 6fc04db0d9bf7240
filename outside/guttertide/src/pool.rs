//! The callers of a map, one of which a thread takes for a call.

use crate::seat::Seat;
use crate::wait::Waited;
use crate::{OpenError, Structure};
use std::sync::atomic::{AtomicUsize, Ordering};
use std::sync::{Mutex, MutexGuard, TryLockError};

/// The seats of a map. The lock of each is the order in which threads use it, as the library asks for it.
#[derive(Debug)]
pub(crate) struct Pool {
    slots: Box<[Slot]>,
}

/// A seat on cache lines of its own.
#[derive(Debug)]
#[repr(align(128))]
struct Slot(Mutex<Seat>);

impl Pool {
    pub(crate) fn open(structure: Structure, nodes: u32, callers: usize) -> Result<Pool, OpenError> {
        let seats = Seat::open(structure, nodes, callers)?;
        Ok(Pool { slots: seats.into_iter().map(|seat| Slot(Mutex::new(seat))).collect() })
    }

    /// Takes a seat: the one of this thread if it is free, and else the next free one, for which it may wait.
    ///
    /// It never waits at the lock of one seat, as the thread itself may have that one.
    pub(crate) fn seat(&self) -> MutexGuard<'_, Seat> {
        let (own, mut waited) = (number_of_thread(), Waited::default());
        loop {
            if let Some(seat) = self.free_from(own) {
                return seat;
            }
            waited.pause();
        }
    }

    fn free_from(&self, own: usize) -> Option<MutexGuard<'_, Seat>> {
        let count = self.slots.len();
        (0..count).find_map(|step| self.slots[own.wrapping_add(step) % count].free())
    }
}

impl Slot {
    /// The seat, if no thread has it. One whose thread panicked is as good as any: its call had returned.
    fn free(&self) -> Option<MutexGuard<'_, Seat>> {
        match self.0.try_lock() {
            Ok(seat) => Some(seat),
            Err(TryLockError::Poisoned(panicked)) => Some(panicked.into_inner()),
            Err(TryLockError::WouldBlock) => None,
        }
    }
}

/// A number of the thread, the next one for each thread that asks.
fn number_of_thread() -> usize {
    static NEXT: AtomicUsize = AtomicUsize::new(0);
    thread_local! {
        static NUMBER: usize = NEXT.fetch_add(1, Ordering::Relaxed);
    }
    // A thread that ends has no number any more: it takes any seat.
    NUMBER.try_with(|&number| number).unwrap_or(0)
}
