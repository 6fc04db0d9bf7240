//! Waiting for other callers, as `guttertide_pause` and `guttertide_waits` of `guttertide.h` do it.

use crate::Later;
use std::hint;
use std::thread;
use std::time::Duration;

/// How often a call was put off in a row, without waiting since and with.
#[derive(Default)]
pub(crate) struct Waited {
    at_once: u32,
    failed: u32,
}

impl Waited {
    /// Waits after a call was put off: not for the first eight times that a node moved or was far, else by [`pause`].
    fn after(&mut self, later: Later) {
        match later {
            Later::Moved { .. } | Later::Far if self.at_once < 8 => self.at_once += 1,
            _ => self.pause(),
        }
    }

    /// Waits, longer each time.
    pub(crate) fn pause(&mut self) {
        self.failed = self.failed.saturating_add(1);
        pause(self.failed);
    }
}

/// Makes a call until it is not put off.
pub(crate) fn until_done<T>(mut attempt: impl FnMut() -> Result<T, Later>) -> T {
    let mut waited = Waited::default();
    loop {
        match attempt() {
            Ok(done) => return done,
            Err(later) => waited.after(later),
        }
    }
}

/// Spins after the first failure in a row; yields the processor after each of the next 16; then sleeps, for 50 microseconds
/// and then twice as long each time, up to a millisecond.
fn pause(failed: u32) {
    match failed {
        0..=1 => (0..127).for_each(|_| hint::spin_loop()),
        2..=17 => thread::yield_now(),
        18..=22 => thread::sleep(Duration::from_micros(50 << (failed - 18))),
        _ => thread::sleep(Duration::from_millis(1)),
    }
}
