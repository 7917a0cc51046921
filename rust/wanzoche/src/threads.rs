//! The numbers of threads.

use std::cell::Cell;
use std::sync::atomic::{AtomicU32, Ordering};

/// The last number that a thread has got.
static LAST: AtomicU32 = AtomicU32::new(0);

/// The number of the calling thread, by which reports and journals name it. Threads count from 1, in the order in which they first ask for
/// it or enter something. It stays the same for all paths.
#[inline]
#[must_use]
pub fn thread_number() -> u32 {
    thread_local! {
        static OWN: Cell<u32> = const { Cell::new(0) };
    }
    OWN.with(|own| {
        if own.get() == 0 {
            own.set(LAST.fetch_add(1, Ordering::Relaxed).wrapping_add(1));
        }
        own.get()
    })
}

/// No thread that has no number yet gets this one or a smaller one, as long as there are enough others.
pub(crate) fn pass_over(number: u32) {
    if number < u32::MAX / 2 {
        LAST.fetch_max(number, Ordering::Relaxed);
    }
}
