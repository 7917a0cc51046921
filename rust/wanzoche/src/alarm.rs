//! Wakes tasks at a time: those whose start is withheld until a door opens, since no runtime's clock is known here.
//!
//! One thread for all paths does it. It begins with the first alarm, and ends when none is left.

use std::panic::{catch_unwind, AssertUnwindSafe};
use std::sync::{Condvar, Mutex, MutexGuard, PoisonError};
use std::task::Waker;
use std::thread;
use std::time::Instant;

use crate::memory::space;
use crate::Error;

/// A waker with the time at which it is woken.
struct Due {
    at: Instant,
    number: u64,
    waker: Waker,
}

struct Clock {
    due: Vec<Due>,
    /// Of the last alarm that was set.
    last: u64,
    /// Until when the thread sleeps, if there is one.
    sleeps: Option<Instant>,
}

static CLOCK: Mutex<Clock> = Mutex::new(Clock { due: Vec::new(), last: 0, sleeps: None });
static EARLIER: Condvar = Condvar::new();

fn clock() -> MutexGuard<'static, Clock> {
    CLOCK.lock().unwrap_or_else(PoisonError::into_inner)
}

/// A task is woken at a time, unless this is dropped before.
#[derive(Debug)]
pub(crate) struct Alarm(u64);

impl Alarm {
    /// Wakes this at that time. [`Error::OutOfMemory`] if there is no memory or no thread for it.
    pub(crate) fn set(at: Instant, waker: Waker) -> Result<Alarm, Error> {
        let mut clock = clock();
        space(&mut clock.due, 1)?;
        if clock.sleeps.is_none() {
            let begun = thread::Builder::new().name("wanzoche".to_string()).spawn(run);
            begun.map_err(|_| Error::OutOfMemory)?;
        }
        if clock.sleeps.map_or(true, |until| at < until) {
            clock.sleeps = Some(at);
            EARLIER.notify_one();
        }
        clock.last += 1;
        let number = clock.last;
        clock.due.push(Due { at, number, waker });
        Ok(Alarm(number))
    }
}

impl Drop for Alarm {
    fn drop(&mut self) {
        let mut clock = clock();
        let at = clock.due.iter().position(|due| due.number == self.0);
        let due = at.map(|at| clock.due.swap_remove(at));
        drop(clock);
        drop(due);
    }
}

/// Wakes whatever is due, each outside of the lock, until nothing is left.
fn run() {
    let mut clock = clock();
    while let Some(first) = clock.due.iter().map(|due| due.at).min() {
        clock.sleeps = Some(first);
        let left = first.saturating_duration_since(Instant::now());
        if !left.is_zero() {
            clock = EARLIER.wait_timeout(clock, left).unwrap_or_else(PoisonError::into_inner).0;
            continue;
        }
        let at = clock.due.iter().position(|due| due.at == first);
        let due = at.map(|at| clock.due.swap_remove(at));
        drop(clock);
        // A waker that panics holds up no other.
        let _ = catch_unwind(AssertUnwindSafe(|| due.map(|due| due.waker.wake())));
        clock = self::clock();
    }
    clock.sleeps = None;
}

#[cfg(test)]
mod tests {
    use super::Alarm;
    use std::sync::mpsc::{channel, Sender};
    use std::sync::{Arc, Mutex};
    use std::task::{Wake, Waker};
    use std::time::{Duration, Instant};

    struct Says(Mutex<Sender<u32>>, u32);

    impl Wake for Says {
        fn wake(self: Arc<Self>) {
            self.0.lock().unwrap().send(self.1).unwrap();
        }
    }

    struct Panics;

    impl Wake for Panics {
        fn wake(self: Arc<Self>) {
            panic!("the waker panics");
        }
    }

    #[test]
    fn alarms_wake_no_sooner_than_they_are_set_to() {
        let (says, said) = channel();
        let waker = |number| Waker::from(Arc::new(Says(Mutex::new(says.clone()), number)));
        let never = Alarm::set(Instant::now() + Duration::from_secs(36_000), waker(0)).unwrap();
        let soon = Instant::now() + Duration::from_millis(10);
        let broken = Alarm::set(soon, Waker::from(Arc::new(Panics))).unwrap();
        let sooner = Alarm::set(soon + Duration::from_millis(1), waker(1)).unwrap();
        assert_eq!(said.recv(), Ok(1));
        assert!(Instant::now() > soon);
        drop((never, broken, sooner));
        // The thread may have ended: another begins.
        let _last = Alarm::set(Instant::now(), waker(2)).unwrap();
        assert_eq!(said.recv(), Ok(2));
    }

    #[test]
    fn who_drops_an_alarm_isnt_woken_by_it() {
        let (says, said) = channel();
        let counts = Arc::new(Says(Mutex::new(says), 1));
        let dropped = Alarm::set(Instant::now() + Duration::from_secs(36_000), Arc::clone(&counts).into()).unwrap();
        assert_eq!(Arc::strong_count(&counts), 2);
        drop(dropped);
        assert_eq!(Arc::strong_count(&counts), 1);
        drop(counts);
        assert!(said.recv().is_err());
    }
}
