//! Wakers that panic, that call the paths, and that end what is in progress when they are cloned.

use std::cell::RefCell;
use std::panic::{catch_unwind, AssertUnwindSafe};
use std::sync::Arc;
use std::task::{Poll, RawWaker, RawWakerVTable, Wake, Waker};

use common::tasks::{poll_by, Polled};
use common::{is_idle, open, BOOK, SHELF};
use wanzoche::{Error, Guard, Op, OwnedGuard, Paths};

mod common;

/// A waker that panics.
struct Panics;

impl Wake for Panics {
    fn wake(self: Arc<Self>) {
        panic!("the waker panics");
    }
}

/// Whoever wakes it gets the panic, when all others are woken, and has left.
#[test]
fn a_waker_that_panics_holds_nobody_up() {
    let text = "resource r cell operation open, a, b path open ; a end path open ; b end end";
    let (paths, a, b) = open(text, 30, ["a", "b"]);
    let mut broken = paths.enter_async(a);
    assert!(poll_by(&mut broken, &Waker::from(Arc::new(Panics))).is_pending());
    let mut sound = Polled::new(paths.enter_async(b));
    assert!(sound.is_pending());
    let guard = paths.enter(paths.op("open").unwrap()).unwrap();
    assert!(catch_unwind(AssertUnwindSafe(|| drop(guard))).is_err());
    assert_eq!(sound.counter.woken(), 1);
    drop(sound.ready().unwrap());
    drop(broken);
    assert!(is_idle(&paths));
}

/// Whoever closes gets it likewise, when all others are released.
#[test]
fn a_waker_that_panics_keeps_nobody_from_the_end() {
    let (paths, take, _) = open(SHELF, 30, ["take", "take"]);
    let guard = paths.enter(take).unwrap();
    let mut broken = paths.enter_async(take);
    assert!(poll_by(&mut broken, &Waker::from(Arc::new(Panics))).is_pending());
    let mut sound = Polled::new(paths.enter_async(take));
    assert!(sound.is_pending() && catch_unwind(AssertUnwindSafe(|| paths.close())).is_err());
    assert_eq!((sound.counter.woken(), sound.ready().map(drop)), (1, Err(Error::Closed)));
    drop((broken, guard));
}

/// Who is let in and wakes the next by a waker that panics isn't left in progress, since nobody gets its guard.
#[test]
fn a_start_isnt_lost_to_the_panic_of_anothers_waker() {
    let (paths, read, write) = open(BOOK, 30, ["read", "write"]);
    let guard = paths.enter(write).unwrap();
    let mut first = Polled::new(paths.enter_async(read));
    let mut broken = paths.enter_async(read);
    assert!(first.is_pending() && poll_by(&mut broken, &Waker::from(Arc::new(Panics))).is_pending());
    drop(guard);
    assert!(catch_unwind(AssertUnwindSafe(|| first.poll().is_ready())).is_err());
    assert!(is_idle(&paths));
    drop((first, broken));
    assert_eq!(paths.waiting(read), Ok(0));
    drop(paths.enter(write).unwrap());
}

/// A waker that asks the paths when it is woken, and when it is dropped: it runs outside of the lock.
struct Asks(Arc<Paths>, Op);

impl Wake for Asks {
    fn wake(self: Arc<Self>) {
        let _ = self.0.try_enter(self.1).map(drop);
    }
}

impl Drop for Asks {
    fn drop(&mut self) {
        assert!(self.0.waiting(self.1).is_ok());
    }
}

#[test]
fn wakers_run_outside_of_the_lock() {
    let (paths, take, _) = open(SHELF, 30, ["take", "take"]);
    let paths = Arc::new(paths);
    let asks = || Waker::from(Arc::new(Asks(Arc::clone(&paths), take)));
    let guard = paths.enter(take).unwrap();
    let (mut first, mut second) = (paths.enter_async(take), paths.enter_async(take));
    assert!(poll_by(&mut first, &asks()).is_pending() && poll_by(&mut second, &asks()).is_pending());
    // Another waker takes the place of the first, which is dropped.
    assert!(poll_by(&mut first, &asks()).is_pending());
    drop(guard);
    assert!(poll_by(&mut first, &asks()).is_ready());
    drop(second);
    let mut third = paths.enter_async_owned(take);
    let guard = paths.enter(take).unwrap();
    assert!(poll_by(&mut third, &asks()).is_pending());
    drop(third);
    let mut last = paths.enter_async_owned(take);
    assert!(poll_by(&mut last, &asks()).is_pending());
    paths.close();
    drop((last, guard));
    assert!(is_idle(&paths) && paths.waiting(take) == Ok(0));
}

/// A leave that comes after a task has looked, and before it has its place: here while its waker is cloned. The task looks once more.
#[test]
fn a_leave_before_the_place_is_seen() {
    thread_local! {
        static GUARD: RefCell<Option<OwnedGuard>> = const { RefCell::new(None) };
    }
    /// A waker that ends what is in progress when it is cloned.
    const LEAVES: RawWakerVTable = RawWakerVTable::new(
        |_| {
            drop(GUARD.with(|guard| guard.borrow_mut().take()));
            RawWaker::new(std::ptr::null(), &LEAVES)
        },
        |_| {},
        |_| {},
        |_| {},
    );
    // SAFETY: the functions look at no data, and are for all threads.
    let waker = unsafe { Waker::from_raw(RawWaker::new(std::ptr::null(), &LEAVES)) };
    let (paths, take, _) = open(SHELF, 30, ["take", "take"]);
    let paths = Arc::new(paths);
    let hold = || GUARD.with(|guard| *guard.borrow_mut() = Some(paths.enter_owned(take).unwrap()));
    hold();
    drop(ready(poll_by(&mut paths.enter_async(take), &waker)));
    // The same for one that waits already, and gets another waker.
    hold();
    let mut enters = Polled::new(paths.enter_async(take));
    assert!(enters.is_pending());
    drop(ready(poll_by(&mut enters.future, &waker)));
    // And for one that was woken, and finds another quicker.
    hold();
    let mut enters = Polled::new(paths.enter_async(take));
    assert!(enters.is_pending());
    drop(GUARD.with(|guard| guard.borrow_mut().take()));
    hold();
    drop(ready(poll_by(&mut enters.future, &waker)));
    assert!(is_idle(&paths) && paths.waiting(take) == Ok(0));
}

fn ready(polled: Poll<Result<Guard<'_>, Error>>) -> Guard<'_> {
    match polled {
        Poll::Ready(guard) => guard.unwrap(),
        Poll::Pending => panic!("the leave wasn't seen"),
    }
}
