//! Threads that wait: who is let in when, and what becomes of their turns when a body panics, a thread dies or a time is over.

use std::cell::RefCell;
use std::panic::{catch_unwind, AssertUnwindSafe};
use std::sync::atomic::{AtomicBool, AtomicU32, Ordering::SeqCst};
use std::sync::{mpsc, Arc, Barrier};
use std::thread;
use std::time::{Duration, Instant};

use common::{forbade, is_idle, open, until_waiting, BOOK, SLOT};
use wanzoche::{Guard, Op, Options, Paths, Verdict};

mod common;

#[test]
fn a_time_limit_is_kept() {
    for yields in [0, 30] {
        let (paths, deposit, remove) = open(SLOT, yields, ["deposit", "remove"]);
        let begun = Instant::now();
        assert_eq!(forbade(paths.enter_timeout(remove, Duration::from_millis(50))), 0);
        assert!(begun.elapsed() >= Duration::from_millis(50));
        assert_eq!(paths.waiting(remove), Ok(0));
        // No time is to try: it takes one line, and nobody sleeps.
        let lines = paths.journal().unwrap().lines().count();
        assert_eq!(forbade(paths.enter_timeout(remove, Duration::ZERO)), 0);
        assert_eq!(paths.journal().unwrap().lines().count(), lines + 1);
        // A time that no clock reaches is none.
        drop(paths.enter_timeout(deposit, Duration::MAX).unwrap());
        drop(paths.enter_timeout(remove, Duration::from_secs(100)).unwrap());
        assert!(is_idle(&paths));
    }
}

#[test]
fn who_waits_with_a_limit_is_let_in() {
    for time in [Duration::from_secs(100), Duration::MAX] {
        let (paths, deposit, remove) = open(SLOT, 0, ["deposit", "remove"]);
        thread::scope(|scope| {
            let waits = scope.spawn(|| drop(paths.enter_timeout(remove, time).unwrap()));
            until_waiting(&paths, remove, 1);
            drop(paths.enter(deposit).unwrap());
            waits.join().unwrap();
        });
        assert!(is_idle(&paths));
    }
}

/// So many threads sleep for a read while a write is in progress. All have to be inside at once before one may leave.
#[test]
fn readers_come_in_together() {
    const READERS: u32 = 7;
    let (paths, read, write) = open(BOOK, 0, ["read", "write"]);
    let inside = Barrier::new(READERS as usize);
    thread::scope(|scope| {
        let guard = paths.enter(write).unwrap();
        for _ in 0..READERS {
            scope.spawn(|| {
                let _guard = paths.enter(read).unwrap();
                inside.wait();
            });
        }
        until_waiting(&paths, read, READERS);
        drop(guard);
    });
    assert!(is_idle(&paths));
}

/// A leave after which three operations may start wakes a thread of each.
#[test]
fn one_leave_lets_three_operations_in() {
    let text = "resource r cell operation open, a, b, c path open ; a end path open ; b end path open ; c end end";
    let (paths, open, _) = open(text, 0, ["open", "a"]);
    let inside = Barrier::new(3);
    thread::scope(|scope| {
        for name in ["a", "b", "c"] {
            let (paths, inside) = (&paths, &inside);
            scope.spawn(move || {
                let _guard = paths.enter(paths.op(name).unwrap()).unwrap();
                inside.wait();
            });
        }
        for name in ["a", "b", "c"] {
            until_waiting(&paths, paths.op(name).unwrap(), 1);
        }
        drop(paths.enter(open).unwrap());
    });
    assert!(is_idle(&paths));
}

#[test]
fn a_panic_finishes_the_operation() {
    for yields in [0, 30] {
        let (paths, read, write) = open(BOOK, yields, ["read", "write"]);
        thread::scope(|scope| {
            let guard = paths.enter(write).unwrap();
            let waits = [scope.spawn(|| drop(paths.enter(read).unwrap())), scope.spawn(|| drop(paths.enter(write).unwrap()))];
            let panics = catch_unwind(AssertUnwindSafe(|| {
                let _guard = guard;
                until_waiting(&paths, read, 1);
                until_waiting(&paths, write, 1);
                panic!("in the body");
            }));
            assert!(panics.is_err());
            waits.into_iter().for_each(|thread| thread.join().unwrap());
        });
        assert!(is_idle(&paths));
        drop(paths.enter(write).unwrap());
        assert_eq!(paths.audit(&paths.journal().unwrap()), Ok(Verdict::Sound));
    }
}

/// What an operation calls while it panics may enter and leave, too.
#[test]
fn paths_may_be_entered_while_a_panic_goes_on() {
    struct Writes<'a>(&'a Paths, Op);
    impl Drop for Writes<'_> {
        fn drop(&mut self) {
            drop(self.0.enter(self.1).unwrap());
        }
    }
    let (paths, read, write) = open(BOOK, 0, ["read", "write"]);
    let panics = catch_unwind(AssertUnwindSafe(|| {
        let _writes = Writes(&paths, write);
        let _guard = paths.enter(read).unwrap();
        panic!("in the body");
    }));
    assert!(panics.is_err() && is_idle(&paths));
    drop(paths.enter(write).unwrap());
}

/// A thread that ends with a guard in a value that others hold leaves it to them.
#[test]
fn a_guard_outlives_its_thread() {
    let (paths, deposit, remove) = open(SLOT, 0, ["deposit", "remove"]);
    thread::scope(|scope| {
        let guard = scope.spawn(|| paths.enter(deposit).unwrap()).join().unwrap();
        let waits = scope.spawn(|| paths.enter(remove).unwrap().look());
        until_waiting(&paths, remove, 1);
        assert_eq!(guard.put(7), Ok(0));
        drop(guard);
        assert_eq!(waits.join().unwrap(), Ok(7));
    });
    assert!(is_idle(&paths));
}

/// What a thread drops as it ends may enter, too, and may hold a guard to the last.
#[test]
fn a_thread_may_enter_as_it_ends() {
    struct Enters(RefCell<Option<(&'static Paths, Op)>>);
    impl Drop for Enters {
        fn drop(&mut self) {
            let (paths, op) = self.0.borrow_mut().take().unwrap();
            assert_eq!(paths.enter(op).unwrap().put(7), Ok(0));
        }
    }
    thread_local! {
        static LAST: Enters = const { Enters(RefCell::new(None)) };
        static HELD: RefCell<Option<Guard<'static>>> = const { RefCell::new(None) };
    }
    let (paths, deposit, remove) = open(SLOT, 0, ["deposit", "remove"]);
    let paths: &'static Paths = Box::leak(Box::new(paths));
    let ends = move || LAST.with(|last| *last.0.borrow_mut() = Some((paths, deposit)));
    thread::spawn(ends).join().unwrap();
    let holds = move || HELD.with(|held| *held.borrow_mut() = Some(paths.enter(remove).unwrap()));
    thread::spawn(holds).join().unwrap();
    assert_eq!(paths.enter_timeout(deposit, Duration::from_secs(60)).unwrap().look(), Ok(7));
    assert_eq!(paths.report().unwrap().matches("live").count(), 0);
}

/// A thread that forgets its guard and dies holds up others, but no longer than their limits, and not those beside it.
#[test]
fn a_thread_may_die_with_its_operation() {
    let (paths, read, write) = open(BOOK, 0, ["read", "write"]);
    thread::scope(|scope| {
        let dies = scope.spawn(|| {
            std::mem::forget(paths.enter(read).unwrap());
            panic!("dies");
        });
        assert!(dies.join().is_err());
        let waits = scope.spawn(|| forbade(paths.enter_timeout(write, Duration::from_millis(30))));
        drop(paths.enter(read).unwrap());
        assert_eq!(waits.join().unwrap(), 0);
    });
    assert_eq!(paths.report().unwrap().matches("live").count(), 1);
}

/// Guards travel to another thread, which drops them in an order of its own; what waits is let in by that thread.
#[test]
fn guards_are_sent_to_others() {
    let text = "resource r cell operation a path { a : 5 } end end";
    let (paths, a, _) = open(text, 0, ["a", "a"]);
    let (gives, takes) = mpsc::channel::<Guard<'_>>();
    let begun = AtomicU32::new(0);
    thread::scope(|scope| {
        for _ in 0..8 {
            let gives = gives.clone();
            let (paths, begun) = (&paths, &begun);
            scope.spawn(move || {
                for _ in 0..100 {
                    let guard = paths.enter(a).unwrap();
                    assert!(begun.fetch_add(1, SeqCst) < 5);
                    gives.send(guard).unwrap();
                }
            });
        }
        drop(gives);
        let mut held = Vec::new();
        for n in 0..800 {
            held.push(takes.recv().unwrap());
            if held.len() == 5 || n >= 795 {
                begun.fetch_sub(1, SeqCst);
                drop(held.swap_remove(n * 7 % held.len()));
            }
        }
        begun.fetch_sub(held.len() as u32, SeqCst);
    });
    assert!(is_idle(&paths));
    assert_eq!(begun.into_inner(), 0);
}

/// A log that panics at its first call, and no more; and what it was called with last.
fn panics_once() -> (wanzoche::Log, Arc<AtomicBool>) {
    let has_panicked = Arc::new(AtomicBool::new(false));
    let own = Arc::clone(&has_panicked);
    let log = move |_: &str| assert!(own.swap(true, SeqCst), "the log panics");
    (Box::new(log), has_panicked)
}

#[test]
fn a_log_that_panics_leaves_all_as_it_was() {
    let (log, _) = panics_once();
    let paths = Options::new().room(4).log(log).open(SLOT).unwrap();
    let (deposit, remove) = (paths.op("deposit").unwrap(), paths.op("remove").unwrap());
    drop(paths.enter(deposit).unwrap());
    drop(paths.enter(remove).unwrap());
    let lines = paths.journal().unwrap();
    assert!(catch_unwind(AssertUnwindSafe(|| paths.enter(deposit).map(drop))).is_err());
    assert_eq!(paths.journal().unwrap(), lines);
    assert!(is_idle(&paths));
    drop(paths.enter(deposit).unwrap());
    assert_eq!(paths.journal().unwrap().lines().count(), 2);
}

/// Two readers sleep, and the one that is woken first finds the journal full, and the log panics. The other one still comes in.
#[test]
fn a_log_that_panics_passes_the_turn_on() {
    let (log, has_panicked) = panics_once();
    let paths = Options::new().room(8).yields(0).log(log).open(BOOK).unwrap();
    let (read, write) = (paths.op("read").unwrap(), paths.op("write").unwrap());
    thread::scope(|scope| {
        let guard = paths.enter(write).unwrap();
        let readers: Vec<_> = (0..2).map(|_| scope.spawn(|| paths.enter(read).map(drop))).collect();
        until_waiting(&paths, read, 2);
        // The start, its finish and two refused reads take four places of the eight.
        (0..4).for_each(|_| assert_eq!(guard.look(), Ok(0)));
        assert!(!has_panicked.load(SeqCst));
        drop(guard);
        let ends: Vec<bool> = readers.into_iter().map(|thread| matches!(thread.join(), Ok(Ok(())))).collect();
        assert!(ends == [true, false] || ends == [false, true], "{ends:?}");
    });
    assert!(has_panicked.load(SeqCst) && is_idle(&paths));
    assert_eq!(paths.waiting(read), Ok(0));
    drop(paths.enter(write).unwrap());
}

/// A thread whose time is over just when its turn comes either has it or leaves it to the next.
#[test]
fn a_turn_isnt_lost_when_a_time_is_over() {
    let (paths, deposit, remove) = open(SLOT, 0, ["deposit", "remove"]);
    for n in 0..200 {
        thread::scope(|scope| {
            let hurried = scope.spawn(|| paths.enter_timeout(remove, Duration::from_micros(600)).map(drop));
            let patient = scope.spawn(|| paths.enter(remove).map(drop));
            until_waiting_some(&paths, remove);
            thread::sleep(Duration::from_micros(n * 5));
            drop(paths.enter(deposit).unwrap());
            if hurried.join().unwrap().is_ok() {
                drop(paths.enter(deposit).unwrap());
            }
            assert_eq!(patient.join().unwrap(), Ok(()));
        });
        assert!(is_idle(&paths) && paths.waiting(remove) == Ok(0));
    }
}

/// Waits until a thread sleeps for an operation.
fn until_waiting_some(paths: &Paths, op: Op) {
    while paths.waiting(op).unwrap() == 0 {
        thread::yield_now();
    }
}

/// A thread gives way as often as it is told before it sleeps: each time is a chance to start without sleeping.
#[test]
fn a_thread_gives_way_before_it_sleeps() {
    let (paths, deposit, remove) = open(SLOT, u32::MAX, ["deposit", "remove"]);
    thread::scope(|scope| {
        let waits = scope.spawn(|| drop(paths.enter(remove).unwrap()));
        thread::sleep(Duration::from_millis(20));
        assert_eq!(paths.waiting(remove), Ok(0));
        drop(paths.enter(deposit).unwrap());
        waits.join().unwrap();
    });
    assert_eq!(forbade(paths.enter_timeout(remove, Duration::from_millis(5))), 0);
}
