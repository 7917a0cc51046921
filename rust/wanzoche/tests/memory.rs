//! What asks for memory, and what happens when there is none. The allocator of this program counts what a thread asks for, and refuses it
//! when it is told to. It stands for Rust's memory; the C library's own is tested by c/tests/failing.c.

#![deny(unsafe_op_in_unsafe_fn)]

use std::alloc::{GlobalAlloc, Layout, System};
use std::cell::Cell;
use std::ptr;

use common::tasks::Polled;
use wanzoche::{Enter, Error, Options, Paths};

mod common;

/// Counts the requests of each thread, and refuses one of them.
struct Counting;

thread_local! {
    static ASKED: Cell<u64> = const { Cell::new(0) };
    static REFUSED: Cell<u64> = const { Cell::new(u64::MAX) };
}

/// Whether the request that comes now is to be refused.
fn is_refused() -> bool {
    let asked = ASKED.with(|asked| asked.replace(asked.get() + 1));
    asked == REFUSED.with(Cell::get)
}

// SAFETY: each call is that of the system's allocator, or answers that there is no memory.
unsafe impl GlobalAlloc for Counting {
    unsafe fn alloc(&self, layout: Layout) -> *mut u8 {
        // SAFETY: the caller keeps what this asks for.
        if is_refused() {
            ptr::null_mut()
        } else {
            unsafe { System.alloc(layout) }
        }
    }

    unsafe fn dealloc(&self, at: *mut u8, layout: Layout) {
        // SAFETY: the caller keeps what this asks for.
        unsafe { System.dealloc(at, layout) }
    }

    unsafe fn realloc(&self, at: *mut u8, layout: Layout, size: usize) -> *mut u8 {
        // SAFETY: the caller keeps what this asks for.
        if is_refused() {
            ptr::null_mut()
        } else {
            unsafe { System.realloc(at, layout, size) }
        }
    }
}

#[global_allocator]
static COUNTING: Counting = Counting;

const BOOK: &str = "resource book queue 4 operation read, write path { read } , write end end";

/// How often this asks for memory.
fn asked(work: impl FnOnce()) -> u64 {
    let before = ASKED.with(Cell::get);
    work();
    ASKED.with(Cell::get) - before
}

/// Refuses each request of a call in turn: it answers that there is no memory, and at last what it answers with memory. Returns how many
/// requests there were.
fn refuse_each<T>(call: impl Fn() -> Result<T, Error>) -> u64 {
    let mut requests = 0;
    loop {
        REFUSED.with(|refused| refused.set(ASKED.with(Cell::get) + requests));
        let answer = call();
        REFUSED.with(|refused| refused.set(u64::MAX));
        match answer {
            Err(Error::OutOfMemory) => requests += 1,
            _ => return requests,
        }
    }
}

#[test]
fn turns_ask_for_no_memory() {
    let paths = Options::new().room(64).open(BOOK).unwrap();
    let (read, write) = (paths.op("read").unwrap(), paths.op("write").unwrap());
    drop(paths.enter(read).unwrap());
    let turns = || {
        for _ in 0..1000 {
            let guard = paths.enter(write).unwrap();
            assert!(paths.try_enter(read).is_err());
            assert!(paths.enter_timeout(read, std::time::Duration::from_micros(1)).is_err());
            guard.put(1).unwrap();
            guard.look().unwrap();
            guard.take().unwrap();
            assert_eq!(paths.blocked_by(read), Ok(Some(0)));
            assert!(paths.why(read).unwrap().is_some());
            assert_eq!(paths.waiting(read), Ok(0));
            paths.rotate().unwrap();
        }
    };
    assert_eq!(asked(turns), 0);
    assert!(asked(|| drop(paths.journal().unwrap())) > 0);
}

#[test]
fn want_of_memory_is_an_error() {
    let paths = Options::new().room(64).log(Box::new(|_| ())).open(BOOK).unwrap();
    let write = paths.op("write").unwrap();
    drop(paths.enter(write).unwrap());
    assert_eq!(refuse_each(|| Paths::open(BOOK)), 11);
    let resumes = || Options::new().resume(BOOK, "9 start read: started 0\n");
    assert_eq!(refuse_each(resumes), 12);
    let behind = resumes().unwrap();
    assert_eq!(refuse_each(|| behind.recover()), 1);
    assert_eq!(refuse_each(|| wanzoche::explore(BOOK, "process p\nenter read\nleave\nend\n", 100)), 2);
    assert_eq!(refuse_each(|| paths.op("rite")), 1);
    assert_eq!(refuse_each(|| paths.op("write")), 0);
    assert_eq!(refuse_each(|| paths.report()), 1);
    assert_eq!(refuse_each(|| paths.journal()), 1);
    assert_eq!(refuse_each(|| paths.path(0)), 1);
    assert_eq!(refuse_each(|| paths.audit("")), 0);
    assert_eq!(refuse_each(|| wanzoche::audit(BOOK, "")), 0);
    assert_eq!(refuse_each(|| paths.rotate()), 1);
}

/// A task that waits takes a place, and places are kept: only where more wait than ever before is memory asked for. Whoever gets none then
/// has an error, and all others their turn.
#[test]
fn places_are_kept() {
    let paths = Options::new().open(BOOK).unwrap();
    let write = paths.op("write").unwrap();
    let tasks = || -> Vec<Polled<Enter<'_>>> { (0..200).map(|_| Polled::new(paths.enter_async(write))).collect() };
    let guard = paths.enter(write).unwrap();
    let mut early = tasks();
    assert_eq!(asked(|| assert!(early[..64].iter_mut().all(Polled::is_pending))), 0);
    REFUSED.with(|refused| refused.set(ASKED.with(Cell::get)));
    let refused = early.remove(64).ready().map(drop);
    REFUSED.with(|refused| refused.set(u64::MAX));
    assert_eq!((refused, paths.waiting(write)), (Err(Error::OutOfMemory), Ok(64)));
    assert!(asked(|| assert!(early.iter_mut().all(Polled::is_pending))) > 0);
    drop(guard);
    assert!(early.iter_mut().all(|task| task.ready().is_ok()));
    let guard = paths.enter(write).unwrap();
    let mut late = tasks();
    late.truncate(early.len());
    assert_eq!(asked(|| assert!(late.iter_mut().all(Polled::is_pending))), 0);
    drop(guard);
    assert_eq!(asked(|| assert!(late.iter_mut().all(|task| task.ready().is_ok()))), 0);
    assert_eq!(paths.waiting(write), Ok(0));
}

/// With a log, a start in a full journal may lack the memory for its text. It starts nothing then, and may be tried again.
#[test]
fn a_start_that_lacks_memory_for_the_log_starts_nothing() {
    let paths = Options::new().room(4).log(Box::new(|_| ())).open(BOOK).unwrap();
    let write = paths.op("write").unwrap();
    let fills = || (0..2).for_each(|_| drop(paths.enter(write).unwrap()));
    fills();
    let lines = paths.journal().unwrap();
    REFUSED.with(|refused| refused.set(ASKED.with(Cell::get)));
    assert_eq!(paths.enter(write).map(drop), Err(Error::OutOfMemory));
    REFUSED.with(|refused| refused.set(u64::MAX));
    assert_eq!(paths.journal().unwrap(), lines);
    fills();
    assert_ne!(paths.journal().unwrap(), lines);
}
