//! Closing: whoever waits is released, and nobody comes in any more.

use std::sync::Arc;
use std::thread;
use std::time::Duration;

use common::tasks::Polled;
use common::{is_idle, open, until, until_waiting, BOOK, SHELF, SLOT};
use wanzoche::{Enter, Error};

mod common;

#[test]
fn who_waits_is_released() {
    let (paths, deposit, remove) = open(SLOT, 0, ["deposit", "remove"]);
    let mut task = Polled::new(paths.enter_async(remove));
    assert!(task.is_pending());
    thread::scope(|scope| {
        let waits = [
            scope.spawn(|| paths.enter(remove).map(drop)),
            scope.spawn(|| paths.enter_timeout(remove, Duration::from_secs(600)).map(drop)),
            scope.spawn(|| paths.enter_timeout(remove, Duration::MAX).map(drop)),
        ];
        until_waiting(&paths, remove, 4);
        paths.close();
        waits.into_iter().for_each(|thread| assert_eq!(thread.join().unwrap(), Err(Error::Closed)));
    });
    assert_eq!(task.counter.woken(), 1);
    assert_eq!(task.ready().map(drop), Err(Error::Closed));
    assert_eq!((paths.waiting(remove), paths.waiting(deposit)), (Ok(0), Ok(0)));
}

/// Threads that give way, and don't sleep yet, are released as well.
#[test]
fn who_gives_way_is_released() {
    let (paths, _, remove) = open(SLOT, u32::MAX, ["deposit", "remove"]);
    thread::scope(|scope| {
        let waits = scope.spawn(|| paths.enter(remove).map(drop));
        // It has been refused once, and gives way from then on.
        until(|| paths.journal().unwrap().contains("start remove: blocked"));
        paths.close();
        assert_eq!(waits.join().unwrap(), Err(Error::Closed));
    });
}

#[test]
fn more_are_released_than_are_woken_at_one_turn_of_the_lock() {
    let (paths, take, _) = open(SHELF, 30, ["take", "take"]);
    let guard = paths.enter(take).unwrap();
    let mut tasks: Vec<Polled<Enter<'_>>> = (0..100).map(|_| Polled::new(paths.enter_async(take))).collect();
    assert!(tasks.iter_mut().all(Polled::is_pending));
    paths.close();
    assert!(tasks.iter_mut().all(|task| task.counter.woken() == 1 && task.ready().map(drop) == Err(Error::Closed)));
    drop(guard);
    assert!(is_idle(&paths));
}

#[test]
fn nobody_comes_in_any_more() {
    let (paths, read, write) = open(BOOK, 30, ["read", "write"]);
    let paths = Arc::new(paths);
    assert!(!paths.is_closed());
    let mut early = Polled::new(paths.enter_async_owned(read));
    paths.close();
    paths.close();
    assert!(paths.is_closed());
    let refused = [
        paths.enter(read).map(drop),
        paths.try_enter(write).map(drop),
        paths.enter_timeout(read, Duration::from_secs(600)).map(drop),
        paths.enter_owned(read).map(drop),
        paths.try_enter_owned(write).map(drop),
        paths.enter_timeout_owned(read, Duration::ZERO).map(drop),
        early.ready().map(drop),
        Polled::new(paths.enter_async(write)).ready().map(drop),
    ];
    assert!(refused.iter().all(|refused| *refused == Err(Error::Closed)), "{refused:?}");
    assert_eq!(paths.journal().as_deref(), Ok(""));
}

/// What is in progress goes on, uses its device and is finished, and the paths can be asked.
#[test]
fn what_is_in_progress_goes_on() {
    let (paths, deposit, remove) = open(SLOT, 30, ["deposit", "remove"]);
    let guard = paths.enter(deposit).unwrap();
    paths.close();
    assert_eq!((guard.put(7), guard.look()), (Ok(0), Ok(7)));
    assert_eq!(paths.blocked_by(remove), Ok(Some(0)));
    drop(guard);
    assert_eq!(paths.journal().unwrap().lines().count(), 4);
    assert_eq!((paths.blocked_by(remove), paths.op("remove")), (Ok(None), Ok(remove)));
    assert!(is_idle(&paths));
}

/// A task that was woken, and finds the paths closed, doesn't start.
#[test]
fn who_was_woken_before_doesnt_start() {
    let (paths, take, _) = open(SHELF, 30, ["take", "take"]);
    let guard = paths.enter(take).unwrap();
    let mut task = Polled::new(paths.enter_async(take));
    assert!(task.is_pending());
    drop(guard);
    paths.close();
    assert_eq!((task.counter.woken(), task.ready().map(drop)), (1, Err(Error::Closed)));
}

/// A future that is dropped when the paths are closed, and one that is forgotten, change nothing.
#[test]
fn closed_paths_may_be_dropped_with_those_that_wait() {
    let (paths, take, _) = open(SHELF, 30, ["take", "take"]);
    let paths = Arc::new(paths);
    let guard = paths.enter_owned(take).unwrap();
    let mut tasks: Vec<_> = (0..3).map(|_| Polled::new(paths.enter_async_owned(take))).collect();
    assert!(tasks.iter_mut().all(Polled::is_pending));
    let (last, held) = (tasks.pop().unwrap(), Arc::downgrade(&paths));
    paths.close();
    drop(tasks);
    assert_eq!(paths.try_enter(take).map(drop), Err(Error::Closed));
    drop((paths, guard));
    assert!(held.upgrade().is_some());
    drop(last);
    assert!(held.upgrade().is_none());
}
