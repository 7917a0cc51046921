//! Guards and futures that keep their paths, for threads and tasks that aren't scoped.

use std::sync::{Arc, Weak};
use std::thread;
use std::time::Duration;

use common::tasks::Polled;
use common::{forbade, forbids, is_idle, open, until_waiting, SLOT};
use wanzoche::{OwnedGuard, Paths};

mod common;

/// What a runtime wants of a closure or a future that it is to run on another thread.
fn spawns<T: Send + 'static>(work: impl FnOnce() -> T + Send + 'static) -> T {
    thread::spawn(work).join().unwrap()
}

#[test]
fn a_closure_that_owns_the_paths_returns_a_guard() {
    let (paths, deposit, remove) = open(SLOT, 0, ["deposit", "remove"]);
    let paths = Arc::new(paths);
    let own = Arc::clone(&paths);
    let guard: OwnedGuard = spawns(move || own.enter_owned(deposit)).unwrap();
    assert_eq!((guard.put(7), guard.op(), guard.activation()), (Ok(0), deposit, 0));
    let own = Arc::clone(&paths);
    assert_eq!(forbids(spawns(move || own.try_enter_owned(remove))), 0);
    let own = Arc::clone(&paths);
    assert_eq!(forbade(spawns(move || own.enter_timeout_owned(remove, Duration::from_millis(1)))), 0);
    drop(guard);
    let own = Arc::clone(&paths);
    let mut future = Polled::new(own.enter_async_owned(remove));
    assert_eq!(spawns(move || future.ready().unwrap().look()), Ok(7));
    assert!(is_idle(&paths));
    let own = Arc::clone(&paths);
    drop(spawns(move || own.enter_timeout_owned(deposit, Duration::from_secs(600))).unwrap());
    drop(paths.try_enter_owned(remove).unwrap());
}

#[test]
fn the_last_guard_gives_the_paths_back() {
    let paths = Arc::new(Paths::open(SLOT).unwrap());
    let (deposit, gone) = (paths.op("deposit").unwrap(), Arc::downgrade(&paths));
    let guard = paths.enter_owned(deposit).unwrap();
    drop(paths);
    assert_eq!(guard.put(1), Ok(0));
    spawns(move || drop(guard));
    assert!(Weak::upgrade(&gone).is_none());
}

#[test]
fn a_refusal_keeps_no_paths() {
    let paths = Arc::new(Paths::open(SLOT).unwrap());
    let remove = paths.op("remove").unwrap();
    let refused = paths.try_enter_owned(remove).unwrap_err();
    let mut waits = Polled::new(paths.enter_async_owned(remove));
    assert!(waits.is_pending());
    assert_eq!(Arc::strong_count(&paths), 2);
    drop(waits);
    let paths = Arc::try_unwrap(paths).unwrap();
    drop(paths);
    // What it says outlives the paths.
    assert!(refused.to_string().starts_with("remove is blocked: path 0 of slot: deposit; remove;"));
}

/// More threads than there are beds sleep at once. Limits end, and each of the others is let in.
#[test]
fn two_hundred_threads_sleep_at_once() {
    let (paths, deposit, remove) = open(SLOT, 0, ["deposit", "remove"]);
    let paths = Arc::new(paths);
    let waits = |limit: Option<Duration>| {
        let paths = Arc::clone(&paths);
        thread::spawn(move || match limit {
            Some(limit) => paths.enter_timeout_owned(remove, limit).map(drop),
            None => paths.enter_owned(remove).map(drop),
        })
    };
    let patient: Vec<_> = (0..150).map(|number| waits((number % 2 == 0).then(|| Duration::from_secs(6000)))).collect();
    until_waiting(&paths, remove, 150);
    let hurried: Vec<_> = (0..50).map(|number| waits(Some(Duration::from_millis(number)))).collect();
    hurried.into_iter().for_each(|thread| assert_eq!(forbade(thread.join().unwrap()), 0));
    (0..150).for_each(|_| drop(paths.enter(deposit).unwrap()));
    assert!(patient.into_iter().all(|thread| thread.join().unwrap().is_ok()));
    assert_eq!(paths.report().unwrap(), "startable deposit\nblocked remove 0\nfrozen no\n");
}
