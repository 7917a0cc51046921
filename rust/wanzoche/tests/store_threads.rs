//! How many threads the tasks take that wait at a store. It is one test alone, so that no other begins threads meanwhile.

use std::fs;
use std::task::Poll;

use common::stores::{is_idle, opened_as, until_waiting, Folder};
use common::tasks::Polled;
use common::until;
use wanzoche::store::{Enter, Guard, Options};
use wanzoche::{Error, Op, Store, Verdict};

mod common;

const TASKS: u32 = 1000;

fn threads() -> usize {
    fs::read_dir("/proc/self/task").unwrap().count()
}

fn begun<'a>(store: &'a Store, op: Op) -> Vec<Polled<Enter<'a>>> {
    let mut tasks: Vec<_> = (0..TASKS).map(|_| Polled::new(store.enter_async(op))).collect();
    assert!(tasks.iter_mut().all(Polled::is_pending));
    tasks
}

/// What each comes to that was woken once.
fn ready<'a>(tasks: &mut Vec<Polled<Enter<'a>>>) -> Vec<Guard<'a>> {
    until(|| tasks.iter().all(|task| task.counter.woken() == 1));
    let told: Result<Vec<_>, Error> = tasks.iter_mut().map(Polled::ready).collect();
    told.unwrap()
}

/// Tasks wait, are dropped, begin and end: one thread does all that for them, and another waits for the disk, where the store is synced.
fn takes(options: &Options, most: usize) {
    let folder = Folder::new();
    let file = folder.file("book.log");
    let ((store, read, write), (other, ..)) = (opened_as(options, &file), opened_as(options, &file));
    let before = threads();
    let writes = other.enter(other.op("write").unwrap()).unwrap();
    let mut waiting = begun(&store, read);
    until_waiting(&store, read, TASKS);
    assert_eq!(threads(), before + 1);
    drop(waiting.split_off(500));
    until_waiting(&store, read, 500);
    drop(writes);
    let guards = ready(&mut waiting);
    assert_eq!((store.waiting(read), store.report().unwrap().matches("live").count()), (Ok(0), 500));
    drop((guards, waiting));
    until(|| is_idle(&store));
    let mut last = Polled::new(store.enter_async(write));
    until(|| matches!(last.poll(), Poll::Ready(Ok(_))));
    drop(last);
    assert!(threads() <= before + most, "{} threads, and {before} before", threads());
    // With nothing to do they end, and again at the end of the store, where something waits.
    until(|| threads() == before);
    std::mem::forget(begun(&store, read));
    assert_eq!((store.close(), other.audit()), (Ok(()), Ok(Verdict::Sound)));
    until(|| threads() == before);
}

#[test]
fn a_thousand_tasks_take_one_thread() {
    takes(&Options::new().without_sync(), 1);
    takes(&Options::new(), 2);
}
