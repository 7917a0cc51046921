//! Tasks that wait at a store, polled by hand and by an executor of this test.

use std::fs;
use std::sync::atomic::{AtomicU32, Ordering::SeqCst};
use std::sync::{Arc, Mutex};
use std::task::{Poll, Wake};
use std::thread;
use std::time::Duration;

use common::random::Random;
use common::stores::{hindered, is_idle, opened, opened_as, until_waiting, Folder, Page};
use common::tasks::{poll_by, Counter, Polled};
use common::until;
use wanzoche::store::{EnterOwned, Options};
use wanzoche::{Error, Verdict};

mod common;

/// Polls until it is ready, each time that it was woken.
fn awaited<F: std::future::Future + Unpin>(polled: &mut Polled<F>) -> F::Output {
    let mut woken = 0;
    loop {
        if let Poll::Ready(output) = polled.poll() {
            return output;
        }
        until(|| polled.counter.woken() > woken);
        woken = polled.counter.woken();
    }
}

#[test]
fn a_task_is_woken_when_its_operation_has_begun() {
    let folder = Folder::new();
    let (store, read, write) = opened(&folder.file("book.log"));
    let reads = store.enter(read).unwrap();
    let mut writes = Polled::new(store.enter_async(write));
    assert_eq!(store.waiting(write), Ok(0));
    assert!(writes.is_pending());
    until_waiting(&store, write, 1);
    assert!(writes.is_pending());
    drop(reads);
    let guard = awaited(&mut writes).unwrap();
    assert_eq!((writes.counter.woken(), guard.activation(), guard.op(), guard.put(7)), (1, 1, write, Ok(0)));
    drop(guard);
    // Another thread leaves it.
    assert_eq!(store.enter(read).unwrap().look(), Ok(7));
    until(|| is_idle(&store));
    assert_eq!(store.audit(), Ok(Verdict::Sound));
}

#[test]
fn the_last_waker_counts() {
    let folder = Folder::new();
    let (store, read, write) = opened(&folder.file("book.log"));
    let reads = store.enter(read).unwrap();
    let (first, last) = (Counter::new(), Counter::new());
    let mut writes = store.enter_async(write);
    assert!(poll_by(&mut writes, &first.clone().into()).is_pending());
    assert!(poll_by(&mut writes, &last.clone().into()).is_pending());
    drop(reads);
    until(|| last.woken() == 1);
    assert_eq!(first.woken(), 0);
    assert!(poll_by(&mut writes, &last.into()).is_ready());
}

/// A poll and a drop come back while another has the turn and doesn't give it: no call of the library is made in them. The entry is made
/// when the turn is given, and the leave as well.
#[test]
fn polls_and_drops_wait_for_no_turn() {
    let folder = Folder::new();
    let file = folder.file("book.log");
    let (store, read, _) = opened(&file);
    let (other, ..) = opened(&file);
    let mut reads = Polled::new(store.enter_async(read));
    let guard = awaited(&mut reads).unwrap();
    let page = Page::of(&file);
    page.take_slots(other.worker());
    page.stop(other.worker());
    let mut more: Vec<_> = (0..100).map(|_| Polled::new(store.enter_async(read))).collect();
    assert!(more.iter_mut().all(|each| each.is_pending()));
    drop(guard);
    drop(more.split_off(50));
    page.go_on();
    page.free_slots();
    let guards: Vec<_> = more.iter_mut().map(|each| awaited(each).unwrap()).collect();
    until(|| store.report().unwrap().matches("live").count() == 50);
    drop(guards);
    until(|| is_idle(&store));
}

/// A task waits for its turn for as long as it takes, beside a try that doesn't.
#[test]
fn a_task_is_never_late() {
    let folder = Folder::new();
    let file = folder.file("book.log");
    let (store, read, _) = opened(&file);
    let (other, ..) = opened(&file);
    let page = Page::of(&file);
    page.stop(other.worker());
    let mut reads = Polled::new(store.enter_async(read));
    assert!(reads.is_pending());
    until(|| page.is_awaited());
    assert_eq!(store.try_enter(read).map(drop), Err(Error::Late));
    page.go_on();
    drop(awaited(&mut reads).unwrap());
}

/// A future that is dropped waits no more, and its turn goes to the next.
#[test]
fn a_dropped_future_passes_its_turn_on() {
    let folder = Folder::new();
    let (store, read, write) = opened(&folder.file("book.log"));
    for _ in 0..200 {
        let reads = store.enter(read).unwrap();
        let (mut first, mut second) = (Polled::new(store.enter_async(write)), Polled::new(store.enter_async(write)));
        assert!(first.is_pending());
        until_waiting(&store, write, 1);
        assert!(second.is_pending());
        until_waiting(&store, write, 2);
        drop(reads);
        drop(first);
        drop(awaited(&mut second).unwrap());
        until(|| store.waiting(write) == Ok(0));
    }
    until(|| is_idle(&store));
    assert_eq!(store.audit(), Ok(Verdict::Sound));
}

#[test]
fn a_future_that_is_dropped_before_it_has_a_turn_starts_nothing() {
    let folder = Folder::new();
    let (store, read, write) = opened(&folder.file("book.log"));
    let reads = store.enter(read).unwrap();
    drop(store.enter_async(write));
    let mut waits = Polled::new(store.enter_async(write));
    assert!(waits.is_pending());
    until_waiting(&store, write, 1);
    drop(waits);
    until_waiting(&store, write, 0);
    drop(reads);
    assert_eq!(store.journal().as_deref(), Ok("1 start read: started 0\n1 finish 0: finished\n"));
}

/// One that is ready, and was never polled behind that, has begun: to drop it leaves.
#[test]
fn a_future_that_is_dropped_when_it_is_ready_leaves() {
    let folder = Folder::new();
    let (store, read, write) = opened(&folder.file("book.log"));
    let mut writes = Polled::new(store.enter_async(write));
    assert!(writes.is_pending());
    until(|| writes.counter.woken() == 1);
    assert_eq!(hindered(store.try_enter(read)).operation(), "read");
    drop(writes);
    until(|| is_idle(&store));
}

/// A store that is dropped waits for nobody who waits for others.
#[test]
fn a_forgotten_future_ends_with_its_store() {
    let folder = Folder::new();
    let file = folder.file("book.log");
    let (other, _, others_write) = opened(&file);
    let writes = other.enter(others_write).unwrap();
    let (store, read, _) = opened(&file);
    let mut reads = Polled::new(store.enter_async(read));
    assert!(reads.is_pending());
    until_waiting(&other, other.op("read").unwrap(), 1);
    std::mem::forget(reads);
    assert_eq!(store.close(), Ok(()));
    assert_eq!(other.waiting(other.op("read").unwrap()), Ok(0));
    drop(writes);
    assert!(other.try_enter(others_write).is_ok());
}

#[test]
fn owned_futures_and_guards_keep_the_store() {
    let folder = Folder::new();
    let file = folder.file("book.log");
    let (store, _, write) = opened(&file);
    let (other, read, _) = opened(&file);
    let mut writes = Polled::new(Arc::new(store).enter_async_owned(write));
    let guard = awaited(&mut writes).unwrap();
    drop(writes);
    let moved = thread::spawn(move || (guard.put(3), guard));
    let (put, guard) = moved.join().unwrap();
    assert_eq!((put, hindered(other.try_enter(read)).operation().to_string()), (Ok(0), "read".to_string()));
    drop(guard);
    until(|| other.why(read) == Ok(None));
}

#[test]
fn operations_of_others_are_refused() {
    let folder = Folder::new();
    let (store, ..) = opened(&folder.file("book.log"));
    let (other, read, _) = opened(&folder.file("other.log"));
    let mut reads = Polled::new(store.enter_async(read));
    assert_eq!(reads.ready().map(drop), Err(Error::ForeignOperation));
    drop((reads, other));
}

/// What a task has in progress counts as running while it waits: strictly, its own second read waits behind the writer until a door opens.
#[test]
fn a_task_that_reads_twice_goes_on_when_a_door_opens() {
    let folder = Folder::new();
    let (store, read, write) = opened_as(&Options::new().without_sync().patience(Duration::ZERO), &folder.file("book.log"));
    let first = awaited(&mut Polled::new(store.enter_async(read))).unwrap();
    let mut writes = Polled::new(store.enter_async(write));
    assert!(writes.is_pending());
    until_waiting(&store, write, 1);
    let mut second = Polled::new(store.enter_async(read));
    drop(awaited(&mut second).unwrap());
    drop(first);
    drop(awaited(&mut writes).unwrap());
}

/// A task that nobody has but who wakes it.
struct Lonely(Mutex<Option<EnterOwned>>);

impl Wake for Lonely {
    fn wake(self: Arc<Self>) {}
}

/// A thread of the crate's own wakes it, so that one drops the task, and with it the store.
#[test]
fn a_store_that_is_dropped_as_its_task_is_woken() {
    let folder = Folder::new();
    let (other, _, others_write) = opened(&folder.file("book.log"));
    let writes = other.enter(others_write).unwrap();
    let (store, read, _) = opened(&folder.file("book.log"));
    let task = Arc::new(Lonely(Mutex::new(Some(Arc::new(store).enter_async_owned(read)))));
    let waker = task.clone().into();
    assert!(poll_by(task.0.lock().unwrap().as_mut().unwrap(), &waker).is_pending());
    until_waiting(&other, other.op("read").unwrap(), 1);
    drop((waker, task));
    assert_eq!(other.recover(2), Err(Error::Alive));
    drop(writes);
    until(|| other.recover(2) == Ok(0));
    assert!(is_idle(&other));
}

/// Futures that are dropped at any point, before they wait, while they wait, as they are called, and when they have begun, leave nothing.
#[test]
fn futures_dropped_at_any_point() {
    let folder = Folder::new();
    let file = folder.file("book.log");
    let ((store, read, write), (other, ..)) = (opened(&file), opened(&file));
    let others_write = other.op("write").unwrap();
    let mut chance = Random::new();
    for _ in 0..300 {
        let writes = other.enter(others_write).unwrap();
        let mut tasks: Vec<_> = (0..8).map(|each| Polled::new(store.enter_async(if each % 3 == 0 { write } else { read }))).collect();
        tasks.iter_mut().take(chance.below(9) as usize).for_each(|task| assert!(task.is_pending()));
        (0..chance.below(3)).for_each(|_| thread::yield_now());
        drop(tasks.split_off(chance.below(9) as usize));
        drop(writes);
        (0..chance.below(200)).for_each(|_| thread::yield_now());
        // Some are polled when they have begun, and their guards dropped.
        tasks.iter_mut().take(chance.below(9) as usize).for_each(|task| drop(task.poll()));
        drop(tasks);
        drop(other.enter(others_write).unwrap());
    }
    until(|| is_idle(&store));
    assert_eq!((store.waiting(read), store.waiting(write), store.audit()), (Ok(0), Ok(0), Ok(Verdict::Sound)));
}

/// Who waits at a store that is broken is told so.
#[test]
fn a_store_that_breaks_ends_all_waits() {
    let folder = Folder::new();
    let file = folder.file("book.log");
    let (store, read, write) = opened(&file);
    let reads = store.enter(read).unwrap();
    let mut tasks: Vec<_> = (0..50).map(|_| Polled::new(store.enter_async(write))).collect();
    assert!(tasks.iter_mut().all(|task| task.is_pending()));
    until_waiting(&store, write, 50);
    fs::write(&file, "").unwrap();
    let first = awaited(&mut tasks[0]).map(drop);
    assert!(matches!(first, Err(Error::Corrupt { .. })), "{first:?}");
    for task in &mut tasks[1..] {
        assert_eq!(awaited(task).map(drop), first);
    }
    assert_eq!(store.waiting(write), Ok(0));
    drop(reads);
}

struct Panics(AtomicU32);

impl Wake for Panics {
    fn wake(self: Arc<Self>) {
        self.0.fetch_add(1, SeqCst);
        panic!("a waker");
    }
}

/// At most it ends a thread of the crate's own: others go on to be served, and the store ends.
#[test]
fn a_waker_that_panics() {
    let folder = Folder::new();
    let (store, read, write) = opened(&folder.file("book.log"));
    let panics = Arc::new(Panics(AtomicU32::new(0)));
    let mut writes = store.enter_async(write);
    assert!(poll_by(&mut writes, &panics.clone().into()).is_pending());
    until(|| panics.0.load(SeqCst) == 1);
    drop(writes);
    drop(awaited(&mut Polled::new(store.enter_async(read))).unwrap());
    assert_eq!(store.close(), Ok(()));
}

/// Tasks of two openings on a few threads, each of which polls its own in turn.
#[test]
fn many_tasks() {
    let folder = Folder::new();
    let file = folder.file("book.log");
    let (one, ..) = opened(&file);
    let (other, ..) = opened(&file);
    let inside = AtomicU32::new(0);
    thread::scope(|scope| {
        for store in [&one, &other, &one] {
            let inside = &inside;
            scope.spawn(move || {
                let write = store.op("write").unwrap();
                for _ in 0..20 {
                    let mut all: Vec<_> = (0..10).map(|_| Polled::new(store.enter_async(write))).collect();
                    assert!(all.iter_mut().all(|each| each.is_pending()));
                    while !all.is_empty() {
                        all.retain_mut(|each| match each.poll() {
                            Poll::Pending => true,
                            Poll::Ready(guard) => {
                                assert_eq!(inside.fetch_add(1, SeqCst), 0);
                                inside.fetch_sub(1, SeqCst);
                                drop(guard.unwrap());
                                false
                            }
                        });
                        thread::yield_now();
                    }
                }
            });
        }
    });
    until(|| is_idle(&one));
    assert_eq!((other.audit(), other.journal().unwrap().lines().count()), (Ok(Verdict::Sound), 1200));
}
