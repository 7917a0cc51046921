//! What becomes of places and turns when futures are dropped or forgotten, bodies and logs panic, and when a `Drop` waits.

use std::cell::RefCell;
use std::future::Future;
use std::panic::{catch_unwind, AssertUnwindSafe};
use std::pin::Pin;
use std::sync::atomic::{AtomicBool, Ordering::SeqCst};
use std::sync::{Arc, Mutex};
use std::task::{Context, Poll};
use std::thread;
use std::time::Duration;

use common::random::Random;
use common::tasks::{Executor, GivesWay, Polled};
use common::{forbids, is_idle, kept, open, open_patient, until_waiting, BOOK, SHELF};
use wanzoche::{Enter, Error, Guard, Op, Options, Paths, Verdict};

mod common;

/// Two tasks that wait for what is in progress.
fn two_wait(paths: &Paths, op: Op) -> [Polled<Enter<'_>>; 2] {
    let mut tasks = [Polled::new(paths.enter_async(op)), Polled::new(paths.enter_async(op))];
    assert!(tasks.iter_mut().all(Polled::is_pending));
    tasks
}

#[test]
fn a_future_may_be_dropped_at_each_stage() {
    let (paths, take, _) = open(SHELF, 30, ["take", "take"]);
    // Before it is polled.
    drop(paths.enter_async(take));
    let guard = paths.enter(take).unwrap();
    let [first, mut second] = two_wait(&paths, take);
    // While it waits.
    drop(first);
    assert_eq!(paths.waiting(take), Ok(1));
    drop(guard);
    assert_eq!(second.counter.woken(), 1);
    // While it lets the other go first, who was woken.
    let mut third = Polled::new(paths.enter_async(take));
    assert!(third.is_pending() && third.counter.woken() == 1);
    drop(third);
    // When it is ready, with its guard.
    drop(second.ready());
    assert!(is_idle(&paths) && paths.waiting(take) == Ok(0));
    assert_eq!(paths.try_enter(take).unwrap().activation(), 2);
}

#[test]
fn a_future_that_was_woken_passes_its_turn_on() {
    let (paths, take, _) = open(SHELF, 30, ["take", "take"]);
    let guard = paths.enter(take).unwrap();
    let [first, mut second] = two_wait(&paths, take);
    drop(guard);
    assert_eq!((first.counter.woken(), second.counter.woken()), (1, 0));
    drop(first);
    assert_eq!(second.counter.woken(), 1);
    drop(second.ready().unwrap());
}

/// The same where a thread comes next.
#[test]
fn a_future_that_was_woken_passes_its_turn_on_to_a_thread() {
    let (paths, take, _) = open(SHELF, 0, ["take", "take"]);
    thread::scope(|scope| {
        let guard = paths.enter(take).unwrap();
        let mut first = Polled::new(paths.enter_async(take));
        assert!(first.is_pending());
        let waits = scope.spawn(|| drop(paths.enter(take).unwrap()));
        until_waiting(&paths, take, 2);
        drop(guard);
        drop(first);
        waits.join().unwrap();
    });
    assert!(is_idle(&paths));
}

/// A forgotten future keeps its place. The turn that it is offered is lost until another ends; time limits end, and nobody is let in beside.
#[test]
fn a_forgotten_future_holds_nobody_up_for_longer_than_a_turn() {
    let (paths, take, _) = open_patient(SHELF, Duration::MAX, ["take", "take"]);
    let guard = paths.enter(take).unwrap();
    let [first, mut second] = two_wait(&paths, take);
    std::mem::forget(first.future);
    drop(guard);
    assert_eq!((first.counter.woken(), second.counter.woken(), paths.waiting(take)), (1, 0, Ok(2)));
    // Whoever comes along may start, and the end wakes who is behind the forgotten one.
    drop(paths.enter_timeout(take, Duration::from_secs(60)).unwrap());
    assert_eq!(second.counter.woken(), 1);
    drop(second.ready().unwrap());
    // A task that comes along gives way once, and no more.
    let mut third = Polled::new(paths.enter_async(take));
    assert!(third.is_pending());
    drop(third.ready().unwrap());
    assert_eq!(paths.waiting(take), Ok(1));
    paths.close();
}

#[test]
fn a_forgotten_guard_of_a_task_stays_in_progress() {
    let (paths, read, write) = open_patient(BOOK, Duration::MAX, ["read", "write"]);
    std::mem::forget(Polled::new(paths.enter_async(read)).ready().unwrap());
    let mut waits = Polled::new(paths.enter_async(write));
    assert!(waits.is_pending());
    drop(Polled::new(paths.enter_async(read)).ready().unwrap());
    assert!(waits.is_pending());
    assert_eq!(forbids(paths.try_enter(write)), 0);
    drop(waits);
    let paths = Arc::new(paths);
    std::mem::forget(paths.enter_owned(read).unwrap());
    assert_eq!(Arc::strong_count(&paths), 2);
}

/// Ten thousand futures are dropped, at random before they are polled, while they wait, when they were woken, and as guards. Afterwards
/// nobody waits, nothing is in progress, and each start was admitted rightly.
#[test]
fn places_come_back_after_ten_thousand_drops() {
    let (log, lines) = kept();
    let text = "resource pool cell operation query, backup path { query : 3 } , backup end end";
    let paths = Options::new().room(1000).log(log).open(text).unwrap();
    let ops = [paths.op("query").unwrap(), paths.op("backup").unwrap()];
    let mut random = Random::new();
    let (mut waits, mut inside): (Vec<Polled<Enter<'_>>>, Vec<Guard<'_>>) = Default::default();
    let mut dropped = 0;
    while dropped < 10_000 {
        let at = random.below(40) as usize;
        match random.below(4) {
            0 => waits.push(Polled::new(paths.enter_async(ops[usize::from(random.below(4) == 0)]))),
            1 if at < waits.len() => {
                drop(waits.swap_remove(at));
                dropped += 1;
            }
            2 if at < inside.len() => drop(inside.swap_remove(at)),
            _ if at < waits.len() => {
                if let Poll::Ready(guard) = waits[at].poll() {
                    waits.swap_remove(at);
                    inside.push(guard.unwrap());
                }
            }
            _ => {}
        }
    }
    drop((waits, inside));
    assert_eq!((paths.waiting(ops[0]), paths.waiting(ops[1])), (Ok(0), Ok(0)));
    assert_eq!(paths.report().unwrap(), "startable query backup\nfrozen no\n");
    let whole = lines.lock().unwrap().clone() + &paths.journal().unwrap();
    assert_eq!(paths.audit(&whole), Ok(Verdict::Sound), "{}", random.seed);
}

/// Tasks that give up at random while others wait: no turn is lost, so the executor comes to rest with none left.
#[test]
fn no_turn_is_lost_among_tasks_that_give_up() {
    for _ in 0..50 {
        let random = Mutex::new(Random::new());
        let (paths, read, write) = open(BOOK, 30, ["read", "write"]);
        let mut executor = Executor::default();
        for number in 0..20 {
            let (paths, random) = (&paths, &random);
            let op = if number % 4 == 0 { write } else { read };
            executor.spawn(async move {
                for _ in 0..50 {
                    let patience = random.lock().unwrap().below(4);
                    let guard = gives_up(paths.enter_async(op), patience, number % 3 == 0).await;
                    GivesWay::default().await;
                    drop(guard);
                }
            });
        }
        let seed = random.lock().unwrap().seed;
        assert_eq!(executor.run(), 0, "{seed}");
        assert!(is_idle(&paths) && paths.waiting(read) == Ok(0) && paths.waiting(write) == Ok(0));
    }
}

/// The guard, or none if it isn't there after so many polls, for tasks that give up.
async fn gives_up(mut enters: Enter<'_>, polls: u64, gives_up: bool) -> Option<Guard<'_>> {
    if !gives_up {
        return Some(enters.await.unwrap());
    }
    for _ in 0..polls {
        if let Poll::Ready(guard) = (PollsOnce { enters: &mut enters }).await {
            return Some(guard.unwrap());
        }
        GivesWay::default().await;
    }
    None
}

/// What one poll of a future comes to.
struct PollsOnce<'f, 'a> {
    enters: &'f mut Enter<'a>,
}

impl<'a> Future for PollsOnce<'_, 'a> {
    type Output = Poll<Result<Guard<'a>, Error>>;

    fn poll(mut self: Pin<&mut Self>, context: &mut Context<'_>) -> Poll<Self::Output> {
        Poll::Ready(Pin::new(&mut *self.enters).poll(context))
    }
}

#[test]
fn a_panic_in_a_task_finishes_its_operation() {
    let (paths, take, _) = open(SHELF, 30, ["take", "take"]);
    let guard = Polled::new(paths.enter_async(take)).ready().unwrap();
    let [mut first, second] = two_wait(&paths, take);
    let panics = catch_unwind(AssertUnwindSafe(|| {
        let _guard = guard;
        panic!("in the body");
    }));
    assert!(panics.is_err() && first.counter.woken() == 1);
    // A future is dropped by a panic, too.
    let panics = catch_unwind(AssertUnwindSafe(|| {
        let _second = second;
        panic!("beside it");
    }));
    assert!(panics.is_err() && paths.waiting(take) == Ok(1));
    drop(first.ready().unwrap());
    assert!(is_idle(&paths));
}

/// A poll that finds the journal full calls the log. Its panic goes on there, and the turn goes to the next.
#[test]
fn a_log_that_panics_in_a_poll_passes_the_turn_on() {
    let panics = AtomicBool::new(true);
    let log = Box::new(move |_: &str| assert!(!panics.swap(false, SeqCst), "the log panics"));
    let paths = Options::new().room(6).log(log).open(SHELF).unwrap();
    let take = paths.op("take").unwrap();
    let guard = paths.enter(take).unwrap();
    let [mut first, mut second] = two_wait(&paths, take);
    // The start, its finish and two refused starts take four places of the six.
    (0..2).for_each(|_| assert_eq!(guard.look(), Ok(0)));
    drop(guard);
    assert!(catch_unwind(AssertUnwindSafe(|| first.poll())).is_err());
    assert_eq!((paths.waiting(take), second.counter.woken()), (Ok(1), 1));
    drop(first);
    drop(second.ready().unwrap());
    assert!(is_idle(&paths) && paths.waiting(take) == Ok(0));
}

/// What is dropped in a task or at the end of a thread may wait, too.
#[test]
fn a_drop_may_wait() {
    struct Takes(Arc<Paths>, Op);
    impl Drop for Takes {
        fn drop(&mut self) {
            drop(self.0.enter(self.1).unwrap());
        }
    }
    thread_local! {
        static LAST: RefCell<Option<Takes>> = const { RefCell::new(None) };
    }
    let (paths, take, _) = open(SHELF, 0, ["take", "take"]);
    let paths = Arc::new(paths);
    let takes = Takes(Arc::clone(&paths), take);
    let guard = paths.enter(take).unwrap();
    let at_its_end = thread::spawn(move || LAST.with(|last| *last.borrow_mut() = Some(takes)));
    until_waiting(&paths, take, 1);
    let takes = Takes(Arc::clone(&paths), take);
    let by_a_panic = thread::spawn(move || {
        let _takes = takes;
        panic!("waits as it unwinds");
    });
    until_waiting(&paths, take, 2);
    drop(guard);
    assert!(at_its_end.join().is_ok() && by_a_panic.join().is_err());
    assert!(is_idle(&paths));
}

#[test]
fn a_thousand_tasks_wait_for_one() {
    let (paths, take, _) = open(SHELF, 30, ["take", "take"]);
    let guard = paths.enter(take).unwrap();
    let mut tasks: Vec<Polled<Enter<'_>>> = (0..1000).map(|_| Polled::new(paths.enter_async(take))).collect();
    assert!(tasks.iter_mut().all(Polled::is_pending));
    assert_eq!(paths.waiting(take), Ok(1000));
    drop(guard);
    assert!(tasks.iter_mut().all(|task| task.counter.woken() == 1 && task.ready().map(drop) == Ok(())));
    assert!(is_idle(&paths) && paths.waiting(take) == Ok(0));
}
