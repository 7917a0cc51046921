//! Who comes next by a clock that goes on: what is withheld comes in when a door opens, and nobody is lost in a strict order.

use std::future::Future;
use std::sync::Arc;
use std::task::{Poll, Wake, Waker};
use std::thread::{self, Thread};
use std::time::Duration;

use common::random::Random;
use common::tasks::poll_by;
use common::{is_idle, open_patient, until_waiting, BOOK};
use wanzoche::{Op, Options, Paths, Verdict};

mod common;

/// Wakes a thread that polls one future.
struct Unparks(Thread);

impl Wake for Unparks {
    fn wake(self: Arc<Self>) {
        self.0.unpark();
    }
}

fn own_waker() -> Waker {
    Waker::from(Arc::new(Unparks(thread::current())))
}

/// Polls a future as the task of this waker, which is that of the calling thread.
fn block_on<F: Future + Unpin>(mut future: F, waker: &Waker) -> F::Output {
    loop {
        match poll_by(&mut future, waker) {
            Poll::Ready(output) => return output,
            Poll::Pending => thread::park(),
        }
    }
}

/// A reader that joins a thread that reads, and a writer between: the library doesn't see the join, so it is the door that ends this.
#[test]
fn a_thread_that_is_joined_comes_in_when_the_door_opens() {
    let (paths, read, write) = open_patient(BOOK, Duration::ZERO, ["read", "write"]);
    thread::scope(|scope| {
        let outer = paths.enter(read).unwrap();
        let writer = scope.spawn(|| paths.enter(write).unwrap().activation());
        until_waiting(&paths, write, 1);
        let inner = scope.spawn(|| paths.enter(read).unwrap().activation());
        assert_eq!((inner.join().unwrap(), paths.waiting(write)), (1, Ok(1)));
        drop(outer);
        assert_eq!(writer.join().unwrap(), 2);
    });
    assert!(is_idle(&paths));
}

/// The same of tasks, which an alarm wakes. Somebody waits beside them from the beginning, so that it is noted who reads.
#[test]
fn a_task_that_is_joined_comes_in_when_the_door_opens() {
    let text = "resource book cell operation read, write, pass path { read } , write end path pass end end";
    let (paths, read, write) = open_patient(text, Duration::ZERO, ["read", "write"]);
    let pass = paths.op("pass").unwrap();
    let enters = |op| block_on(paths.enter_async(op), &own_waker()).unwrap();
    thread::scope(|scope| {
        let passes = enters(pass);
        let beside = scope.spawn(|| enters(pass).activation());
        until_waiting(&paths, pass, 1);
        let outer = enters(read);
        let writer = scope.spawn(|| enters(write).activation());
        until_waiting(&paths, write, 1);
        let inner = [0, 1].map(|_| scope.spawn(|| enters(read).activation()));
        let mut reads = inner.map(|thread| thread.join().unwrap());
        reads.sort_unstable();
        assert_eq!((reads, paths.waiting(write)), ([2, 3], Ok(1)));
        drop(outer);
        assert_eq!(writer.join().unwrap(), 4);
        drop(passes);
        assert_eq!(beside.join().unwrap(), 5);
    });
    assert!(is_idle(&paths));
}

/// Reads or writes, and meanwhile reads again or passes, with priorities at random: as a thread or as a task.
fn visits(paths: &Paths, ops: [Op; 3], rounds: u32, is_task: bool) {
    let (mut random, waker) = (Random::new(), own_waker());
    let enters = |op| if is_task { block_on(paths.enter_async(op), &waker) } else { paths.enter(op) };
    for _ in 0..rounds {
        let [read, write, pass] = ops.map(|op| op.with_priority(random.below(3) as u32));
        let reads = random.below(4) > 0;
        let outer = enters(if reads { read } else { write }).unwrap();
        match random.below(4) {
            0 => drop(paths.enter_timeout(pass, Duration::from_micros(random.below(300)))),
            1 if reads => drop(enters(read).unwrap()),
            2 => drop(enters(pass).unwrap()),
            _ => thread::yield_now(),
        }
        drop(outer);
    }
}

/// Threads and tasks that hold one thing and ask for another, in a strict order: all come to an end, and each start was admitted rightly.
#[test]
fn nobody_is_lost_in_a_strict_order() {
    let text = "resource book cell operation read, write, pass path { read } , write end path { pass : 2 } end end";
    let paths = Options::new().room(100_000).yields(0).patience(Duration::ZERO).open(text).unwrap();
    let ops = ["read", "write", "pass"].map(|name| paths.op(name).unwrap());
    thread::scope(|scope| {
        for number in 0..8 {
            let paths = &paths;
            scope.spawn(move || visits(paths, ops, 500, number % 2 == 0));
        }
    });
    assert!(is_idle(&paths) && paths.waiters().unwrap().is_empty());
    assert_eq!(paths.audit(&paths.journal().unwrap()), Ok(Verdict::Sound));
}
