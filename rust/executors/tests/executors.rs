//! Tasks of executors that aren't tokio's: who waits holds nobody up, and gives its place back however it ends.

use std::sync::atomic::{AtomicU32, Ordering::SeqCst};
use std::sync::Arc;
use std::time::Duration;

use async_executor::LocalExecutor;
use executors::{run, until_waiting, yields, Task, KINDS};
use futures_lite::future::{block_on, or, yield_now};
use runtimes::{is_idle, open, Witness, POOL, SHELF, SLOT};
use wanzoche::{Op, Options, Paths};

/// A thousand tasks wait for one holder, and others go on meanwhile.
#[test]
fn a_thousand_tasks_wait_and_the_others_go_on() {
    for kind in KINDS {
        let (paths, take, _) = open(SHELF, ["take", "take"]);
        let number = if matches!(kind, executors::Kind::Threads) { 100 } else { 1000 };
        let guard = paths.enter_owned(take).unwrap();
        let inside = Arc::new(AtomicU32::new(0));
        let waits = |_| -> Task {
            let (paths, inside) = (Arc::clone(&paths), Arc::clone(&inside));
            Box::pin(async move {
                let _guard = paths.enter_async(take).await.unwrap();
                assert_eq!(inside.fetch_add(1, SeqCst), 0);
                yields(1).await;
                inside.fetch_sub(1, SeqCst);
            })
        };
        let mut tasks: Vec<Task> = (0..number).map(waits).collect();
        let own = Arc::clone(&paths);
        tasks.push(Box::pin(async move {
            until_waiting(&own, take, number).await;
            yields(100).await;
            assert_eq!(own.waiting(take), Ok(number));
            drop(guard);
        }));
        run(kind, tasks);
        assert!(is_idle(&paths) && paths.waiting(take) == Ok(0), "{kind:?}");
    }
}

/// More tasks wait than there are threads. If a wait took a thread, the deposits would never come.
#[test]
fn what_is_waited_for_comes() {
    for kind in KINDS {
        let (paths, deposit, remove) = open(SLOT, ["deposit", "remove"]);
        let sum = Arc::new(AtomicU32::new(0));
        let removes = |_| -> Task {
            let (paths, sum) = (Arc::clone(&paths), Arc::clone(&sum));
            Box::pin(async move {
                let guard = paths.enter_async_owned(remove).await.unwrap();
                yield_now().await;
                sum.fetch_add(guard.look().unwrap() as u32, SeqCst);
            })
        };
        let mut tasks: Vec<Task> = (0..8).map(removes).collect();
        let own = Arc::clone(&paths);
        tasks.push(Box::pin(async move {
            for number in 1..=8 {
                own.enter_async(deposit).await.unwrap().put(number).unwrap();
            }
        }));
        run(kind, tasks);
        assert_eq!((sum.load(SeqCst), is_idle(&paths)), (36, true), "{kind:?}");
    }
}

/// Waits, or gives up behind so many turns of other tasks.
async fn enters_or_gives_up(paths: &Paths, op: Op, times: u64, witness: &Witness, is_query: bool) {
    let entered = async { Some(paths.enter_async(op).await.unwrap()) };
    let gives_up = async {
        yields(times).await;
        None
    };
    if let Some(_guard) = or(entered, gives_up).await {
        witness.begins(is_query);
        yields(times % 3).await;
        witness.ends(is_query);
    }
}

/// Tasks that give up at all moments, woken or not: nobody is inside beside whom it mustn't be, and no turn is lost.
#[test]
fn who_gives_up_gives_its_place_back() {
    for kind in KINDS {
        for patience in [Duration::ZERO, Duration::MAX] {
            let paths = Arc::new(Options::new().patience(patience).open(POOL).unwrap());
            let [query, backup] = ["query", "backup"].map(|name| paths.op(name).unwrap());
            let witness = Arc::new(Witness::default());
            let comes_and_goes = |number: u64| -> Task {
                let (paths, witness) = (Arc::clone(&paths), Arc::clone(&witness));
                Box::pin(async move {
                    for turn in 0..200 {
                        let is_query = (number + turn) % 4 > 0;
                        enters_or_gives_up(&paths, if is_query { query } else { backup }, (number * 7 + turn) % 9, &witness, is_query)
                            .await;
                    }
                    drop(paths.enter_async(backup).await.unwrap());
                })
            };
            run(kind, (0..12).map(comes_and_goes).collect());
            assert_eq!((witness.faults(), is_idle(&paths)), (0, true), "{kind:?}");
            assert_eq!([query, backup].map(|op| paths.waiting(op)), [Ok(0), Ok(0)], "{kind:?}");
        }
    }
}

/// One that was woken and is cancelled before it runs. In one thread nothing runs between the two.
#[test]
fn a_task_that_is_cancelled_behind_its_wake_passes_the_turn_on() {
    let executor = LocalExecutor::new();
    let (paths, take, _) = open(SHELF, ["take", "take"]);
    block_on(executor.run(async {
        let guard = paths.enter_async(take).await.unwrap();
        let waits = || {
            let paths = Arc::clone(&paths);
            executor.spawn(async move { paths.enter_async(take).await.map(drop) })
        };
        let (first, second) = (waits(), waits());
        until_waiting(&paths, take, 2).await;
        drop(guard);
        assert!(first.cancel().await.is_none());
        second.await.unwrap();
    }));
    assert!(is_idle(&paths) && paths.waiting(take) == Ok(0));
}

/// The end of an executor drops its tasks.
#[test]
fn an_executor_that_ends_gives_all_places_back() {
    let (paths, take, _) = open(SHELF, ["take", "take"]);
    let executor = LocalExecutor::new();
    for _ in 0..10 {
        let paths = Arc::clone(&paths);
        executor.spawn(async move { drop(paths.enter_async(take).await.map(std::mem::forget)) }).detach();
    }
    let guard = paths.enter(take).unwrap();
    block_on(executor.run(until_waiting(&paths, take, 10)));
    drop(executor);
    assert_eq!(paths.waiting(take), Ok(0));
    drop(guard);
    drop(paths.try_enter(take).unwrap());
}

/// A reader that another task joins which reads, and a writer between: it comes in when the door opens, for which no executor has a timer.
#[test]
fn a_task_that_is_joined_comes_in_when_the_door_opens() {
    let text = "resource book cell operation read, write, pass path { read } , write end path pass end end";
    let paths = Arc::new(Options::new().patience(Duration::ZERO).open(text).unwrap());
    let [read, write, pass] = ["read", "write", "pass"].map(|name| paths.op(name).unwrap());
    let executor = LocalExecutor::new();
    let enters = |op| {
        let paths = Arc::clone(&paths);
        executor.spawn(async move { paths.enter_async(op).await.map(|guard| guard.activation()) })
    };
    block_on(executor.run(async {
        // Somebody waits from the beginning, so that it is noted who reads.
        let passes = paths.enter_async(pass).await.unwrap();
        let beside = enters(pass);
        until_waiting(&paths, pass, 1).await;
        let outer = paths.enter_async(read).await.unwrap();
        let writer = enters(write);
        until_waiting(&paths, write, 1).await;
        assert!(paths.why(read).unwrap().unwrap().behind().is_some());
        assert_eq!((enters(read).await, paths.waiting(write)), (Ok(2), Ok(1)));
        drop(outer);
        assert_eq!(writer.await, Ok(3));
        drop(passes);
        assert_eq!(beside.await, Ok(4));
    }));
    assert!(is_idle(&paths));
}
