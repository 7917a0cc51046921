//! Tasks of tokio: who waits holds nobody up, and gives its place back however it ends.

use std::sync::atomic::{AtomicU32, Ordering::SeqCst};
use std::sync::Arc;
use std::thread;
use std::time::Duration;

use runtimes::{in_time, is_idle, one_thread, open, runtimes, threads, until_waiting, yields, SHELF, SLOT};
use tokio::sync::{mpsc, oneshot};
use tokio::task::{spawn_blocking, JoinHandle};
use wanzoche::{Error, OwnedGuard};

/// A thousand tasks wait for one holder, in one thread, and the thread goes on with others.
#[test]
fn a_thousand_tasks_wait_and_the_thread_goes_on() {
    one_thread().block_on(async {
        let (paths, take, _) = open(SHELF, ["take", "take"]);
        let (inside, done) = (Arc::new(AtomicU32::new(0)), Arc::new(AtomicU32::new(0)));
        let guard = paths.enter_async_owned(take).await.unwrap();
        let tasks: Vec<JoinHandle<()>> = (0..1000)
            .map(|_| {
                let (paths, inside, done) = (Arc::clone(&paths), Arc::clone(&inside), Arc::clone(&done));
                tokio::spawn(async move {
                    let _guard = paths.enter_async(take).await.unwrap();
                    assert_eq!(inside.fetch_add(1, SeqCst), 0);
                    yields(1).await;
                    inside.fetch_sub(1, SeqCst);
                    done.fetch_add(1, SeqCst);
                })
            })
            .collect();
        until_waiting(&paths, take, 1000).await;
        let others = tokio::spawn(async {
            yields(1000).await;
            tokio::time::sleep(Duration::from_millis(1)).await;
        });
        in_time(others).await.unwrap();
        assert_eq!((paths.waiting(take), done.load(SeqCst)), (Ok(1000), 0));
        drop(guard);
        for task in tasks {
            in_time(task).await.unwrap();
        }
        assert_eq!((paths.waiting(take), done.load(SeqCst)), (Ok(0), 1000));
        assert!(is_idle(&paths));
    });
}

/// More tasks wait than there are threads. If a wait took a thread, the deposits would never come.
#[test]
fn four_tasks_wait_on_two_threads() {
    threads(2).block_on(async {
        let (paths, deposit, remove) = open(SLOT, ["deposit", "remove"]);
        let waits = |number: u64| {
            let paths = Arc::clone(&paths);
            tokio::spawn(async move { (number, paths.enter_async(remove).await.unwrap().look().unwrap()).1 })
        };
        let tasks: Vec<JoinHandle<u64>> = (0..4).map(waits).collect();
        until_waiting(&paths, remove, 4).await;
        for number in 0..4 {
            in_time(paths.enter_async(deposit)).await.unwrap().put(number).unwrap();
        }
        let mut got = Vec::new();
        for task in tasks {
            got.push(in_time(task).await.unwrap());
        }
        got.sort_unstable();
        assert_eq!(got, [0, 1, 2, 3]);
    });
}

#[test]
fn a_blocking_thread_of_the_runtime_returns_a_guard() {
    for runtime in runtimes() {
        runtime.block_on(async {
            let (paths, deposit, remove) = open(SLOT, ["deposit", "remove"]);
            let own = Arc::clone(&paths);
            let blocks = spawn_blocking(move || own.enter_owned(remove));
            in_time(paths.enter_async(deposit)).await.unwrap().put(7).unwrap();
            let guard: OwnedGuard = in_time(blocks).await.unwrap().unwrap();
            assert_eq!(guard.look(), Ok(7));
            // A task may hold it over an await, and another may drop it.
            tokio::task::yield_now().await;
            in_time(tokio::spawn(async move { drop(guard) })).await.unwrap();
            assert!(is_idle(&paths));
        });
    }
}

#[test]
fn a_time_that_is_over_gives_the_place_back() {
    for runtime in runtimes() {
        runtime.block_on(async {
            let (paths, deposit, remove) = open(SLOT, ["deposit", "remove"]);
            assert!(tokio::time::timeout(Duration::from_millis(5), paths.enter_async(remove)).await.is_err());
            assert_eq!(paths.waiting(remove), Ok(0));
            let why = paths.why(remove).unwrap().unwrap();
            assert!(why.may_begin().eq(["deposit"]), "{why}");
            drop(in_time(paths.enter_async(deposit)).await.unwrap());
            drop(in_time(paths.enter_async(remove)).await.unwrap());
        });
    }
}

#[test]
fn the_loser_of_a_select_gives_its_place_back() {
    for runtime in runtimes() {
        runtime.block_on(async {
            let (paths, deposit, remove) = open(SLOT, ["deposit", "remove"]);
            let (says, said) = oneshot::channel();
            let told = Arc::clone(&paths);
            tokio::spawn(async move {
                until_waiting(&told, remove, 1).await;
                says.send(()).unwrap();
            });
            tokio::select! {
                entered = paths.enter_async(remove) => panic!("{entered:?}"),
                _ = said => {}
            }
            assert_eq!(paths.waiting(remove), Ok(0));
            // The winner gets its guard, and the other branch is dropped.
            tokio::select! {
                biased;
                entered = paths.enter_async(remove) => panic!("{entered:?}"),
                entered = paths.enter_async(deposit) => drop(entered.unwrap()),
            }
            assert_eq!(paths.waiting(remove), Ok(0));
        });
    }
}

/// A future that a loop of `select!` polls again and again keeps its place.
#[test]
fn a_select_in_a_loop_keeps_the_place() {
    one_thread().block_on(async {
        let (paths, take, _) = open(SHELF, ["take", "take"]);
        let guard = paths.enter(take).unwrap();
        let mut enters = paths.enter_async(take);
        for _ in 0..100 {
            tokio::select! {
                biased;
                entered = &mut enters => panic!("{entered:?}"),
                () = tokio::task::yield_now() => {}
            }
        }
        assert_eq!((paths.waiting(take), paths.journal().unwrap().matches("blocked").count()), (Ok(1), 1));
        drop(guard);
        drop(in_time(enters).await.unwrap());
    });
}

#[test]
fn a_task_that_is_aborted_gives_its_place_back() {
    for runtime in runtimes() {
        runtime.block_on(async {
            let (paths, take, _) = open(SHELF, ["take", "take"]);
            let guard = paths.enter_async(take).await.unwrap();
            let waits = || {
                let paths = Arc::clone(&paths);
                tokio::spawn(async move { paths.enter_async(take).await.map(drop) })
            };
            let tasks = [waits(), waits()];
            until_waiting(&paths, take, 2).await;
            tasks[0].abort();
            let [first, second] = tasks;
            assert!(in_time(first).await.unwrap_err().is_cancelled());
            assert_eq!(paths.waiting(take), Ok(1));
            drop(guard);
            in_time(second).await.unwrap().unwrap();
            assert!(is_idle(&paths) && paths.waiting(take) == Ok(0));
        });
    }
}

/// One that was woken and is aborted before it runs. In one thread nothing runs between the two.
#[test]
fn a_task_that_is_aborted_behind_its_wake_passes_the_turn_on() {
    one_thread().block_on(async {
        let (paths, take, _) = open(SHELF, ["take", "take"]);
        let guard = paths.enter_async(take).await.unwrap();
        let mut tasks = Vec::new();
        for number in 1..=3 {
            let own = Arc::clone(&paths);
            tasks.push(tokio::spawn(async move { own.enter_async(take).await.map(drop) }));
            until_waiting(&paths, take, number).await;
        }
        drop(guard);
        tasks[0].abort();
        let ends: Vec<bool> = [in_time(tasks.remove(0)).await.is_ok(), in_time(tasks.remove(0)).await.is_ok()].into();
        assert_eq!(ends, [false, true]);
        in_time(tasks.remove(0)).await.unwrap().unwrap();
        assert!(is_idle(&paths) && paths.waiting(take) == Ok(0));
    });
}

#[test]
fn a_runtime_that_ends_gives_all_places_back() {
    for runtime in runtimes() {
        let (paths, take, _) = open(SHELF, ["take", "take"]);
        runtime.block_on(async {
            let (begun, begins) = oneshot::channel();
            let own = Arc::clone(&paths);
            tokio::spawn(async move {
                let _guard = own.enter_async(take).await.unwrap();
                begun.send(()).unwrap();
                std::future::pending::<()>().await;
            });
            in_time(begins).await.unwrap();
            for _ in 0..100 {
                let own = Arc::clone(&paths);
                tokio::spawn(async move { own.enter_async_owned(take).await.map(drop) });
            }
            in_time(until_waiting(&paths, take, 100)).await;
        });
        drop(runtime);
        assert!(is_idle(&paths));
        assert_eq!((paths.waiting(take), Arc::strong_count(&paths)), (Ok(0), 1));
        drop(paths.try_enter(take).unwrap());
    }
}

#[test]
fn a_panic_in_a_task_is_an_end() {
    for runtime in runtimes() {
        runtime.block_on(async {
            let (paths, take, _) = open(SHELF, ["take", "take"]);
            let (says, begun) = oneshot::channel();
            let own = Arc::clone(&paths);
            let panics = tokio::spawn(async move {
                let _guard = own.enter_async(take).await.unwrap();
                says.send(()).unwrap();
                until_waiting(&own, take, 1).await;
                panic!("in the body");
            });
            in_time(begun).await.unwrap();
            drop(in_time(paths.enter_async(take)).await.unwrap());
            assert!(in_time(panics).await.unwrap_err().is_panic());
            assert!(is_idle(&paths) && paths.waiting(take) == Ok(0));
        });
    }
}

/// Threads and tasks hand each other their turns, and the guards go from task to task.
#[test]
fn threads_and_tasks_take_turns() {
    for runtime in runtimes() {
        let (paths, deposit, remove) = open(SLOT, ["deposit", "remove"]);
        let own = Arc::clone(&paths);
        let producer = thread::spawn(move || (0..500).for_each(|number| drop(own.enter(deposit).unwrap().put(number))));
        let got = runtime.block_on(async {
            let (gives, mut takes) = mpsc::channel(1);
            tokio::spawn(async move {
                for _ in 0..500 {
                    gives.send(paths.enter_async_owned(remove).await.unwrap()).await.unwrap();
                }
            });
            let mut got = Vec::new();
            while let Some(guard) = in_time(takes.recv()).await {
                got.push(guard.look().unwrap());
            }
            got
        });
        producer.join().unwrap();
        assert_eq!(got, (0..500).collect::<Vec<_>>());
    }
}

#[test]
fn a_close_releases_tasks_and_threads() {
    for runtime in runtimes() {
        runtime.block_on(async {
            let (paths, _, remove) = open(SLOT, ["deposit", "remove"]);
            let own = Arc::clone(&paths);
            let task = tokio::spawn(async move { own.enter_async(remove).await.map(drop) });
            let own = Arc::clone(&paths);
            let blocks = spawn_blocking(move || own.enter_owned(remove).map(drop));
            in_time(until_waiting(&paths, remove, 2)).await;
            paths.close();
            assert_eq!(in_time(task).await.unwrap(), Err(Error::Closed));
            assert_eq!(in_time(blocks).await.unwrap(), Err(Error::Closed));
        });
    }
}
