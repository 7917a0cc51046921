//! Tasks of tokio at a store: who waits for another process, or for a turn, holds no thread of the runtime.

use std::path::PathBuf;
use std::sync::atomic::{AtomicU32, Ordering::SeqCst};
use std::sync::Arc;
use std::time::Duration;

use runtimes::{in_time, one_thread, runtimes, yields, SHELF};
use tokio::task::JoinHandle;
use tokio::time::timeout;
use wanzoche::store::Options;
use wanzoche::{Op, Store, Verdict};

/// A file that goes with its folder.
struct File(PathBuf);

impl File {
    fn new(name: &str) -> File {
        let folder = std::env::temp_dir().join(format!("wanzoche-tokio-{name}-{}", std::process::id()));
        std::fs::create_dir_all(&folder).unwrap();
        File(folder)
    }

    fn open(&self) -> (Arc<Store>, Op) {
        let store = Options::new().without_sync().open(SHELF, self.0.join("shelf.log")).unwrap();
        let take = store.op("take").unwrap();
        (Arc::new(store), take)
    }
}

impl Drop for File {
    fn drop(&mut self) {
        let _ = std::fs::remove_dir_all(&self.0);
    }
}

async fn until(mut is_so: impl FnMut() -> bool) {
    while !is_so() {
        tokio::time::sleep(Duration::from_millis(1)).await;
    }
}

/// Tasks wait for another opening, in one thread, and the thread goes on with others. A time limit of the runtime ends a wait.
#[test]
fn tasks_wait_and_the_thread_goes_on() {
    let file = File::new("waits");
    one_thread().block_on(async {
        let ((store, take), (other, others_take)) = (file.open(), file.open());
        let guard = other.enter(others_take).unwrap();
        let tasks: Vec<JoinHandle<u64>> = (0..50)
            .map(|_| {
                let store = Arc::clone(&store);
                tokio::spawn(async move { store.enter_async(take).await.unwrap().activation() })
            })
            .collect();
        in_time(until(|| other.waiting(others_take) == Ok(50))).await;
        in_time(tokio::spawn(yields(1000))).await.unwrap();
        assert!(timeout(Duration::from_millis(5), store.enter_async(take)).await.is_err());
        in_time(until(|| other.waiting(others_take) == Ok(50))).await;
        tasks[7].abort();
        in_time(until(|| other.waiting(others_take) == Ok(49))).await;
        drop(guard);
        let mut begun = Vec::new();
        for task in tasks {
            begun.extend(in_time(task).await.ok());
        }
        begun.sort_unstable();
        assert_eq!(begun, (1..=49).collect::<Vec<u64>>());
        in_time(until(|| !other.report().unwrap().contains("live"))).await;
        assert_eq!(store.audit(), Ok(Verdict::Sound));
    });
}

/// Tasks of two openings in each runtime, which exclude each other, also where some are given up.
#[test]
fn one_is_inside() {
    for (number, runtime) in runtimes().iter().enumerate() {
        let file = File::new(&format!("inside{number}"));
        let (one, other) = (file.open(), file.open());
        let inside = Arc::new(AtomicU32::new(0));
        runtime.block_on(async {
            let tasks: Vec<JoinHandle<()>> = (0..60)
                .map(|number| {
                    let ((store, take), inside) = (if number % 2 == 0 { one.clone() } else { other.clone() }, Arc::clone(&inside));
                    tokio::spawn(async move {
                        let limit = Duration::from_millis(if number % 5 == 0 { 2 } else { 600_000 });
                        if let Ok(guard) = timeout(limit, store.enter_async(take)).await {
                            let _guard = guard.unwrap();
                            assert_eq!(inside.fetch_add(1, SeqCst), 0);
                            yields(3).await;
                            inside.fetch_sub(1, SeqCst);
                        }
                    })
                })
                .collect();
            for task in tasks {
                in_time(task).await.unwrap();
            }
            in_time(until(|| !one.0.report().unwrap().contains("live"))).await;
        });
        assert_eq!((one.0.waiting(one.1), one.0.audit()), (Ok(0), Ok(Verdict::Sound)));
    }
}

/// The end of a runtime drops what waits, and its store goes with the last task.
#[test]
fn a_runtime_that_ends() {
    let file = File::new("ends");
    let (other, take) = file.open();
    let guard = other.enter(take).unwrap();
    let runtime = one_thread();
    runtime.block_on(async {
        let (store, own) = file.open();
        tokio::spawn(async move { store.enter_async_owned(own).await.map(|guard| guard.activation()) });
        in_time(until(|| other.waiting(take) == Ok(1))).await;
    });
    drop(runtime);
    while other.waiting(take) != Ok(0) {
        std::thread::yield_now();
    }
    drop(guard);
    assert!(other.try_enter(take).is_ok());
}
