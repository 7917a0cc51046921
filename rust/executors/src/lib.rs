//! What tests of executors use: those of `async-executor`, which smol has, and of `futures-executor`, behind one call.
//!
//! This is a crate of its own, so that `wanzoche` has no dependencies and is built without any registry.

use std::future::Future;
use std::panic::AssertUnwindSafe;
use std::pin::Pin;
use std::sync::mpsc::channel;
use std::sync::Arc;
use std::thread;
use std::time::Duration;

use async_executor::Executor;
use futures_executor::{LocalPool, ThreadPool};
use futures_lite::future::{block_on, pending, yield_now, FutureExt};
use futures_task::{LocalSpawn, Spawn};
use wanzoche::{Op, Paths};

/// A task that an executor runs.
pub type Task = Pin<Box<dyn Future<Output = ()> + Send>>;

/// What runs tasks.
#[derive(Clone, Copy, Debug)]
pub enum Kind {
    /// The executor of `async-executor`, in so many threads.
    Async(usize),
    /// The pool of `futures-executor`, in the thread that calls.
    Local,
    /// Its pool of so many threads.
    Pool(usize),
    /// A thread for each task, by `block_on`.
    Threads,
}

/// One of each kind, and of several threads.
pub const KINDS: [Kind; 7] = [Kind::Async(1), Kind::Async(2), Kind::Async(4), Kind::Local, Kind::Pool(1), Kind::Pool(3), Kind::Threads];

/// Runs tasks side by side until all are over.
///
/// # Panics
///
/// If one of them panics, or isn't over after ten minutes: then it never ends.
pub fn run(kind: Kind, tasks: Vec<Task>) {
    let number = tasks.len();
    let (tells, told) = channel();
    let told_of = |task: Task| -> Task {
        let tells = tells.clone();
        Box::pin(async move {
            let ended = AssertUnwindSafe(task).catch_unwind().await;
            tells.send(ended.is_ok()).expect("who counts is there");
        })
    };
    let tasks: Vec<Task> = tasks.into_iter().map(told_of).collect();
    thread::spawn(move || run_all(kind, tasks));
    for _ in 0..number {
        assert_eq!(told.recv_timeout(Duration::from_secs(600)), Ok(true), "{kind:?}: a task panics, or never ends");
    }
}

fn run_all(kind: Kind, tasks: Vec<Task>) {
    match kind {
        Kind::Async(threads) => run_async(threads, tasks),
        Kind::Local => {
            let mut pool = LocalPool::new();
            let spawner = pool.spawner();
            tasks.into_iter().for_each(|task| spawner.spawn_local_obj(Box::new(task).into()).expect("a pool"));
            pool.run();
        }
        Kind::Pool(threads) => {
            let pool = ThreadPool::builder().pool_size(threads).create().expect("threads");
            tasks.into_iter().for_each(|task| pool.spawn_obj(Box::new(task).into()).expect("a pool"));
        }
        Kind::Threads => tasks.into_iter().for_each(|task| drop(thread::spawn(|| futures_executor::block_on(task)))),
    }
}

/// Its threads stay until the program ends.
fn run_async(threads: usize, tasks: Vec<Task>) {
    let executor = Arc::new(Executor::new());
    tasks.into_iter().for_each(|task| executor.spawn(task).detach());
    for _ in 0..threads {
        let executor = Arc::clone(&executor);
        thread::spawn(move || block_on(executor.run(pending::<()>())));
    }
}

/// Lets other tasks go first until so many wait for an operation.
///
/// # Panics
///
/// If the operation is one of other paths.
pub async fn until_waiting(paths: &Paths, op: Op, number: u32) {
    while paths.waiting(op).expect("an operation of these paths") != number {
        yield_now().await;
    }
}

/// Lets other tasks go first so many times.
pub async fn yields(times: u64) {
    for _ in 0..times {
        yield_now().await;
    }
}
