//! What tests of runtimes use: the runtimes, paths, and a witness of who is inside.
//!
//! This is a crate of its own, so that `wanzoche` has no dependencies and is built without any registry.

use std::future::Future;
use std::sync::atomic::{AtomicI64, AtomicU64, Ordering::SeqCst};
use std::sync::Arc;
use std::time::Duration;

use tokio::runtime::{Builder, Runtime};
use tokio::task::yield_now;
use wanzoche::{Op, Options, Paths};

/// An operation that only one may run.
pub const SHELF: &str = "resource shelf cell operation take path take end end";
/// A deposit and a removal in turn.
pub const SLOT: &str = "resource slot cell operation deposit, remove path deposit ; remove end end";
/// Three queries, or one backup.
pub const POOL: &str = "resource pool cell operation query, backup path { query : 3 } , backup end end";

/// A runtime of one thread, which is that of the test.
///
/// # Panics
///
/// If the system gives no runtime.
#[must_use]
pub fn one_thread() -> Runtime {
    Builder::new_current_thread().enable_time().build().expect("a runtime")
}

/// A runtime of so many threads.
///
/// # Panics
///
/// If the system gives no runtime.
#[must_use]
pub fn threads(workers: usize) -> Runtime {
    Builder::new_multi_thread().worker_threads(workers).enable_time().build().expect("a runtime")
}

/// One of each kind.
#[must_use]
pub fn runtimes() -> [Runtime; 3] {
    [one_thread(), threads(2), threads(4)]
}

/// Paths with two of their operations.
///
/// # Panics
///
/// If these aren't paths, or have no such operations.
#[must_use]
pub fn open(text: &str, names: [&str; 2]) -> (Arc<Paths>, Op, Op) {
    let paths = Arc::new(Options::new().room(100_000).open(text).expect("paths"));
    let [first, second] = names.map(|name| paths.op(name).expect("an operation"));
    (paths, first, second)
}

/// Lets other tasks go first until so many wait for an operation.
///
/// # Panics
///
/// If the operation is one of other paths.
pub async fn until_waiting(paths: &Paths, op: Op, number: u32) {
    while paths.waiting(op).expect("an operation of these paths") != number {
        yield_now().await;
    }
}

/// Lets other tasks go first so many times.
pub async fn yields(times: u64) {
    for _ in 0..times {
        yield_now().await;
    }
}

/// What the future is ready with.
///
/// # Panics
///
/// If it isn't ready within ten minutes: then it never will be.
pub async fn in_time<F: Future>(future: F) -> F::Output {
    tokio::time::timeout(Duration::from_secs(600), future).await.expect("it is ready within ten minutes")
}

/// Whether nothing is in progress.
///
/// # Panics
///
/// If there is no memory for a report.
#[must_use]
pub fn is_idle(paths: &Paths) -> bool {
    !paths.report().expect("memory").contains("live")
}

/// Who is inside, and how often somebody was who shouldn't have been. It knows nothing of paths.
#[derive(Debug, Default)]
pub struct Witness {
    queries: AtomicI64,
    backups: AtomicI64,
    faults: AtomicU64,
}

impl Witness {
    fn expect(&self, is_so: bool) {
        if !is_so {
            self.faults.fetch_add(1, SeqCst);
        }
    }

    /// A query or a backup begins.
    pub fn begins(&self, is_query: bool) {
        if is_query {
            self.expect(self.queries.fetch_add(1, SeqCst) < 3 && self.backups.load(SeqCst) == 0);
        } else {
            self.expect(self.backups.fetch_add(1, SeqCst) == 0 && self.queries.load(SeqCst) == 0);
        }
    }

    /// It ends.
    pub fn ends(&self, is_query: bool) {
        self.expect(self.backups.load(SeqCst) == i64::from(!is_query));
        let inside = if is_query { &self.queries } else { &self.backups };
        inside.fetch_sub(1, SeqCst);
    }

    /// What shouldn't have been.
    #[must_use]
    pub fn faults(&self) -> u64 {
        self.faults.load(SeqCst)
    }
}
