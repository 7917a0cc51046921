//! Many threads at once. A witness of its own, of atomic counters that the paths know nothing of, sees who is inside with whom; afterwards
//! the log is audited.

use std::panic::{catch_unwind, AssertUnwindSafe};
use std::sync::atomic::{AtomicI64, AtomicU64, Ordering::SeqCst};
use std::sync::{Arc, Mutex};
use std::thread;
use std::time::Duration;

use common::random::Random;
use wanzoche::{Error, Op, Options, Paths, Verdict, USUAL_PATIENCE};

mod common;

const THREADS: usize = 12;
/// How much is done: 1, or what WANZOCHE_STRESS says.
fn times() -> usize {
    std::env::var("WANZOCHE_STRESS").ok().and_then(|word| word.parse().ok()).unwrap_or(1)
}

/// Who is inside, and what shouldn't have been.
#[derive(Default)]
struct Witness {
    queries: AtomicI64,
    backups: AtomicI64,
    most: AtomicI64,
    faults: AtomicU64,
}

impl Witness {
    fn expect(&self, is_so: bool) {
        if !is_so {
            self.faults.fetch_add(1, SeqCst);
        }
    }

    fn query_begins(&self) {
        let inside = 1 + self.queries.fetch_add(1, SeqCst);
        self.most.fetch_max(inside, SeqCst);
        self.expect(inside <= 3 && self.backups.load(SeqCst) == 0);
    }

    fn query_ends(&self) {
        self.expect(self.backups.load(SeqCst) == 0);
        self.queries.fetch_sub(1, SeqCst);
    }

    fn backup_begins(&self) {
        self.expect(self.backups.fetch_add(1, SeqCst) == 0 && self.queries.load(SeqCst) == 0);
    }

    fn backup_ends(&self) {
        self.expect(self.queries.load(SeqCst) == 0);
        self.backups.fetch_sub(1, SeqCst);
    }
}

/// Enters in one of three ways, does the body, and leaves, at random by a panic. Whether it came in.
fn visit(paths: &Paths, op: Op, random: &mut Random, body: impl FnOnce()) -> bool {
    let guard = match random.below(4) {
        0 => paths.try_enter(op),
        1 => paths.enter_timeout(op, Duration::from_micros(random.below(300))),
        _ => paths.enter(op),
    };
    let guard = match guard {
        Ok(guard) => guard,
        Err(error) => {
            assert!(matches!(error, Error::Blocked(_) | Error::Timeout(_)), "{error}");
            return false;
        }
    };
    let panics = random.below(16) == 0;
    let _ = catch_unwind(AssertUnwindSafe(|| {
        let _guard = guard;
        body();
        if panics {
            std::panic::resume_unwind(Box::new(()));
        }
    }));
    true
}

fn visits(paths: &Paths, witness: &Witness, rounds: usize) -> u64 {
    let (query, backup) = (paths.op("query").unwrap(), paths.op("backup").unwrap());
    let mut random = Random::new();
    let mut came_in = 0;
    for _ in 0..rounds {
        let stays = random.below(8) == 0;
        let is_query = random.below(5) > 0;
        came_in += u64::from(visit(paths, if is_query { query } else { backup }, &mut random, || {
            if is_query {
                witness.query_begins()
            } else {
                witness.backup_begins()
            }
            if stays {
                thread::yield_now();
            }
            if is_query {
                witness.query_ends()
            } else {
                witness.backup_ends()
            }
        }));
    }
    came_in
}

#[test]
fn queries_and_backups_keep_apart() {
    for (yields, patience) in [(0, Duration::ZERO), (0, USUAL_PATIENCE), (30, USUAL_PATIENCE)] {
        let log = Arc::new(Mutex::new(String::new()));
        let own = Arc::clone(&log);
        let text = "resource pool cell operation query, backup path { query : 3 } , backup end end";
        let keeps = Box::new(move |lines: &str| own.lock().unwrap().push_str(lines));
        let paths = Options::new().room(1000).yields(yields).patience(patience).log(keeps).open(text).unwrap();
        let witness = Witness::default();
        let came_in: u64 = thread::scope(|scope| {
            let threads: Vec<_> = (0..THREADS).map(|_| scope.spawn(|| visits(&paths, &witness, 5000 * times()))).collect();
            threads.into_iter().map(|thread| thread.join().unwrap()).sum()
        });
        assert_eq!(witness.faults.into_inner(), 0);
        assert!(witness.most.into_inner() > 1);
        let whole = log.lock().unwrap().clone() + &paths.journal().unwrap();
        assert_eq!(whole.matches(": started").count() as u64, came_in);
        assert_eq!(whole.matches(": finished").count() as u64, came_in);
        if times() == 1 {
            assert_eq!(paths.audit(&whole), Ok(Verdict::Sound));
        }
        assert_eq!(paths.report().unwrap(), "startable query backup\nfrozen no\n");
    }
}

/// What is in a buffer of four places, which has no lock but the paths: each number that is put is got once, and in its order.
#[test]
fn a_buffer_loses_nothing() {
    struct Buffer {
        places: [AtomicU64; 4],
        put: AtomicU64,
        got: AtomicU64,
    }
    let text = "resource buffer cell operation put, get path { put ; get : 4 } end path put end path get end end";
    for (yields, patience) in [(0, Duration::ZERO), (0, USUAL_PATIENCE), (30, USUAL_PATIENCE)] {
        let paths = Options::new().yields(yields).patience(patience).open(text).unwrap();
        let (put, get) = (paths.op("put").unwrap(), paths.op("get").unwrap());
        let buffer = Buffer { places: Default::default(), put: AtomicU64::new(0), got: AtomicU64::new(0) };
        let each = 5000 * times() as u64;
        thread::scope(|scope| {
            for _ in 0..THREADS / 2 {
                scope.spawn(|| {
                    for _ in 0..each {
                        let _guard = paths.enter(put).unwrap();
                        let n = buffer.put.load(SeqCst);
                        assert_eq!(buffer.places[n as usize % 4].swap(n + 1, SeqCst), 0, "the place is filled");
                        buffer.put.store(n + 1, SeqCst);
                    }
                });
                scope.spawn(|| {
                    for _ in 0..each {
                        let _guard = paths.enter(get).unwrap();
                        let n = buffer.got.load(SeqCst);
                        assert_eq!(buffer.places[n as usize % 4].swap(0, SeqCst), n + 1, "the place has another number");
                        buffer.got.store(n + 1, SeqCst);
                    }
                });
            }
        });
        assert_eq!((buffer.put.into_inner(), buffer.got.into_inner()), (each * 6, each * 6));
    }
}

/// Threads that can only take turns: if a signal were lost between two of them, both would sleep for ever.
#[test]
fn no_signal_is_lost() {
    for (threads, yields) in [(2, 0), (2, 1), (2, 3), (6, 0), (6, 1)] {
        let paths = Options::new().yields(yields).open("resource slot cell operation a, b path a ; b end end").unwrap();
        let ops = [paths.op("a").unwrap(), paths.op("b").unwrap()];
        thread::scope(|scope| {
            for op in ops.into_iter().cycle().take(threads) {
                let paths = &paths;
                scope.spawn(move || {
                    for n in 0..2000 * times() {
                        let guard = if n % 3 == 0 { paths.enter_timeout(op, Duration::from_secs(600)) } else { paths.enter(op) };
                        drop(guard.unwrap());
                    }
                });
            }
        });
        assert_eq!(paths.report().unwrap(), "startable a\nblocked b 0\nfrozen no\n");
    }
}
