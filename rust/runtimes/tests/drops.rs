//! Tasks that give up at random moments, until ten thousand futures have been dropped while they waited or were woken.

use std::sync::atomic::{AtomicU64, Ordering::SeqCst};
use std::sync::Arc;
use std::time::Duration;

use runtimes::{in_time, is_idle, open, runtimes, yields, Witness, POOL};
use tokio::runtime::Runtime;
use wanzoche::{Op, Options, Paths};

const DROPS: u64 = 10_000;
const TASKS: u64 = 16;

/// Numbers that differ from task to task.
struct Random(u64);

impl Random {
    fn below(&mut self, end: u64) -> u64 {
        self.0 ^= self.0 << 13;
        self.0 ^= self.0 >> 7;
        self.0 ^= self.0 << 17;
        self.0 % end
    }
}

/// What all tasks share.
struct Shared {
    paths: Arc<Paths>,
    query: Op,
    backup: Op,
    witness: Witness,
    dropped: AtomicU64,
}

/// Enters, or gives up behind a few turns of other tasks, by a `select!` or a time limit; over and over.
async fn comes_and_goes(shared: Arc<Shared>, mut random: Random) {
    while shared.dropped.load(SeqCst) < DROPS {
        let is_query = random.below(4) > 0;
        let enters = shared.paths.enter_async(if is_query { shared.query } else { shared.backup });
        let guard = match random.below(8) {
            0 => tokio::time::timeout(Duration::from_micros(random.below(200)), enters).await.ok(),
            1 => Some(enters.await),
            _ => tokio::select! {
                entered = enters => Some(entered),
                () = yields(random.below(6)) => None,
            },
        };
        match guard {
            None => drop(shared.dropped.fetch_add(1, SeqCst)),
            Some(guard) => {
                let _guard = guard.unwrap();
                shared.witness.begins(is_query);
                yields(random.below(3)).await;
                shared.witness.ends(is_query);
            }
        }
    }
}

async fn all_come_and_go(shared: &Arc<Shared>) {
    let tasks: Vec<_> = (0..TASKS)
        .map(|number| {
            let seed = 0x9e37_79b9_7f4a_7c15_u64.wrapping_mul(number + 1);
            tokio::spawn(comes_and_goes(Arc::clone(shared), Random(seed)))
        })
        .collect();
    for task in tasks {
        task.await.unwrap();
    }
}

fn places_come_back(runtime: &Runtime) {
    let paths = Arc::new(Options::new().open(POOL).unwrap());
    let (query, backup) = (paths.op("query").unwrap(), paths.op("backup").unwrap());
    let shared = Arc::new(Shared { paths, query, backup, witness: Witness::default(), dropped: AtomicU64::new(0) });
    runtime.block_on(all_come_and_go(&shared));
    assert_eq!(shared.witness.faults(), 0);
    assert_eq!((shared.paths.waiting(query), shared.paths.waiting(backup)), (Ok(0), Ok(0)));
    assert_eq!(shared.paths.report().unwrap(), "startable query backup\nfrozen no\n");
}

#[test]
fn places_come_back_in_one_thread() {
    places_come_back(&runtimes()[0]);
}

#[test]
fn places_come_back_in_two_threads() {
    places_come_back(&runtimes()[1]);
}

#[test]
fn places_come_back_in_four_threads() {
    places_come_back(&runtimes()[2]);
}

/// Tasks that are aborted at random, each while it waits, is woken or is inside.
#[test]
fn aborted_tasks_leave_nothing() {
    for runtime in runtimes() {
        let (paths, query, backup) = open(POOL, ["query", "backup"]);
        runtime.block_on(async {
            let mut random = Random(7);
            let mut tasks = Vec::new();
            for number in 0..2000 {
                let (paths, op) = (Arc::clone(&paths), if number % 4 == 0 { backup } else { query });
                let stays = random.below(4);
                tasks.push(tokio::spawn(async move {
                    let _guard = paths.enter_async(op).await.unwrap();
                    yields(stays).await;
                }));
                yields(random.below(2)).await;
                let at = random.below(tasks.len() as u64) as usize;
                if random.below(2) == 0 {
                    tasks.swap_remove(at).abort();
                }
            }
            for task in tasks {
                in_time(task).await.unwrap();
            }
        });
        // Its end is the end of what was aborted last.
        drop(runtime);
        assert!(is_idle(&paths));
        assert_eq!((paths.waiting(query), paths.waiting(backup)), (Ok(0), Ok(0)));
    }
}
