//! Who comes next in Rust, by the clock: eight threads over an operation that one has at a time, and a writer under readers that overlap.
//! Compares the crate's patience with locks by hand. Each is run for so many seconds.
//!
//!     cargo run --release --manifest-path bench/turn/Cargo.toml --bin order -- [SECONDS]

use std::sync::atomic::{AtomicBool, Ordering::Relaxed};
use std::sync::{Condvar, Mutex};
use std::thread;
use std::time::{Duration, Instant};

use wanzoche::{Op, Options, Paths};

const ALONE: &str = "resource shelf cell operation a path a end end";
const BOOK: &str = "resource book cell operation read, write path { read } , write end end";
const PATIENCE: [(&str, Duration); 3] =
    [("the crate", wanzoche::USUAL_PATIENCE), ("in strict order", Duration::ZERO), ("without an order", Duration::MAX)];

/// Whoever reads or writes does it inside.
trait Book: Sync {
    fn read(&self, body: &dyn Fn());
    fn write(&self, body: &dyn Fn());
}

struct ByPaths {
    paths: Paths,
    read: Op,
    write: Op,
}

impl ByPaths {
    fn new(text: &str, names: [&str; 2], patience: Duration) -> ByPaths {
        let paths = Options::new().patience(patience).open(text).unwrap();
        let [read, write] = names.map(|name| paths.op(name).unwrap());
        ByPaths { paths, read, write }
    }
}

impl Book for ByPaths {
    fn read(&self, body: &dyn Fn()) {
        let _guard = self.paths.enter(self.read).unwrap();
        body();
    }

    fn write(&self, body: &dyn Fn()) {
        let _guard = self.paths.enter(self.write).unwrap();
        body();
    }
}

#[derive(Default)]
struct Counts {
    readers: u32,
    writes: bool,
    writers_that_wait: u32,
}

/// By hand: whoever reads lets each writer go first that waits.
#[derive(Default)]
struct ByHand {
    counts: Mutex<Counts>,
    changed: Condvar,
}

impl Book for ByHand {
    fn read(&self, body: &dyn Fn()) {
        let waits = |counts: &mut Counts| counts.writes || counts.writers_that_wait > 0;
        self.changed.wait_while(self.counts.lock().unwrap(), waits).unwrap().readers += 1;
        body();
        self.counts.lock().unwrap().readers -= 1;
        self.changed.notify_all();
    }

    fn write(&self, body: &dyn Fn()) {
        let mut counts = self.counts.lock().unwrap();
        counts.writers_that_wait += 1;
        counts = self.changed.wait_while(counts, |counts| counts.writes || counts.readers > 0).unwrap();
        counts.writers_that_wait -= 1;
        counts.writes = true;
        drop(counts);
        body();
        self.counts.lock().unwrap().writes = false;
        self.changed.notify_all();
    }
}

fn sleep(milliseconds: f64) {
    thread::sleep(Duration::from_secs_f64(milliseconds / 1000.0));
}

/// How long each call of one thread waited, in milliseconds.
fn waits(is_over: &AtomicBool, inside: f64, outside: f64, call: impl Fn(&dyn Fn())) -> Vec<f64> {
    let mut all = Vec::new();
    while !is_over.load(Relaxed) {
        let begun = Instant::now();
        let waited = Mutex::new(0.0);
        call(&|| {
            *waited.lock().unwrap() = begun.elapsed().as_secs_f64() * 1000.0;
            sleep(inside);
        });
        all.push(waited.into_inner().unwrap());
        if outside > 0.0 {
            sleep(outside);
        }
    }
    all
}

fn sorted(mut times: Vec<f64>) -> Vec<f64> {
    times.sort_by(f64::total_cmp);
    times
}

/// The median and the longest.
fn tell(times: Vec<f64>) -> String {
    let times = sorted(times);
    match times.last() {
        Some(longest) => format!("waits {:.1} ms, {longest:.1} at most", times[times.len() / 2]),
        None => "never came in".to_string(),
    }
}

/// Eight threads that do nothing else, with half a millisecond inside.
fn alone(book: &dyn Book, seconds: f64) -> String {
    let is_over = AtomicBool::new(false);
    let all: Vec<Vec<f64>> = thread::scope(|scope| {
        let turns = || waits(&is_over, 0.5, 0.0, |body| book.write(body));
        let threads: Vec<_> = (0..8).map(|_| scope.spawn(turns)).collect();
        sleep(seconds * 1000.0);
        is_over.store(true, Relaxed);
        threads.into_iter().map(|thread| thread.join().unwrap()).collect()
    });
    let counts = sorted(all.iter().map(|times| times.len() as f64).collect());
    let total: f64 = counts.iter().sum();
    format!("{:.0} turns a second, {} to {} each; {}", total / seconds, counts[0], counts[7], tell(all.concat()))
}

/// One writer under so many readers.
fn under_readers(book: &dyn Book, readers: usize, seconds: f64) -> String {
    let is_over = AtomicBool::new(false);
    let (reads, writes) = thread::scope(|scope| {
        let reading = || waits(&is_over, 1.0, 0.5, |body| book.read(body));
        let threads: Vec<_> = (0..readers).map(|_| scope.spawn(reading)).collect();
        let writer = scope.spawn(|| waits(&is_over, 1.0, 10.0, |body| book.write(body)));
        sleep(seconds * 1000.0);
        is_over.store(true, Relaxed);
        let reads: Vec<Vec<f64>> = threads.into_iter().map(|thread| thread.join().unwrap()).collect();
        (reads.concat(), writer.join().unwrap())
    });
    let a_second = |times: &[f64]| times.len() as f64 / seconds;
    let (reads_a_second, writes_a_second) = (a_second(&reads), a_second(&writes));
    format!("{writes_a_second:.1} writes a second, a writer {}; {reads_a_second:.0} reads, a reader {}", tell(writes), tell(reads))
}

fn main() {
    let seconds = std::env::args().nth(1).and_then(|word| word.parse().ok()).filter(|seconds| *seconds > 0.0).unwrap_or(4.0);
    println!("eight threads over one operation, half a millisecond inside:");
    for (name, patience) in PATIENCE {
        println!("  {name}: {}", alone(&ByPaths::new(ALONE, ["a", "a"], patience), seconds));
    }
    println!("  by hand: {}", alone(&ByHand::default(), seconds));
    for readers in [4, 8, 16] {
        println!("a writer (1 ms inside, 10 outside) under {readers} readers (1 ms inside, 0.5 outside):");
        for (name, patience) in PATIENCE {
            println!("  {name}: {}", under_readers(&ByPaths::new(BOOK, ["read", "write"], patience), readers, seconds));
        }
        println!("  by hand, writers first: {}", under_readers(&ByHand::default(), readers, seconds));
    }
}
