//! What a turn of a task costs that nobody else wants: an entry that is awaited and its leave, beside a permit of tokio's semaphore that is
//! awaited and dropped, in turn, on a runtime of one thread and on one of two. Prints the least and the median of so many rounds.
//!
//!     cargo run --release --example turn -- [ROUNDS]

use std::time::Instant;

use runtimes::{one_thread, threads, SHELF};
use tokio::sync::Semaphore;
use wanzoche::{Op, Options, Paths};

/// So few that a round is over before the system gives the processor to another program, mostly.
const TURNS: u32 = 20_000;

/// Nanoseconds of a turn, of so many that began then.
fn each(begun: Instant) -> f64 {
    begun.elapsed().as_secs_f64() * 1e9 / f64::from(TURNS)
}

async fn permits(semaphore: &Semaphore) -> f64 {
    let begun = Instant::now();
    for _ in 0..TURNS {
        drop(semaphore.acquire().await);
    }
    each(begun)
}

async fn entries(paths: &Paths, op: Op) -> f64 {
    let begun = Instant::now();
    for _ in 0..TURNS {
        drop(paths.enter_async(op).await);
    }
    each(begun)
}

fn threaded(paths: &Paths, op: Op) -> f64 {
    let begun = Instant::now();
    for _ in 0..TURNS {
        drop(paths.enter(op));
    }
    each(begun)
}

fn sorted(mut times: Vec<f64>) -> Vec<f64> {
    times.sort_by(f64::total_cmp);
    times
}

/// What these times are of those beside them: by the least, and in turn by the median.
fn ratios(times: &[f64], beside: &[f64]) -> String {
    let in_turn = sorted(times.iter().zip(beside).map(|(time, other)| time / other).collect());
    let (own, other) = (sorted(times.to_vec()), sorted(beside.to_vec()));
    format!("{:.2}, {:.2}", own[0] / other[0], in_turn[in_turn.len() / 2])
}

fn tell(name: &str, times: &[f64], beside: &[f64]) {
    let sorted = sorted(times.to_vec());
    println!("  {name}: {:.1}, {:.1} ns; {} of a permit", sorted[0], sorted[sorted.len() / 2], ratios(times, beside));
}

fn main() -> Result<(), wanzoche::Error> {
    let rounds = std::env::args().nth(1).and_then(|word| word.parse().ok()).filter(|rounds| *rounds > 0).unwrap_or(201);
    let paths = Options::new().open(SHELF)?;
    let unlogged = Options::new().without_journal().open(SHELF)?;
    let (take, unlogged_take) = (paths.op("take")?, unlogged.op("take")?);
    for (name, runtime) in [("one thread", one_thread()), ("two threads", threads(2))] {
        let semaphore = Semaphore::new(1);
        let mut times = [Vec::new(), Vec::new(), Vec::new(), Vec::new()];
        for _ in 0..rounds {
            times[0].push(runtime.block_on(permits(&semaphore)));
            times[1].push(runtime.block_on(entries(&paths, take)));
            times[2].push(runtime.block_on(entries(&unlogged, unlogged_take)));
            times[3].push(threaded(&paths, take));
        }
        println!("a runtime of {name}:");
        tell("a permit of tokio's semaphore", &times[0], &times[0]);
        tell("an entry that is awaited", &times[1], &times[0]);
        tell("the same without a journal", &times[2], &times[0]);
        tell("an entry of a thread", &times[3], &times[0]);
    }
    Ok(())
}
