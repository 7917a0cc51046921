//! What a turn costs in Rust: to enter an operation that nobody else wants, and to leave it. Compares, in turn and by processor time, a
//! `Mutex` with a flag and a `Condvar`, the same with a count of who waits, the C monitor, and the crate; and then eight threads at a
//! buffer of eight places, also by the clock.
//!
//!     cargo run --release --manifest-path bench/turn/Cargo.toml -- [ROUNDS]

use std::os::raw::c_char;
use std::sync::{Condvar, Mutex};
use std::thread;
use std::time::Instant;

use wanzoche::{Op, Options, Paths};

extern "C" {
    fn turn_open(text: *const c_char, length: usize, room: u32) -> i32;
    fn turn_close();
    fn turn_turns(worker: u32, operation: u32, turns: u32) -> i32;
    fn turn_time() -> f64;
}

const ALONE: &str = "resource shelf cell operation take path take end end";
const BUFFER: &str = "resource buffer cell operation put, get path { put ; get : 8 } end path put end path get end end";
const ROOM: u32 = 4096;
const TURNS: u32 = 200_000;
const THREADS: u32 = 8;
const EACH: u32 = 10_000;

/// A turn by hand, as most would write it.
struct ByHand {
    is_taken: Mutex<bool>,
    is_free: Condvar,
}

impl ByHand {
    #[inline]
    fn enter(&self) {
        let mut is_taken = self.is_taken.lock().unwrap();
        while *is_taken {
            is_taken = self.is_free.wait(is_taken).unwrap();
        }
        *is_taken = true;
    }

    #[inline]
    fn leave(&self) {
        *self.is_taken.lock().unwrap() = false;
        self.is_free.notify_one();
    }
}

/// The same for those who know that a signal costs a call of the kernel, also if nobody waits.
struct Counted {
    state: Mutex<(bool, u32)>,
    is_free: Condvar,
}

impl Counted {
    #[inline]
    fn enter(&self) {
        let mut state = self.state.lock().unwrap();
        while state.0 {
            state.1 += 1;
            state = self.is_free.wait(state).unwrap();
            state.1 -= 1;
        }
        state.0 = true;
    }

    #[inline]
    fn leave(&self) {
        let mut state = self.state.lock().unwrap();
        state.0 = false;
        let waits = state.1 > 0;
        drop(state);
        if waits {
            self.is_free.notify_one();
        }
    }
}

/// A buffer of eight places by hand: how many places are filled, and whether someone puts or gets.
#[derive(Default)]
struct Places {
    filled: u32,
    is_putting: bool,
    is_getting: bool,
}

struct Buffer {
    places: Mutex<Places>,
    may_put: Condvar,
    may_get: Condvar,
}

impl Buffer {
    fn put(&self) {
        let mut places = self.places.lock().unwrap();
        while places.is_putting || places.filled == 8 {
            places = self.may_put.wait(places).unwrap();
        }
        places.is_putting = true;
        drop(places);
        let mut places = self.places.lock().unwrap();
        places.is_putting = false;
        places.filled += 1;
        drop(places);
        self.may_put.notify_one();
        self.may_get.notify_one();
    }

    fn get(&self) {
        let mut places = self.places.lock().unwrap();
        while places.is_getting || places.filled == 0 {
            places = self.may_get.wait(places).unwrap();
        }
        places.is_getting = true;
        drop(places);
        let mut places = self.places.lock().unwrap();
        places.is_getting = false;
        places.filled -= 1;
        drop(places);
        self.may_get.notify_one();
        self.may_put.notify_one();
    }
}

/// The processor time in nanoseconds of each of so many turns, and the time by the clock.
fn timed(turns: u32, work: impl FnOnce()) -> [f64; 2] {
    let clock = Instant::now();
    // SAFETY: the call takes nothing, and only reads a clock.
    let began = unsafe { turn_time() };
    work();
    // SAFETY: as above.
    let used = unsafe { turn_time() } - began;
    [used / f64::from(turns), clock.elapsed().as_secs_f64() * 1e9 / f64::from(turns)]
}

/// Turns of the C monitor.
fn c_turns(worker: u32, operation: u32, turns: u32) {
    // SAFETY: the monitor is open, and for all threads at once.
    assert_eq!(unsafe { turn_turns(worker, operation, turns) }, 1);
}

fn open_c(text: &str) {
    // SAFETY: the text has as many bytes as the call is told, and the monitor is closed.
    assert_eq!(unsafe { turn_open(text.as_ptr().cast(), text.len(), ROOM) }, 1);
}

fn close_c() {
    // SAFETY: no thread is in the monitor.
    unsafe { turn_close() }
}

fn turns(paths: &Paths, op: Op, turns: u32) {
    for _ in 0..turns {
        drop(paths.enter(op).unwrap());
    }
}

/// Eight threads, half of which put while the others get.
fn in_threads(put: impl Fn(u32) + Sync, get: impl Fn(u32) + Sync) {
    thread::scope(|scope| {
        for worker in 0..THREADS {
            let (put, get) = (&put, &get);
            scope.spawn(move || if worker % 2 == 0 { put(worker) } else { get(worker) });
        }
    });
}

fn median(times: &[f64]) -> f64 {
    let mut times = times.to_vec();
    times.sort_by(f64::total_cmp);
    times[times.len() / 2]
}

fn least(times: &[f64]) -> f64 {
    times.iter().copied().fold(f64::INFINITY, f64::min)
}

/// The least and the median of some times, and what the last one's are of them: by the least, and in turn by the median.
fn tell(times: &[f64], last: &[f64]) -> String {
    let each: Vec<f64> = last.iter().zip(times).map(|(last, other)| last / other).collect();
    let ratios = format!("{:.2}, {:.2}", least(last) / least(times), median(&each));
    format!("{:.1} ns, {:.1} by the median; the crate {ratios} of it", least(times), median(times))
}

/// Runs these in turn, and tells the times of each, and what those of the last one are of them.
fn compare(rounds: usize, turns: u32, shows_clock: bool, works: &[(&str, &dyn Fn())]) {
    let mut times = vec![[Vec::new(), Vec::new()]; works.len()];
    for _ in 0..rounds {
        for ((_, work), times) in works.iter().zip(&mut times) {
            let [used, clock] = timed(turns, work);
            times[0].push(used);
            times[1].push(clock);
        }
    }
    let last = times[times.len() - 1].clone();
    for ((name, _), times) in works.iter().zip(&times) {
        println!("  {name}: {}", tell(&times[0], &last[0]));
        if shows_clock {
            println!("    by the clock: {}", tell(&times[1], &last[1]));
        }
    }
}

fn alone(rounds: usize) {
    let by_hand = ByHand { is_taken: Mutex::new(false), is_free: Condvar::new() };
    let counted = Counted { state: Mutex::new((false, 0)), is_free: Condvar::new() };
    let paths = Options::new().room(ROOM).open(ALONE).unwrap();
    let take = paths.op("take").unwrap();
    let unlogged = Options::new().room(ROOM).without_journal().open(ALONE).unwrap();
    let unlogged_take = unlogged.op("take").unwrap();
    open_c(ALONE);
    println!("a turn that nobody else wants:");
    compare(
        rounds,
        TURNS,
        false,
        &[
            ("by hand", &|| (0..TURNS).for_each(|_| (by_hand.enter(), by_hand.leave()).0)),
            ("by hand, with a count of who waits", &|| (0..TURNS).for_each(|_| (counted.enter(), counted.leave()).0)),
            ("the C monitor", &|| c_turns(1, 0, TURNS)),
            ("the crate, without a journal", &|| turns(&unlogged, unlogged_take, TURNS)),
            ("the crate", &|| turns(&paths, take, TURNS)),
        ],
    );
    close_c();
}

fn buffer(rounds: usize) {
    let by_hand = Buffer { places: Mutex::new(Places::default()), may_put: Condvar::new(), may_get: Condvar::new() };
    let paths = Options::new().room(ROOM).open(BUFFER).unwrap();
    let (put, get) = (paths.op("put").unwrap(), paths.op("get").unwrap());
    let sleepy = Options::new().room(ROOM).yields(0).open(BUFFER).unwrap();
    let (sleepy_put, sleepy_get) = (sleepy.op("put").unwrap(), sleepy.op("get").unwrap());
    open_c(BUFFER);
    println!("an operation of a buffer of eight places, {THREADS} threads:");
    let each = || 0..EACH;
    compare(
        rounds,
        THREADS * EACH,
        true,
        &[
            ("by hand", &|| in_threads(|_| each().for_each(|_| by_hand.put()), |_| each().for_each(|_| by_hand.get()))),
            ("the C monitor", &|| in_threads(|worker| c_turns(worker, 0, EACH), |worker| c_turns(worker, 1, EACH))),
            ("the crate, which sleeps at once", &|| in_threads(|_| turns(&sleepy, sleepy_put, EACH), |_| turns(&sleepy, sleepy_get, EACH))),
            ("the crate", &|| in_threads(|_| turns(&paths, put, EACH), |_| turns(&paths, get, EACH))),
        ],
    );
    close_c();
}

fn main() {
    let rounds = std::env::args().nth(1).and_then(|word| word.parse().ok()).filter(|rounds| *rounds > 0).unwrap_or(41);
    println!("in a program with one thread, where the C library's locks need no atomic instructions");
    alone(rounds);
    let (ends, end) = std::sync::mpsc::channel::<()>();
    let sleeps = thread::spawn(move || end.recv());
    println!("in a program with a second thread, which sleeps");
    alone(rounds);
    drop(ends);
    let _ = sleeps.join();
    buffer(rounds.min(11));
}
