//! What several tests use.

#![allow(dead_code)]

use std::sync::{Arc, Mutex};
use std::thread;
use std::time::{Duration, Instant};

use wanzoche::{Error, Log, Op, Options, Paths};

pub mod random;
pub mod stores;
pub mod tasks;

pub const SHELF: &str = "resource shelf cell operation take path take end end";
pub const SLOT: &str = "resource slot cell operation deposit, remove path deposit ; remove end end";
pub const BOOK: &str = "resource book cell operation read, write path { read } , write end end";

/// Paths whose threads sleep at once, or give way first, with two operations of theirs.
pub fn open(text: &str, yields: u32, names: [&str; 2]) -> (Paths, Op, Op) {
    let paths = Options::new().yields(yields).open(text).unwrap();
    let [first, second] = names.map(|name| paths.op(name).unwrap());
    (paths, first, second)
}

/// The same where threads sleep at once, and starts are withheld for one that has waited for so long.
pub fn open_patient(text: &str, patience: Duration, names: [&str; 2]) -> (Paths, Op, Op) {
    let paths = Options::new().yields(0).patience(patience).open(text).unwrap();
    let [first, second] = names.map(|name| paths.op(name).unwrap());
    (paths, first, second)
}

/// A log that keeps its lines, and where it keeps them.
pub fn kept() -> (Log, Arc<Mutex<String>>) {
    let lines = Arc::new(Mutex::new(String::new()));
    let own = Arc::clone(&lines);
    (Box::new(move |more: &str| own.lock().unwrap().push_str(more)), lines)
}

/// The path that forbids an operation now.
pub fn forbids<T>(entered: Result<T, Error>) -> u32 {
    match entered.map(drop).unwrap_err() {
        Error::Blocked(why) => why.path(),
        other => panic!("{other}"),
    }
}

/// The path that forbade an operation until the time was over.
pub fn forbade<T>(entered: Result<T, Error>) -> u32 {
    match entered.map(drop).unwrap_err() {
        Error::Timeout(why) => why.path(),
        other => panic!("{other}"),
    }
}

/// Waits until this is so. Ends the test after ten minutes, since then it never will be.
pub fn until(mut is_so: impl FnMut() -> bool) {
    let begun = Instant::now();
    while !is_so() {
        assert!(begun.elapsed() < Duration::from_secs(600), "ten minutes have passed");
        thread::sleep(Duration::from_micros(200));
    }
}

/// Waits until so many wait for an operation.
pub fn until_waiting(paths: &Paths, op: Op, number: u32) {
    until(|| paths.waiting(op).unwrap() == number);
}

/// Whether nothing is in progress.
pub fn is_idle(paths: &Paths) -> bool {
    !paths.report().unwrap().contains("live")
}
