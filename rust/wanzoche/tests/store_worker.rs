//! A worker for c/tests/store_together, which kills it: c/tests/store_worker.c says what it is called with, and what the witness is. Of
//! its two threads one runs tasks. `cargo test` calls it with nothing, and then it does nothing.

use std::env;
use std::ffi::OsString;
use std::fs::{File, OpenOptions};
use std::future::Future;
use std::io::Write;
use std::os::raw::c_int;
use std::os::unix::io::AsRawFd;
use std::path::PathBuf;
use std::pin::Pin;
use std::process::exit;
use std::sync::Arc;
use std::task::{Context, Poll, Wake, Waker};
use std::thread::{self, Thread};
use std::time::{Duration, Instant};

use wanzoche::store::{Guard, Options};
use wanzoche::{Error, Op, Store, Verdict};

const BOOK: &str = "resource book cell operation read, write path { read } , write end end";
const LOCK_SH: c_int = 1;
const LOCK_EX: c_int = 2;
const LOCK_NB: c_int = 4;
const LOCK_UN: c_int = 8;
const ABOVE: c_int = 200;
const VIOLATION: i32 = 3;

extern "C" {
    fn flock(file: c_int, how: c_int) -> c_int;
    fn dup2(file: c_int, other: c_int) -> c_int;
}

fn locks(file: c_int, how: c_int) -> bool {
    // SAFETY: it only reads numbers.
    unsafe { flock(file, how) == 0 }
}

/// Where all is, and how many entries were made.
struct Place(PathBuf);

impl Place {
    fn open(&self, name: &str) -> File {
        OpenOptions::new().append(true).create(true).open(self.0.join(name)).unwrap()
    }

    fn is_at_end(&self) -> bool {
        self.0.join("end").exists()
    }
}

/// One of the two threads, with its parts of the witness.
struct Looker {
    number: c_int,
    below: File,
    entries: File,
}

impl Looker {
    /// Locks both, or ends the process.
    fn look_on(&self, how: c_int, is_blind: bool) {
        let (below, above) = (self.below.as_raw_fd(), ABOVE + self.number);
        let (has_one, has_other) = (locks(below, how | LOCK_NB), locks(above, how | LOCK_NB));
        if !(has_one || has_other) || (is_blind && !(has_one && has_other)) {
            println!("store_worker.rs: the witness saw an overlap");
            exit(VIOLATION);
        }
        // Of one that is about to be gone.
        while !has_one && !locks(below, how) {}
        while !has_other && !locks(above, how) {}
    }

    fn is_in(&self, writes: bool, is_blind: bool) {
        self.look_on(if writes { LOCK_EX } else { LOCK_SH }, is_blind);
        (&self.entries).write_all(b"r").unwrap();
        assert!(locks(self.below.as_raw_fd(), LOCK_UN) && locks(ABOVE + self.number, LOCK_UN));
    }
}

struct Unparks(Thread);

impl Wake for Unparks {
    fn wake(self: Arc<Self>) {
        self.0.unpark();
    }
}

/// Awaits an entry for so long, and then drops it.
fn awaits(store: &Store, op: Op, time: Duration) -> Result<Option<Guard<'_>>, Error> {
    let waker: Waker = Arc::new(Unparks(thread::current())).into();
    let mut enters = store.enter_async(op);
    let end = Instant::now() + time;
    loop {
        if let Poll::Ready(done) = Pin::new(&mut enters).poll(&mut Context::from_waker(&waker)) {
            return done.map(Some);
        }
        match end.checked_duration_since(Instant::now()) {
            Some(left) => thread::park_timeout(left),
            None => return Ok(None),
        }
    }
}

fn waits(store: &Store, op: Op, time: Duration) -> Result<Option<Guard<'_>>, Error> {
    match store.enter_timeout(op, time) {
        Err(Error::Hindered(_) | Error::Late) => Ok(None),
        other => other.map(Some),
    }
}

fn works(store: Option<&Store>, place: &Place, thread: &Looker) {
    let mut seed = std::process::id().wrapping_mul(7919).wrapping_add(thread.number as u32);
    while !place.is_at_end() {
        seed = seed.wrapping_mul(1_664_525).wrapping_add(1_013_904_223);
        let (writes, time) = ((seed >> 12) % 3 == 0, Duration::from_millis(u64::from((seed >> 16) % 30)));
        if let Some(store) = store {
            let op = store.op(if writes { "write" } else { "read" }).unwrap();
            let entered = if thread.number == 0 { waits(store, op, time) } else { awaits(store, op, time) };
            if let Some(_guard) = entered.unwrap() {
                thread.is_in(writes, false);
            }
        } else {
            thread.is_in(writes, true);
        }
    }
}

fn check(file: &OsString) -> i32 {
    let store = Options::new().without_sync().open(BOOK, file).unwrap();
    let report = store.report().unwrap();
    let is_right = !report.contains("live") && !report.contains("waiting") && store.audit() == Ok(Verdict::Sound);
    i32::from(!is_right)
}

fn main() {
    let words: Vec<OsString> = env::args_os().skip(1).take_while(|word| !word.to_string_lossy().starts_with('-')).collect();
    let (file, place, how) = match &words[..] {
        [file, place] => (file, Place(place.into()), None),
        [file, place, how] => (file, Place(place.into()), how.to_str()),
        _ => return,
    };
    if how == Some("check") {
        exit(check(file));
    }
    let threads = [0, 1].map(|number| Looker { number, below: place.open("below"), entries: place.open("entries") });
    let options = if env::var_os("STORE_IS_SYNCED").is_some() { Options::new() } else { Options::new().without_sync() };
    let store = how.is_none().then(|| options.open(BOOK, file).unwrap());
    for thread in &threads {
        // SAFETY: nobody has the other number.
        assert!(unsafe { dup2(place.open("above").as_raw_fd(), ABOVE + thread.number) } >= 0);
    }
    thread::scope(|scope| threads.iter().for_each(|thread| drop(scope.spawn(|| works(store.as_ref(), &place, thread)))));
    if let Some(store) = store {
        store.close().unwrap();
    }
}
