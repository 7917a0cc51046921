//! Files of stores, and what happens to them.

#![allow(dead_code)]

use std::fs::{self, OpenOptions};
use std::os::unix::fs::FileExt;
use std::path::{Path, PathBuf};
use std::process::{Child, Command, Stdio};
use std::sync::atomic::{AtomicU32, Ordering::SeqCst};
use std::{env, process};

use wanzoche::store::{Hindrance, Options};
use wanzoche::{Error, Op, Store};

use super::{until, BOOK};

/// A folder that goes with this, in memory where that is a folder: nothing here is about the disk's time.
pub struct Folder(PathBuf);

impl Folder {
    pub fn new() -> Folder {
        static LAST: AtomicU32 = AtomicU32::new(0);
        let memory = PathBuf::from("/dev/shm");
        let place = if memory.is_dir() { memory } else { env::temp_dir() };
        let folder = place.join(format!("wanzoche-rust-{}-{}", process::id(), LAST.fetch_add(1, SeqCst)));
        fs::create_dir_all(&folder).unwrap();
        Folder(folder)
    }

    pub fn file(&self, name: &str) -> PathBuf {
        self.0.join(name)
    }
}

impl Drop for Folder {
    fn drop(&mut self) {
        let _ = fs::remove_dir_all(&self.0);
    }
}

/// A store that isn't synced, with two operations of its own.
pub fn opened(file: &Path) -> (Store, Op, Op) {
    opened_as(&Options::new().without_sync(), file)
}

pub fn opened_as(options: &Options, file: &Path) -> (Store, Op, Op) {
    let store = options.open(BOOK, file).unwrap();
    let (read, write) = (store.op("read").unwrap(), store.op("write").unwrap());
    (store, read, write)
}

/// What kept an entry out.
pub fn hindered<T>(entered: Result<T, Error>) -> Hindrance {
    match entered.map(drop).unwrap_err() {
        Error::Hindered(why) => why,
        other => panic!("{other}"),
    }
}

pub fn until_waiting(store: &Store, op: Op, number: u32) {
    until(|| store.waiting(op).unwrap() == number);
}

/// Whether nothing is in progress.
pub fn is_idle(store: &Store) -> bool {
    !store.report().unwrap().contains("live")
}

const TURN: u64 = 64;
const SLOTS: u64 = 4096;
const CLAIMED: u32 = 1;
const WAIT: u32 = 1 << 30;
const OWNER: u32 = WAIT - 1;

/// The numbers that processes share, in the file beside the journal.
pub struct Page(fs::File);

impl Page {
    pub fn of(file: &Path) -> Page {
        let name = format!("{}.shared", file.display());
        Page(OpenOptions::new().read(true).write(true).open(name).unwrap())
    }

    fn get(&self, at: u64) -> u32 {
        let mut word = [0; 4];
        self.0.read_exact_at(&mut word, at).unwrap();
        u32::from_ne_bytes(word)
    }

    fn set(&self, at: u64, word: u32) {
        self.0.write_all_at(&word.to_ne_bytes(), at).unwrap();
    }

    /// From now on this opening has the turn, and doesn't give it, as if its process were stopped.
    pub fn stop(&self, worker: u32) {
        self.set(TURN, worker);
    }

    /// Whether somebody sleeps for the turn.
    pub fn is_awaited(&self) -> bool {
        self.get(TURN) & WAIT != 0
    }

    /// It gives the turn. What others have left to it stays.
    pub fn go_on(&self) {
        self.set(TURN, self.get(TURN) & !OWNER);
    }

    /// The priority of who waits at a place.
    pub fn priority(&self, slot: u64) -> u32 {
        self.get(SLOTS + 64 * slot + 40)
    }

    /// All places of those that wait are taken by this opening.
    pub fn take_slots(&self, worker: u32) {
        (0..1024).for_each(|slot| self.set(SLOTS + 64 * slot, worker << 3 | CLAIMED));
    }

    pub fn free_slots(&self) {
        (0..1024).for_each(|slot| self.set(SLOTS + 64 * slot, 0));
    }
}

/// This program again, as a process that does something with a file: see `does` of the test that begins it.
pub fn begun(what: &str, file: &Path) -> Child {
    let mut command = Command::new(env::current_exe().unwrap());
    command.args(["--ignored", "--exact", "a_child", "--nocapture", "--test-threads=1"]);
    command.env("STORE_DOES", what).env("STORE_FILE", file).stdin(Stdio::piped()).stdout(Stdio::null()).spawn().unwrap()
}

pub fn kill(mut child: Child) {
    child.kill().unwrap();
    child.wait().unwrap();
}

/// Whether it ended well by itself.
pub fn ends_well(mut child: Child) -> bool {
    child.wait().unwrap().success()
}
