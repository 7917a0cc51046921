//! A store beside other processes: they die, are stopped in a turn, fork, or reach the limit of a file. This program is also each of them.

use std::env;
use std::fs;
use std::io::{stdin, Read};
use std::os::raw::{c_int, c_ulong};
use std::panic::{catch_unwind, AssertUnwindSafe};
use std::path::{Path, PathBuf};
use std::process::exit;
use std::sync::atomic::{AtomicU32, Ordering::SeqCst};
use std::sync::Arc;
use std::thread;
use std::time::Duration;

use common::stores::{begun, ends_well, hindered, is_idle, kill, opened, opened_as, until_waiting, Folder, Page};
use common::tasks::Polled;
use common::until;
use wanzoche::store::{Left, Options, OwnedGuard};
use wanzoche::{Error, Store, Verdict};

mod common;

extern "C" {
    fn fork() -> c_int;
    fn waitpid(process: c_int, status: *mut c_int, options: c_int) -> c_int;
    fn _exit(status: c_int) -> !;
    fn signal(signal: c_int, handler: usize) -> usize;
    fn setrlimit(resource: c_int, limit: *const [c_ulong; 2]) -> c_int;
}

/// What a child does.
#[test]
#[ignore]
fn a_child() {
    let file = PathBuf::from(env::var("STORE_FILE").unwrap());
    match env::var("STORE_DOES").unwrap().as_str() {
        "writes" => stays_in(&file, "write"),
        "waits" => stays_in(&file, "read"),
        "forks" => forks(&file),
        "fills" => fills(&file),
        other => panic!("{other}"),
    }
}

/// Enters, and stays until it is killed, or there is a word for it.
fn stays_in(file: &Path, operation: &str) {
    let (store, ..) = opened_as(&Options::new().without_sync().keep_lost(), file);
    let _guard = store.enter(store.op(operation).unwrap()).unwrap();
    let _ = stdin().read(&mut [0]);
}

#[test]
fn what_a_dead_process_had_is_finished() {
    let folder = Folder::new();
    let file = folder.file("book.log");
    let (store, read, write) = opened(&file);
    let child = begun("writes", &file);
    until(|| store.report().unwrap().contains(" write\n") && store.why(read).unwrap().is_some());
    kill(child);
    drop(store.enter(read).unwrap());
    // And one that waits dies: it keeps nobody out.
    let writes = store.enter(write).unwrap();
    let child = begun("waits", &file);
    until_waiting(&store, read, 1);
    kill(child);
    drop(writes);
    drop(store.enter(write).unwrap());
    assert_eq!((store.waiting(read), is_idle(&store), store.audit()), (Ok(0), true, Ok(Verdict::Sound)));
}

#[test]
fn what_a_dead_process_had_is_kept() {
    let folder = Folder::new();
    let file = folder.file("book.log");
    let (store, read, _) = opened_as(&Options::new().without_sync().keep_lost(), &file);
    let child = begun("writes", &file);
    until(|| store.why(read).unwrap().is_some());
    assert_eq!(store.recover(2), Err(Error::Alive));
    kill(child);
    until(|| store.report().unwrap().contains("lost 0 2 write\n"));
    assert!(hindered(store.try_enter(read)).path().is_some());
    assert_eq!((store.recover(2), store.recover(2)), (Ok(1), Ok(0)));
    assert!(store.try_enter(read).is_ok());
}

#[test]
fn what_one_that_lives_had_is_taken_from_it() {
    let folder = Folder::new();
    let (one, _, write) = opened(&folder.file("book.log"));
    let (other, read, _) = opened(&folder.file("book.log"));
    let mut writes = one.enter(write).unwrap();
    assert_eq!((other.recover(1), other.recover_even_alive(1)), (Err(Error::Alive), Ok(1)));
    let reads = other.try_enter(read).unwrap();
    assert_eq!((writes.leave(), writes.put(1)), (Err(Error::NotInProgress), Err(Error::NotInProgress)));
    drop(writes);
    assert!(reads.look().is_ok());
}

/// Each call with a limit comes back while another has the turn and doesn't give it, and nothing has changed.
#[test]
fn beside_one_that_is_stopped() {
    let folder = Folder::new();
    let file = folder.file("book.log");
    let limited = Options::new().without_sync().limit(Duration::from_millis(1));
    let (store, read, write) = opened_as(&limited, &file);
    let (other, ..) = opened(&file);
    let (mut owed, dropped) = (store.enter(read).unwrap(), store.enter(read).unwrap());
    let page = Page::of(&file);
    page.stop(other.worker());
    assert_eq!(store.try_enter(read).map(drop), Err(Error::Late));
    assert_eq!(store.enter_timeout(read, Duration::from_millis(1)).map(drop), Err(Error::Late));
    assert_eq!((store.report(), store.why(write).map(drop)), (Err(Error::Late), Err(Error::Late)));
    assert_eq!((store.rotate(), store.recover(7), owed.put(1)), (Err(Error::Late), Err(Error::Late), Err(Error::Late)));
    assert_eq!((store.journal(), store.audit()), (Err(Error::Late), Err(Error::Late)));
    assert_eq!(limited.open(common::BOOK, &file).map(drop), Err(Error::Late));
    assert_eq!(owed.leave(), Ok(Left::Owed));
    drop(owed);
    drop(dropped);
    page.go_on();
    drop(store.enter(write).unwrap());
    let finishes = store.journal().unwrap().lines().filter(|line| line.contains("finish")).count();
    assert_eq!((finishes, is_idle(&store), store.audit()), (3, true, Ok(Verdict::Sound)));
}

/// A leave that nobody can even be told of: the guard says so and may be left again, and what a drop had is left later by itself.
#[test]
fn beside_one_that_is_stopped_without_a_slot() {
    let folder = Folder::new();
    let file = folder.file("book.log");
    let (store, read, write) = opened_as(&Options::new().without_sync().limit(Duration::from_millis(1)), &file);
    let (other, ..) = opened(&file);
    let (mut late, dropped) = (store.enter(read).unwrap(), store.enter(read).unwrap());
    let page = Page::of(&file);
    page.take_slots(other.worker());
    page.stop(other.worker());
    assert_eq!((late.leave(), late.leave()), (Err(Error::Late), Err(Error::Late)));
    drop(dropped);
    page.go_on();
    page.free_slots();
    until(|| late.leave().is_ok());
    until(|| other.why(other.op("write").unwrap()) == Ok(None));
    drop(store.enter(write).unwrap());
    assert!(is_idle(&other));
}

/// Who is dropped while another has the turn leaves what it had to others.
#[test]
fn a_store_that_is_dropped_beside_one_that_is_stopped() {
    let folder = Folder::new();
    let file = folder.file("book.log");
    let (store, read, _) = opened_as(&Options::new().without_sync().limit(Duration::from_millis(1)), &file);
    let (other, _, write) = opened(&file);
    std::mem::forget(store.enter(read).unwrap());
    let page = Page::of(&file);
    page.stop(other.worker());
    assert_eq!(store.close(), Err(Error::Late));
    page.go_on();
    drop(other.enter(write).unwrap());
}

fn forks(file: &Path) {
    let (store, read, write) = opened(file);
    let store = Arc::new(store);
    let mut guard = store.enter_owned(read).unwrap();
    // SAFETY: this process has no other thread that has anything of what the child uses.
    let process = unsafe { fork() };
    if process != 0 {
        let mut status = 1;
        // SAFETY: the status is there.
        assert_eq!((unsafe { waitpid(process, &mut status, 0) }, status), (process, 0));
        assert_eq!((hindered(store.try_enter(write)).path(), guard.leave()), (Some(0), Ok(Left::Finished)));
        return;
    }
    let is_right = catch_unwind(AssertUnwindSafe(|| is_nothing_to_a_child(file, store, guard)));
    // SAFETY: it ends the child.
    unsafe { _exit(if is_right.unwrap_or(false) { 0 } else { 1 }) }
}

/// In the child of a fork: whether each call says so, and the child may open the store itself, beside its parent.
fn is_nothing_to_a_child(file: &Path, store: Arc<Store>, mut guard: OwnedGuard) -> bool {
    let (read, write) = (store.op("read").unwrap(), store.op("write").unwrap());
    let all = [
        store.enter(read).map(drop),
        store.try_enter(write).map(drop),
        store.why(read).map(drop),
        store.report().map(drop),
        store.waiting(read).map(drop),
        store.rotate(),
        guard.leave().map(drop),
        guard.look().map(drop),
        Polled::new(store.enter_async(read)).ready().map(drop),
    ];
    let is_right = all.iter().all(|told| *told == Err(Error::Forked));
    drop(guard);
    drop(store);
    let (own, _, write) = opened(file);
    is_right && hindered(own.try_enter(write)).path() == Some(0)
}

#[test]
fn the_child_of_a_fork_has_no_part_in_it() {
    let folder = Folder::new();
    assert!(ends_well(begun("forks", &folder.file("book.log"))));
}

const SIGXFSZ: c_int = 25;
const SIG_IGN: usize = 1;
const RLIMIT_FSIZE: c_int = 1;

/// Lets files of this process grow no further than so.
fn limit_files(bytes: u64) {
    // SAFETY: both only read what they are given.
    unsafe {
        signal(SIGXFSZ, SIG_IGN);
        assert_eq!(setrlimit(RLIMIT_FSIZE, &[bytes, c_ulong::MAX]), 0);
    }
}

/// The file has reached its limit: what was begun stays in progress, until there is room again.
fn fills(file: &Path) {
    let (store, read, write) = opened(file);
    let (mut left, dropped) = (store.enter(read).unwrap(), store.enter(read).unwrap());
    limit_files(fs::metadata(file).unwrap().len());
    let full = store.try_enter(read).map(drop).unwrap_err();
    assert!(matches!(&full, Error::System { errno: 27, words } if words.contains("book.log")), "{full:?}");
    // A task is told the same, by another thread.
    let mut awaits = Polled::new(store.enter_async(read));
    assert!(awaits.is_pending());
    until(|| awaits.counter.woken() == 1);
    assert_eq!(awaits.ready().map(drop), Err(full));
    assert!(matches!(left.leave(), Err(Error::System { errno: 27, .. })));
    drop(dropped);
    // Meanwhile it is left again, in vain, and once more when there is room.
    thread::sleep(Duration::from_millis(120));
    assert!(store.report().unwrap().contains("live 0 1 read\nlive 1 1 read\n"));
    limit_files(c_ulong::MAX);
    assert_eq!(left.leave(), Ok(Left::Finished));
    until(|| store.why(write) == Ok(None));
    exit(0);
}

#[test]
fn beside_a_full_disk() {
    let folder = Folder::new();
    let file = folder.file("book.log");
    assert!(ends_well(begun("fills", &file)));
    let (store, _, write) = opened(&file);
    assert!(store.try_enter(write).is_ok());
}

/// Threads of one opening and of another, which exclude each other.
#[test]
fn many_threads() {
    let folder = Folder::new();
    let file = folder.file("book.log");
    let (one, ..) = opened(&file);
    let (other, ..) = opened(&file);
    let inside = AtomicU32::new(0);
    thread::scope(|scope| {
        for number in 0..6 {
            let (store, inside) = (if number % 2 == 0 { &one } else { &other }, &inside);
            scope.spawn(move || {
                let write = store.op("write").unwrap();
                (0..500).for_each(|_| {
                    let _guard = store.enter(write).unwrap();
                    assert_eq!(inside.fetch_add(1, SeqCst), 0);
                    inside.fetch_sub(1, SeqCst);
                });
            });
        }
    });
    assert_eq!((one.audit(), one.journal().unwrap().lines().count()), (Ok(Verdict::Sound), 6000));
}
