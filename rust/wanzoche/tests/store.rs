//! The calls of a store, of one process.

use std::fs;
use std::panic::catch_unwind;
use std::sync::Arc;
use std::thread;
use std::time::Duration;

use common::stores::{hindered, is_idle, opened, opened_as, until_waiting, Folder, Page};
use common::tasks::Polled;
use common::{until, BOOK};
use wanzoche::store::{Left, Options};
use wanzoche::{Error, Paths, Store, Verdict};

mod common;

fn is_shared<T: Send + Sync>(_: &T) {}

#[test]
fn a_book() {
    let folder = Folder::new();
    let book = Paths::open_store(BOOK, folder.file("book.log")).unwrap();
    let (read, write) = (book.op("read").unwrap(), book.op("write").unwrap());
    assert_eq!((book.worker(), book.name(write), book.path(0), book.path(1)), (1, Ok("write"), Some("{ read }, write"), None));
    let (one, mut two) = (book.enter(read).unwrap(), book.try_enter(read).unwrap());
    assert_eq!((one.activation(), two.activation(), two.op()), (0, 1, read));
    let why = hindered(book.try_enter(write));
    assert_eq!(
        (why.operation(), why.path(), why.text(), why.resource(), why.behind()),
        ("write", Some(0), "{ read }, write", "book", None)
    );
    assert_eq!(why.to_string(), "write is blocked: path 0 of book: { read }, write");
    assert_eq!(book.why(write), Ok(Some(why.clone())));
    assert_eq!(hindered(book.enter_timeout(write, Duration::from_millis(5))), why);
    assert_eq!((book.why(read), book.waiting(write)), (Ok(None), Ok(0)));
    assert_eq!((one.put(7), one.look(), one.take(), one.add(1)), (Ok(0), Ok(7), Err(Error::NotOffered), Err(Error::NotOffered)));
    assert!(book.report().unwrap().contains("blocked write 0\nlive 0 1 read\nlive 1 1 read\nfrozen no\nprocess 1 "));
    drop(one);
    assert_eq!((two.leave(), two.leave(), two.look()), (Ok(Left::Finished), Err(Error::NotInProgress), Err(Error::NotInProgress)));
    drop(two);
    assert!(is_idle(&book));
    assert_eq!(book.audit(), Ok(Verdict::Sound));
    is_shared(&book);
    is_shared(&book.enter(write).unwrap());
    is_shared(&book.enter_async(write));
    assert_eq!(book.close(), Ok(()));
}

#[test]
fn devices_of_each_kind() {
    const ALL: &str = "resource q queue 1 operation load path load end end resource t tally operation sell path sell end end";
    let folder = Folder::new();
    let store = Options::new().without_sync().open(ALL, folder.file("all.log")).unwrap();
    let (load, sell) = (store.enter(store.op("load").unwrap()).unwrap(), store.enter(store.op("sell").unwrap()).unwrap());
    assert_eq!(
        (load.take(), load.put(5), load.put(6), load.look(), load.take()),
        (Err(Error::Empty), Ok(1), Err(Error::Full), Ok(5), Ok(5))
    );
    assert_eq!((sell.add(3), sell.add(u64::MAX), sell.look()), (Ok(3), Err(Error::Overflow), Ok(3)));
}

#[test]
fn two_openings_are_two() {
    let folder = Folder::new();
    let (one, read, write) = opened(&folder.file("book.log"));
    let (other, others_read, others_write) = opened(&folder.file("book.log"));
    assert_eq!((one.worker(), other.worker()), (1, 2));
    for result in [one.enter(others_read).map(drop), one.try_enter(others_write).map(drop), one.name(others_read).map(drop)] {
        assert_eq!(result, Err(Error::ForeignOperation));
    }
    let reads = one.enter(read).unwrap();
    assert_eq!(hindered(other.try_enter(others_write)).path(), Some(0));
    drop(reads);
    let writes = other.enter(others_write).unwrap();
    assert_eq!(hindered(one.try_enter(read)).operation(), "read");
    drop(writes);
    assert!(one.try_enter(write).is_ok());
    let journal = "1 start read: started 0\n1 finish 0: finished\n2 start write: started 1\n2 finish 1: finished\n\
                   1 start write: started 2\n1 finish 2: finished\n";
    assert_eq!(other.journal().as_deref(), Ok(journal));
}

#[test]
fn a_drop_wakes_who_waits() {
    let folder = Folder::new();
    let (store, read, write) = opened(&folder.file("book.log"));
    let (other, ..) = opened(&folder.file("book.log"));
    let store = Arc::new(store);
    let reads = store.enter(read).unwrap();
    let writes = thread::spawn({
        let store = Arc::clone(&store);
        move || store.enter_owned(write)
    });
    until_waiting(&other, other.op("write").unwrap(), 1);
    assert!(other.report().unwrap().contains("waiting write 1\n"));
    drop(reads);
    let guard = writes.join().unwrap().unwrap();
    assert_eq!((guard.activation(), store.waiting(write)), (1, Ok(0)));
    assert_eq!(hindered(store.try_enter_owned(read)).operation(), "read");
    assert_eq!(hindered(store.enter_timeout_owned(read, Duration::from_millis(1))).operation(), "read");
    drop(guard);
    drop((store.try_enter_owned(read).unwrap(), store.enter_timeout_owned(read, Duration::MAX).unwrap()));
    assert!(is_idle(&store));
}

#[test]
fn who_has_time_waits() {
    let folder = Folder::new();
    let (store, read, write) = opened(&folder.file("book.log"));
    for time in [Duration::from_secs(3600), Duration::MAX] {
        let reads = store.enter(read).unwrap();
        thread::scope(|scope| {
            let writes = scope.spawn(|| store.enter_timeout(write, time).map(drop));
            until_waiting(&store, write, 1);
            drop(reads);
            assert_eq!(writes.join().unwrap(), Ok(()));
        });
    }
}

/// A line has a mark if nobody waited for the disk.
#[test]
fn syncs() {
    let folder = Folder::new();
    for (options, mark) in [(Options::new(), ""), (Options::new().without_sync(), "+")] {
        let file = folder.file("book.log");
        let (store, read, _) = opened_as(&options, &file);
        drop(store.enter(read).unwrap());
        let last = format!("\n{mark}{} finish ", store.worker());
        assert!(fs::read_to_string(&file).unwrap().contains(&last), "{last}");
    }
}

#[test]
fn a_panic_leaves() {
    let folder = Folder::new();
    let file = folder.file("book.log");
    let (store, _, write) = opened(&file);
    let panics = catch_unwind(std::panic::AssertUnwindSafe(|| {
        let _guard = store.enter(write).unwrap();
        panic!("in the body");
    }));
    assert!(panics.is_err() && is_idle(&store));
    assert!(store.try_enter(write).is_ok());
}

#[test]
fn a_guard_goes_to_another_thread() {
    let folder = Folder::new();
    let (store, _, write) = opened(&folder.file("book.log"));
    let guard = store.enter(write).unwrap();
    thread::scope(|scope| scope.spawn(move || drop(guard)).join().unwrap());
    assert!(is_idle(&store));
}

#[test]
fn a_forgotten_guard_is_over_with_its_store() {
    let folder = Folder::new();
    let (store, _, write) = opened(&folder.file("book.log"));
    let (other, read, _) = opened(&folder.file("book.log"));
    std::mem::forget(store.enter(write).unwrap());
    assert!(other.try_enter(read).is_err());
    drop(store);
    assert!(other.try_enter(read).is_ok());
}

/// It stands in the place of who waits, where the library finds it; what it does there the library's own tests show.
#[test]
fn a_priority_is_told() {
    let folder = Folder::new();
    let (store, _, write) = opened(&folder.file("book.log"));
    let page = Page::of(&folder.file("book.log"));
    let writes = store.enter(write).unwrap();
    thread::scope(|scope| {
        scope.spawn(|| drop(store.enter(write.with_priority(7)).unwrap()));
        until_waiting(&store, write, 1);
        assert_eq!(page.priority(0), 7);
        let mut waits = Polled::new(store.enter_async(write.with_priority(9)));
        assert!(waits.is_pending());
        until_waiting(&store, write, 2);
        assert_eq!(page.priority(1), 9);
        drop((waits, writes));
    });
}

/// Strictly, a reader stands behind a writer that waits; and where nothing is ever withheld it passes.
#[test]
fn patience() {
    for (patience, withheld) in [(Duration::ZERO, true), (Duration::MAX, false)] {
        let folder = Folder::new();
        let (store, read, write) = opened_as(&Options::new().without_sync().patience(patience), &folder.file("book.log"));
        let (other, others_read, _) = opened_as(&Options::new().without_sync().patience(patience), &folder.file("book.log"));
        thread::scope(|scope| {
            let reads = store.enter(read).unwrap();
            scope.spawn(|| drop(store.enter(write).unwrap()));
            until_waiting(&store, write, 1);
            if withheld {
                // Whoever waits asks that for so long each time; on a machine that doesn't let it ask in time, one may pass.
                let mut entered = Ok(());
                until(|| {
                    entered = other.try_enter(others_read).map(drop);
                    entered.is_err()
                });
                let why = hindered(entered);
                assert_eq!((why.path(), why.text(), why.resource(), why.behind()), (None, "", "", Some("write")));
                assert_eq!(why.to_string(), "read is behind write, which waits");
            } else {
                assert_eq!(other.try_enter(others_read).map(drop), Ok(()));
            }
            drop(reads);
        });
    }
}

#[test]
fn rotation_and_rooms() {
    let folder = Folder::new();
    let file = folder.file("book.log");
    let small = Options::new().without_sync().room(7);
    let (store, read, _) = opened_as(&small, &file);
    (0..20).for_each(|_| drop(store.enter(read).unwrap()));
    store.rotate().unwrap();
    assert_eq!((store.journal().unwrap().lines().count(), store.audit()), (40, Ok(Verdict::Sound)));
    assert!(folder.file("book.log.5").exists());
    for room in [0, wanzoche::MOST_LINES + 1] {
        assert_eq!(Options::new().room(room).open(BOOK, folder.file("other.log")).map(drop), Err(Error::BadRoom));
    }
    assert!(!folder.file("other.log").exists());
}

fn refused(opened: Result<Store, Error>) -> Error {
    opened.map(drop).unwrap_err()
}

#[test]
fn what_is_no_store() {
    let folder = Folder::new();
    let file = folder.file("book.log");
    let fault = Error::Declaration { fault: "undeclared", line: 1, column: 47 };
    assert_eq!(refused(Paths::open_store("resource book cell operation read, write path reed end end", &file)), fault);
    assert!(!file.exists());
    let (store, ..) = opened(&file);
    let other = "resource book cell operation read, write path read , write end end";
    assert!(
        matches!(refused(Paths::open_store(other, &file)), Error::OtherDeclaration { words } if words.contains("`read, write end end`"))
    );
    assert_eq!(store.op("writ").unwrap_err(), Error::UnknownOperation { name: "writ".to_string() });
    drop(store);
    fs::hard_link(&file, folder.file("link.log")).unwrap();
    assert!(matches!(refused(Paths::open_store(BOOK, &file)), Error::NotAStore { words } if words.contains("2 names")));
    fs::remove_file(folder.file("link.log")).unwrap();
    fs::remove_file(&file).unwrap();
    assert!(matches!(refused(Paths::open_store(BOOK, &file)), Error::NotAStore { words } if words.contains("is gone")));
    fs::write(folder.file("text.log"), "some text\n").unwrap();
    assert!(matches!(refused(Paths::open_store(BOOK, folder.file("text.log"))), Error::NotAStore { .. }));
    let nowhere = refused(Paths::open_store(BOOK, folder.file("no folder/book.log")));
    assert!(matches!(&nowhere, Error::System { errno: 2, .. }), "{nowhere:?}");
    assert!(nowhere.to_string().contains("No such file"), "{nowhere}");
    assert!(matches!(refused(Paths::open_store(BOOK, "a\0b")), Error::System { errno: 22, .. }));
}

#[test]
fn a_line_that_isnt_owed() {
    let folder = Folder::new();
    let file = folder.file("book.log");
    let (store, read, _) = opened(&file);
    drop(store.enter(read).unwrap());
    let mut text = fs::read_to_string(&file).unwrap();
    text = text.replace("finish 0", "finish 1");
    fs::write(&file, text).unwrap();
    assert_eq!(store.audit(), Ok(Verdict::Wrong { index: 1 }));
    drop(store);
    let found = refused(Paths::open_store(BOOK, &file));
    assert!(matches!(&found, Error::Corrupt { line: 3, words } if words.contains("book.log")), "{found:?}");
}
