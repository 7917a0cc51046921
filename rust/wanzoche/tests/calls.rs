//! What each call answers, in one thread.

use std::panic::{RefUnwindSafe, UnwindSafe};

use std::time::Duration;

use common::{forbade, forbids, kept, BOOK, SLOT};
use wanzoche::{audit, library_version, thread_number, Blocked, Enter, EnterOwned, Error, Explored, Guard, Op, Options, OwnedGuard, Paths};
use wanzoche::{Verdict, MOST_LINES};

mod common;

#[test]
fn library_is_of_this_version() {
    assert_eq!(library_version(), env!("CARGO_PKG_VERSION"));
}

#[test]
fn types_may_be_shared_and_sent() {
    fn shared<T: Send + Sync + UnwindSafe + RefUnwindSafe>() {}
    fn sent<T: Send>() {}
    shared::<Paths>();
    shared::<Guard<'static>>();
    shared::<OwnedGuard>();
    shared::<Enter<'static>>();
    shared::<EnterOwned>();
    shared::<Blocked>();
    shared::<Explored>();
    shared::<Op>();
    shared::<Error>();
    shared::<Verdict>();
    sent::<Options>();
}

#[test]
fn faults_of_a_declaration_have_their_place() {
    let fault_of = |text: &str| Paths::open(text).unwrap_err();
    let at = |fault, line, column| Error::Declaration { fault, line, column };
    assert_eq!(fault_of(""), at("unexpected", 1, 1));
    assert_eq!(fault_of("resource"), at("unexpected", 1, 9));
    assert_eq!(fault_of("resource slot cell\noperation a\npath b end\nend"), at("undeclared", 3, 6));
    assert_eq!(fault_of("resource slot cell\n operation a, \u{e4}"), at("bad byte", 2, 15));
    assert_eq!(fault_of(&" ".repeat(70_000)), at("text too long", 1, 1));
    assert_eq!(fault_of("resource r cell operation a path a ; a end end").to_string(), "declaration: repeated name in line 1, column 38");
}

#[test]
fn rooms_are_bounded() {
    for room in [0, MOST_LINES + 1, u32::MAX] {
        assert_eq!(Options::new().room(room).open(SLOT).unwrap_err(), Error::BadRoom);
    }
    assert!(Options::new().room(1).open(SLOT).is_ok());
    // What is wrong with the text counts first.
    assert!(matches!(Options::new().room(0).open("resource"), Err(Error::Declaration { .. })));
}

#[test]
fn operations_have_names() {
    let paths = Paths::open(SLOT).unwrap();
    assert_eq!(paths.op("deposit"), paths.op("deposit"));
    assert_ne!(paths.op("deposit"), paths.op("remove"));
    for name in ["", "Deposit", "deposit ", "remoove", "path", "\u{e4}", "deposit\0"] {
        assert_eq!(paths.op(name), Err(Error::UnknownOperation { name: name.to_string() }));
    }
    assert_eq!(paths.op("remoove").unwrap_err().to_string(), "no operation `remoove` is declared");
}

#[test]
fn operations_belong_to_their_paths() {
    let (own, other) = (Paths::open(SLOT).unwrap(), Paths::open(SLOT).unwrap());
    let foreign = other.op("deposit").unwrap();
    assert_eq!(own.enter(foreign).unwrap_err(), Error::ForeignOperation);
    assert_eq!(own.try_enter(foreign).unwrap_err(), Error::ForeignOperation);
    assert_eq!(own.enter_timeout(foreign, Duration::from_secs(1)).unwrap_err(), Error::ForeignOperation);
    assert_eq!(own.blocked_by(foreign), Err(Error::ForeignOperation));
    assert_eq!(own.waiting(foreign), Err(Error::ForeignOperation));
    assert_eq!(own.journal().unwrap(), "");
    assert_ne!(own.op("deposit").unwrap(), foreign);
}

/// Each thread has a number of its own, by which the journals of all paths name it.
#[test]
fn threads_have_numbers() {
    let (one, other) = (Paths::open(BOOK).unwrap(), Paths::open(BOOK).unwrap());
    let number_in = |paths: &Paths| {
        drop(paths.enter(paths.op("read").unwrap()).unwrap());
        thread_number()
    };
    let mut numbers: Vec<u32> = std::thread::scope(|scope| {
        let threads: Vec<_> = (0..20).map(|_| scope.spawn(|| (number_in(&one), number_in(&other)))).collect();
        threads.into_iter().map(|thread| thread.join().unwrap()).map(|(one, other)| if one == other { one } else { 0 }).collect()
    });
    for number in &numbers {
        let line = format!("{number} start read: started ");
        assert!(*number > 0 && one.journal().unwrap().contains(&line) && other.journal().unwrap().contains(&line));
    }
    numbers.sort_unstable();
    numbers.dedup();
    assert_eq!(numbers.len(), 20);
}

#[test]
fn a_path_forbids_until_the_guard_is_dropped() {
    let paths = Paths::open(SLOT).unwrap();
    let (deposit, remove) = (paths.op("deposit").unwrap(), paths.op("remove").unwrap());
    assert_eq!(forbids(paths.try_enter(remove)), 0);
    assert_eq!(paths.blocked_by(remove), Ok(Some(0)));
    assert_eq!(paths.blocked_by(deposit), Ok(None));
    let guard = paths.enter(deposit).unwrap();
    assert_eq!(guard.activation(), 0);
    assert_eq!(forbids(paths.try_enter(deposit)), 0);
    assert_eq!(forbids(paths.try_enter(remove)), 0);
    drop(guard);
    assert_eq!(paths.enter(remove).unwrap().activation(), 1);
    let me = thread_number();
    let lines = [
        format!("{me} start remove: blocked 0"),
        format!("{me} start deposit: started 0"),
        format!("{me} start deposit: blocked 0"),
        format!("{me} start remove: blocked 0"),
        format!("{me} finish 0: finished"),
        format!("{me} start remove: started 1"),
        format!("{me} finish 1: finished"),
    ];
    assert_eq!(paths.journal().unwrap(), lines.join("\n") + "\n");
    assert_eq!(paths.audit(&paths.journal().unwrap()), Ok(Verdict::Sound));
}

#[test]
fn a_report_says_what_is_live() {
    let paths = Paths::open(BOOK).unwrap();
    let (read, write) = (paths.op("read").unwrap(), paths.op("write").unwrap());
    assert_eq!(paths.report().unwrap(), "startable read write\nfrozen no\n");
    let guard = paths.enter(write).unwrap();
    let me = thread_number();
    assert_eq!(paths.report().unwrap(), format!("startable\nblocked read 0\nblocked write 0\nlive 0 {me} write\nfrozen no\n"));
    drop(guard);
    let _readers: Vec<_> = (0..3).map(|_| paths.enter(read).unwrap()).collect();
    assert_eq!(paths.report().unwrap().matches("live").count(), 3);
    let knot = Paths::open("resource r cell operation a, b path a ; b end path b ; a end end").unwrap();
    assert!(knot.report().unwrap().ends_with("frozen yes\n"));
}

#[test]
fn paths_have_texts() {
    let text = "resource one cell operation pathfinder, endless path { pathfinder:3 },endless end end
                resource two cell operation a, b path a;b end path b end end";
    let paths = Paths::open(text).unwrap();
    let path = |number| paths.path(number).unwrap();
    assert_eq!(path(0).as_deref(), Some("{ pathfinder: 3 }, endless"));
    assert_eq!(path(1).as_deref(), Some("a; b"));
    assert_eq!(path(2).as_deref(), Some("b"));
    for number in [3, 4, u32::MAX] {
        assert_eq!(path(number), None);
    }
}

#[test]
fn a_cell_is_put_into_and_looked_at() {
    let paths = Paths::open(SLOT).unwrap();
    let guard = paths.enter(paths.op("deposit").unwrap()).unwrap();
    assert_eq!(guard.look(), Ok(0));
    assert_eq!(guard.put(7), Ok(0));
    assert_eq!(guard.put(u64::MAX), Ok(7));
    assert_eq!(guard.look(), Ok(u64::MAX));
    assert_eq!(guard.take(), Err(Error::NotOffered));
    assert_eq!(guard.add(1), Err(Error::NotOffered));
}

#[test]
fn a_tally_is_added_to() {
    let paths = Paths::open("resource till tally operation sell path sell end end").unwrap();
    let guard = paths.enter(paths.op("sell").unwrap()).unwrap();
    assert_eq!((guard.add(3), guard.add(4), guard.look()), (Ok(3), Ok(7), Ok(7)));
    assert_eq!(guard.add(u64::MAX), Err(Error::Overflow));
    assert_eq!(guard.add(u64::MAX - 7), Ok(u64::MAX));
    assert_eq!((guard.put(1), guard.take()), (Err(Error::NotOffered), Err(Error::NotOffered)));
}

#[test]
fn a_queue_keeps_its_order() {
    let paths = Paths::open("resource line queue 2 operation step path step end end").unwrap();
    let guard = paths.enter(paths.op("step").unwrap()).unwrap();
    assert_eq!((guard.take(), guard.look()), (Err(Error::Empty), Err(Error::Empty)));
    assert_eq!((guard.put(5), guard.put(6), guard.put(7)), (Ok(1), Ok(2), Err(Error::Full)));
    assert_eq!((guard.look(), guard.take(), guard.take(), guard.take()), (Ok(5), Ok(5), Ok(6), Err(Error::Empty)));
    assert_eq!(guard.add(1), Err(Error::NotOffered));
}

#[test]
fn guards_may_be_dropped_in_any_order() {
    let paths = Paths::open("resource r cell operation a path { a } end end").unwrap();
    let a = paths.op("a").unwrap();
    let mut guards: Vec<Option<Guard<'_>>> = (0..100).map(|_| Some(paths.enter(a).unwrap())).collect();
    for step in 0..100 {
        let at = step * 37 % 100;
        assert!(paths.report().unwrap().contains(&format!("live {at} ")));
        guards[at] = None;
        assert!(!paths.report().unwrap().contains(&format!("live {at} ")));
    }
    assert_eq!(paths.report().unwrap(), "startable a\nfrozen no\n");
    assert_eq!(paths.audit(&paths.journal().unwrap()), Ok(Verdict::Sound));
}

#[test]
fn a_forgotten_guard_leaves_its_operation_in_progress() {
    let paths = Paths::open(BOOK).unwrap();
    let (read, write) = (paths.op("read").unwrap(), paths.op("write").unwrap());
    std::mem::forget(paths.enter(read).unwrap());
    assert_eq!(forbids(paths.try_enter(write)), 0);
    drop(paths.enter(read).unwrap());
    assert_eq!(forbade(paths.enter_timeout(write, Duration::from_millis(1))), 0);
    drop(paths);
}

#[test]
fn a_full_journal_begins_anew() {
    for room in [2, 3, 8] {
        let paths = Options::new().room(room).open(SLOT).unwrap();
        let ops = [paths.op("deposit").unwrap(), paths.op("remove").unwrap()];
        for n in 0..1000 {
            drop(paths.enter(ops[n % 2]).unwrap());
        }
        assert!(paths.journal().unwrap().lines().count() <= room as usize);
    }
}

#[test]
fn a_log_gets_all_lines() {
    let (log, lines) = kept();
    let paths = Options::new().room(10).log(log).open(SLOT).unwrap();
    let ops = [paths.op("deposit").unwrap(), paths.op("remove").unwrap()];
    for n in 0..101 {
        let guard = paths.enter(ops[n % 2]).unwrap();
        assert!(guard.look().is_ok());
        assert!(paths.try_enter(ops[n % 2]).is_err());
    }
    let mut whole = lines.lock().unwrap().clone();
    whole.push_str(&paths.journal().unwrap());
    assert_eq!(whole.lines().count(), 4 * 101);
    assert_eq!(paths.audit(&whole), Ok(Verdict::Sound));
    paths.rotate().unwrap();
    assert_eq!((paths.journal().unwrap().as_str(), lines.lock().unwrap().lines().count()), ("", 4 * 101));
    let mut forged: Vec<&str> = whole.lines().collect();
    forged.remove(4);
    assert_eq!(paths.audit(&forged.join("\n")), Ok(Verdict::Wrong { index: 4 }));
}

#[test]
fn room_for_what_is_live_runs_out() {
    let (log, lines) = kept();
    let paths = Options::new().room(9).log(log).open("resource r tally operation a path { a } end end").unwrap();
    let a = paths.op("a").unwrap();
    let mut guards = Vec::new();
    let refused = loop {
        match paths.enter(a) {
            Ok(guard) => guards.push(guard),
            Err(error) => break error,
        }
    };
    // Each start takes a line, which the log then gets, and keeps one for its finish.
    assert_eq!((refused, guards.len()), (Error::NoRoom, 8));
    assert_eq!((0..3).map(|_| guards[0].add(1)).collect::<Vec<_>>(), [Ok(1), Ok(2), Ok(3)]);
    assert_eq!(paths.enter_timeout(a, Duration::from_secs(9)).unwrap_err(), Error::NoRoom);
    drop(guards.remove(3));
    guards.push(paths.enter(a).unwrap());
    drop(guards);
    let whole = lines.lock().unwrap().clone() + &paths.journal().unwrap();
    assert_eq!(paths.audit(&whole), Ok(Verdict::Sound));
}

#[test]
fn without_a_journal_all_else_is_the_same() {
    let kept = Paths::open(SLOT).unwrap();
    let paths = Options::new().room(3).without_journal().open(SLOT).unwrap();
    for each in [&kept, &paths] {
        let ops = [each.op("deposit").unwrap(), each.op("remove").unwrap()];
        for n in 0..100 {
            let guard = each.enter(ops[n % 2]).unwrap();
            assert_eq!((guard.activation(), guard.look()), (n as u64, Ok(n.saturating_sub(1) as u64 / 2)));
            assert_eq!(forbids(each.try_enter(ops[n % 2])), 0);
            if n % 2 == 0 {
                assert_eq!(guard.put(n as u64 / 2), Ok((n as u64 / 2).saturating_sub(1)));
            }
        }
        assert_eq!(each.report().unwrap(), "startable deposit\nblocked remove 0\nfrozen no\n");
        assert_eq!(each.rotate(), Ok(()));
    }
    assert_eq!(paths.journal(), Err(Error::NoJournal));
    assert_eq!(paths.audit("1 start remove: started 0\n"), Ok(Verdict::Wrong { index: 0 }));
}

#[test]
fn without_a_journal_the_room_is_that_of_what_is_in_progress() {
    let paths = Options::new().room(3).without_journal().open("resource r tally operation a path { a } end end").unwrap();
    let a = paths.op("a").unwrap();
    let guards = [paths.enter(a).unwrap(), paths.enter(a).unwrap()];
    assert_eq!(paths.enter(a).unwrap_err(), Error::NoRoom);
    (1..10).for_each(|total| assert_eq!(guards[1].add(1), Ok(total)));
    drop(guards);
    drop([paths.enter(a).unwrap(), paths.enter(a).unwrap()]);
}

#[test]
fn a_log_wants_a_journal() {
    let (log, _) = kept();
    assert_eq!(Options::new().log(log).without_journal().open(SLOT).unwrap_err(), Error::NoJournal);
    assert!(matches!(Options::new().without_journal().open("resource"), Err(Error::Declaration { .. })));
    assert_eq!(Options::new().room(0).without_journal().open(SLOT).unwrap_err(), Error::BadRoom);
}

#[test]
fn audits_need_no_paths() {
    assert_eq!(audit(SLOT, ""), Ok(Verdict::Sound));
    assert_eq!(audit(SLOT, "1 start deposit: started 0\n1 start deposit: started 1\n"), Ok(Verdict::Wrong { index: 1 }));
    assert_eq!(audit(SLOT, "nonsense\n"), Err(Error::Journal { fault: "bad line", line: 1 }));
    assert_eq!(
        audit(SLOT, "1 start deposit: started 0\n1 start b: started 1\n"),
        Err(Error::Journal { fault: "undeclared in line", line: 2 })
    );
    assert_eq!(audit("resource", ""), Err(Error::Declaration { fault: "unexpected", line: 1, column: 9 }));
    assert_eq!(audit(SLOT, "journal 2 room 1\n1 start deposit: started 0\n"), Ok(Verdict::Wrong { index: 0 }));
    assert_eq!(Verdict::Wrong { index: 3 }.to_string(), "wrong line 3");
    assert_eq!(Verdict::Sound.to_string(), "sound");
}

#[test]
fn each_error_says_what_it_is() {
    let texts = [
        (Error::BadRoom, "the room is 1 to 1048576 lines"),
        (Error::ForeignOperation, "the operation was resolved by other paths"),
        (Error::Closed, "the paths are closed"),
        (Error::WrongLine { index: 3 }, "journal: wrong line 3"),
        (Error::Script { fault: "bad line in script", line: 3 }, "bad line in script, line 3"),
        (Error::NoRoom, "there is no room for more in progress"),
        (Error::NoJournal, "the paths were opened without a journal"),
        (Error::OutOfMemory, "out of memory"),
        (Error::NotOffered, "the device doesn't offer this"),
        (Error::Empty, "the queue is empty"),
        (Error::Full, "the queue is full"),
        (Error::Overflow, "the total would be above 18446744073709551615"),
        (Error::Journal { fault: "bad line", line: 3 }, "journal: bad line in line 3"),
    ];
    for (error, text) in texts {
        let error: Box<dyn std::error::Error + Send + Sync> = Box::new(error);
        assert_eq!(error.to_string(), text);
    }
}

#[test]
fn debug_texts_are_short() {
    let paths = Paths::open(SLOT).unwrap();
    let guard = paths.enter(paths.op("deposit").unwrap()).unwrap();
    assert_eq!(format!("{paths:?}"), "Paths { .. }");
    assert_eq!(format!("{guard:?}"), format!("Guard {{ activation: 0, worker: {} }}", thread_number()));
    assert_eq!(format!("{:?}", Options::new()), "Options { room: 4096, yields: 30, patience: 5ms, has_log: false, journal: true }");
}

/// Runs the next test in a process that gets too little memory for the largest room.
#[test]
fn want_of_the_librarys_memory_is_an_error() {
    let limited = "ulimit -v 110000 && exec \"$0\" --exact --ignored opens_the_largest_room";
    let own = std::env::current_exe().unwrap();
    let said = std::process::Command::new("sh").args(["-c", limited]).arg(own).output().unwrap();
    assert!(String::from_utf8_lossy(&said.stdout).contains("1 passed"), "{said:?}");
}

#[test]
#[ignore = "is for a process with little memory"]
fn opens_the_largest_room() {
    assert_eq!(Options::new().room(MOST_LINES).open(SLOT).unwrap_err(), Error::OutOfMemory);
}
