//! Paths that go on behind a journal, words for what is blocked, and every schedule of a script.

use std::thread;
use std::time::Duration;

use common::{forbids, is_idle, kept, open, until_waiting, BOOK, SLOT};
use wanzoche::{explore, thread_number, Blocked, Error, Explored, Options, Paths, Verdict};

mod common;

fn resume(text: &str, journal: &str) -> Result<Paths, Error> {
    Options::new().resume(text, journal)
}

/// A deposit of 7 that is over, and a removal that isn't, by threads that aren't of this program.
const LEFT: &str = "71 start deposit: started 0\n71 use 0 put 7: used 0\n71 finish 0: finished\n72 start remove: started 1\n";

#[test]
fn paths_go_on_behind_a_journal() {
    let paths = resume(SLOT, LEFT).unwrap();
    let (deposit, remove) = (paths.op("deposit").unwrap(), paths.op("remove").unwrap());
    assert_eq!((paths.resumed(), paths.journal().as_deref()), (LEFT.len() as u64, Ok("")));
    assert_eq!(forbids(paths.try_enter(deposit)), 0);
    let lost = paths.recover().unwrap();
    let told: Vec<_> = lost.iter().map(|guard| (guard.activation(), guard.worker(), guard.op())).collect();
    assert_eq!(told, [(1, 72, remove)]);
    assert_eq!((lost[0].look(), paths.recover().unwrap().len()), (Ok(7), 0));
    drop(lost);
    assert_eq!(paths.enter(deposit).unwrap().activation(), 2);
    let whole = LEFT.to_string() + &paths.journal().unwrap();
    assert_eq!(paths.audit(&whole), Ok(Verdict::Sound));
}

/// Whoever waits for what was left in progress is woken when its guard is dropped.
#[test]
fn what_was_left_is_finished_by_its_guard() {
    let paths = Options::new().yields(0).resume(SLOT, LEFT).unwrap();
    let deposit = paths.op("deposit").unwrap();
    thread::scope(|scope| {
        let waits = scope.spawn(|| drop(paths.enter(deposit).unwrap()));
        until_waiting(&paths, deposit, 1);
        drop(paths.recover().unwrap());
        waits.join().unwrap();
    });
    assert!(is_idle(&paths));
}

#[test]
fn new_threads_get_no_name_of_what_was_left() {
    let journal = "900 start read: started 0\n7 start read: started 1\n";
    let paths = resume(BOOK, journal).unwrap();
    assert!(thread::spawn(thread_number).join().unwrap() > 900);
    assert_eq!(paths.recover().unwrap().len(), 2);
    // A number at the end of all numbers is passed over, since none would be left.
    drop(resume(BOOK, "4294967295 start read: started 0\n").unwrap());
    assert!((900..100_000).contains(&thread::spawn(thread_number).join().unwrap()));
}

#[test]
fn a_journal_may_be_cut_anywhere() {
    for end in 0..=LEFT.len() {
        let paths = resume(SLOT, &LEFT[..end]).unwrap();
        let whole = LEFT[..end].rfind('\n').map_or(0, |at| at + 1);
        assert_eq!(paths.resumed(), whole as u64);
        drop(paths.recover().unwrap());
        let joined = LEFT[..whole].to_string() + &paths.journal().unwrap();
        assert_eq!(paths.audit(&joined), Ok(Verdict::Sound));
    }
    assert_eq!(Paths::open(SLOT).unwrap().resumed(), 0);
}

#[test]
fn no_line_is_believed() {
    let wrong = LEFT.replace("started 1", "started 2");
    assert_eq!(resume(SLOT, &wrong).unwrap_err(), Error::WrongLine { index: 3 });
    assert_eq!(resume(SLOT, &("nonsense\n".to_string() + LEFT)).unwrap_err(), Error::Journal { fault: "bad line", line: 1 });
    let undeclared = LEFT.replace("remove", "b") + "72 finish 1: finished\n";
    assert_eq!(resume(SLOT, &undeclared).unwrap_err(), Error::Journal { fault: "undeclared in line", line: 4 });
    assert_eq!(resume("resource", LEFT).unwrap_err(), Error::Declaration { fault: "unexpected", line: 1, column: 9 });
    assert_eq!(Options::new().room(0).resume(SLOT, LEFT).unwrap_err(), Error::BadRoom);
    let (log, _) = kept();
    assert_eq!(Options::new().log(log).without_journal().resume(SLOT, LEFT).unwrap_err(), Error::NoJournal);
}

/// The log gets only new lines, and without a journal what was left is there, too.
#[test]
fn logs_get_new_lines() {
    let (log, lines) = kept();
    let paths = Options::new().room(8).log(log).resume(SLOT, LEFT).unwrap();
    drop(paths.recover().unwrap());
    let ops = [paths.op("deposit").unwrap(), paths.op("remove").unwrap()];
    (0..20).for_each(|n| drop(paths.enter(ops[n % 2]).unwrap()));
    let whole = LEFT.to_string() + &lines.lock().unwrap() + &paths.journal().unwrap();
    assert_eq!(paths.audit(&whole), Ok(Verdict::Sound));
    assert_eq!(whole.lines().count(), 4 + 1 + 40);
    let paths = Options::new().without_journal().resume(SLOT, LEFT).unwrap();
    assert_eq!((paths.journal(), paths.recover().unwrap().len()), (Err(Error::NoJournal), 1));
}

fn why(paths: &Paths, name: &str) -> Option<Blocked> {
    paths.why(paths.op(name).unwrap()).unwrap()
}

#[test]
fn a_refusal_names_the_path_who_holds_it_and_what_may_begin() {
    let (paths, read, write) = open(BOOK, 30, ["read", "write"]);
    assert_eq!(why(&paths, "write"), None);
    let mut guards: Vec<_> = (0..3).map(|_| paths.enter(read).unwrap()).collect();
    let me = thread_number();
    let three = ["read"; 3].map(|name| format!("{name} by thread {me}")).join(", ");
    let refused = paths.try_enter(write).unwrap_err();
    assert_eq!(refused.to_string(), format!("write is blocked: path 0 of book: {{ read }}, write; in progress: {three}"));
    assert_eq!(refused, Error::Blocked(why(&paths, "write").unwrap()));
    guards.extend((0..4).map(|_| paths.enter(read).unwrap()));
    let held = why(&paths, "write").unwrap();
    assert_eq!((held.in_progress().count(), held.others()), (4, 3));
    assert!(held.to_string().ends_with(&format!("read by thread {me} and 3 others")), "{held}");
    assert!(held.may_begin().eq(["read"]));
    assert_ne!(refused, Error::Blocked(held));
    assert_eq!(format!("{refused:?}"), format!("Blocked(Blocked({:?}))", refused.to_string()));
}

/// Only what stands in the path is named, and a path of which nothing is in progress says what may begin.
#[test]
fn a_refusal_names_nothing_of_other_paths() {
    let text = "resource one cell operation a, b path a ; b end path b ; a end end
                resource two cell operation c, d, e path c , d ; e end end";
    let paths = Paths::open(text).unwrap();
    let _c = paths.enter(paths.op("c").unwrap()).unwrap();
    let nothing = "b is blocked: path 0 of one: a; b; in progress: nothing of it; may begin next: nothing";
    assert_eq!(why(&paths, "b").unwrap().to_string(), nothing);
    assert_eq!(why(&paths, "a").unwrap().path(), 1);
    let me = thread_number();
    assert_eq!(why(&paths, "d").unwrap().to_string(), format!("d is blocked: path 2 of two: c, d; e; in progress: c by thread {me}"));
    let paths = Paths::open(text).unwrap();
    let next = why(&paths, "e").unwrap();
    assert!(next.to_string().ends_with("in progress: nothing of it; may begin next: c, d"), "{next}");
    assert_eq!((next.operation(), next.path(), next.resource(), next.text()), ("e", 2, "two", "c, d; e"));
}

/// Of more than is looked at, it says so.
#[test]
fn a_refusal_looks_at_the_first_that_are_in_progress() {
    let text = "resource r cell operation a, b path { a } end path b end end";
    let paths = Options::new().room(1000).open(text).unwrap();
    let (a, b) = (paths.op("a").unwrap(), paths.op("b").unwrap());
    let _many: Vec<_> = (0..64).map(|_| paths.enter(a).unwrap()).collect();
    let _last = paths.enter(b).unwrap();
    let text = paths.try_enter(b).unwrap_err().to_string();
    assert!(text.ends_with("in progress: more than is looked at"), "{text}");
    let book = Options::new().room(1000).open(BOOK).unwrap();
    let read = book.op("read").unwrap();
    let _readers: Vec<_> = (0..65).map(|_| book.enter(read).unwrap()).collect();
    let text = why(&book, "write").unwrap().to_string();
    assert!(text.ends_with(" and at least 60 others"), "{text}");
}

#[test]
fn a_time_that_is_over_says_what_was_in_the_way() {
    let (paths, _, remove) = open(SLOT, 0, ["deposit", "remove"]);
    for time in [Duration::ZERO, Duration::from_millis(1)] {
        let refused = paths.enter_timeout(remove, time).unwrap_err();
        let words =
            "the time is over: remove is blocked: path 0 of slot: deposit; remove; in progress: nothing of it; may begin next: deposit";
        assert_eq!(refused.to_string(), words);
        assert!(matches!(refused, Error::Timeout(_)));
    }
}

const FORKS: &str = "resource a cell operation left path left end end resource b cell operation right path right end end";
const CROSSWISE: &str =
    "process kant\nenter left\nenter right\nleave\nleave\nend\nprocess hume\nenter right\nenter left\nleave\nleave\nend\n";

#[test]
fn schedules_of_a_script() {
    let paths = Paths::open(FORKS).unwrap();
    let found = paths.explore(CROSSWISE, 1000).unwrap();
    assert_eq!(found, explore(FORKS, CROSSWISE, 1000).unwrap());
    let text = "journal 2 room 1048576\n0 start left: started 0\n1 start right: started 1\n0 start right: blocked 1\n\
                1 start left: blocked 0\nkant: stalled right\nhume: stalled left\n";
    assert_eq!((found.to_string().as_str(), found.is_done()), (text, false));
    assert!(matches!(found, Explored::Stalls(_)));
    let one = "process kant\nenter left\nleave\nend\n";
    let done = paths.explore(one, 1000).unwrap();
    assert!(done.is_done() && matches!(done, Explored::AllDone { states } if states > 1), "{done}");
    assert_eq!(paths.explore(CROSSWISE, 2).unwrap(), Explored::Undecided { states: 2 });
    let line = Paths::open("resource line queue 2 operation step path step end end").unwrap();
    let refused = line.explore("process p\nenter step\nuse take\nleave\nend\n", 1000).unwrap();
    let schedule = match &refused {
        Explored::Refused(schedule) => schedule,
        other => panic!("{other}"),
    };
    assert!(schedule.journal().ends_with("take: empty\n") && schedule.processes().eq(["p: faulted empty"]), "{refused}");
}

#[test]
fn texts_that_are_no_scripts() {
    let fault = |script: &str| explore(FORKS, script, 10).unwrap_err();
    assert_eq!(fault("process p\nenter up\nleave\nend\n"), Error::Script { fault: "undeclared in script", line: 2 });
    assert_eq!(fault("nonsense\n"), Error::Script { fault: "bad line in script", line: 1 });
    assert_eq!(fault(&"#".repeat(300_000)), Error::Script { fault: "script too long", line: 1 });
    assert_eq!(explore("resource", "", 10).unwrap_err(), Error::Declaration { fault: "unexpected", line: 1, column: 9 });
}
