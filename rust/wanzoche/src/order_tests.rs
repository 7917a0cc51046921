//! Who comes next, by a clock that stands still: nothing here depends on how long anything takes, and nobody wakes by itself.

use std::sync::mpsc::channel;
use std::sync::Arc;
use std::task::Waker;
use std::thread;
use std::time::{Duration, Instant};

use tasks::{poll_by, Counter, Polled};

use crate::holders::Who;
use crate::queue::{Asked, Caller, MOST};
use crate::state::Start;
use crate::{thread_number, Blocked, EnterOwned, Error, Op, Options, OwnedGuard, Paths};

#[allow(unreachable_pub)]
#[path = "../tests/common/tasks.rs"]
mod tasks;

const SHELF: &str = "resource shelf cell operation take path take end end";
const SLOT: &str = "resource slot cell operation deposit, remove path deposit ; remove end end";
const BOOK: &str = "resource book cell operation read, write path { read } , write end end
                    resource gate cell operation pass, crowd path pass end path crowd end end";

/// Paths whose clock stands still.
fn stilled(paths: Paths) -> Arc<Paths> {
    paths.monitor.lock().clock.stands_at = Some(1000);
    Arc::new(paths)
}

fn open(text: &str, patience: Duration) -> Arc<Paths> {
    stilled(Options::new().yields(0).patience(patience).open(text).unwrap())
}

/// Paths in strict order.
fn strict(text: &str) -> Arc<Paths> {
    open(text, Duration::ZERO)
}

fn at(paths: &Paths, now: u64) {
    paths.monitor.lock().clock.stands_at = Some(now);
}

fn ops<const N: usize>(paths: &Paths, names: [&str; N]) -> [Op; N] {
    names.map(|name| paths.op(name).unwrap())
}

/// What a thread has begun that does nothing else, and so runs.
fn held(paths: &Arc<Paths>, op: Op) -> OwnedGuard {
    let own = Arc::clone(paths);
    thread::spawn(move || own.enter_owned(op)).join().unwrap().unwrap()
}

/// Somebody waits for something else, so that it is noted who begins what from now on.
fn crowded(paths: &Arc<Paths>) -> (OwnedGuard, Polled<EnterOwned>) {
    let [crowd] = ops(paths, ["crowd"]);
    (held(paths, crowd), waits(paths, crowd))
}

/// A task that waits.
fn waits(paths: &Arc<Paths>, op: Op) -> Polled<EnterOwned> {
    let mut task = Polled::new(paths.enter_async_owned(op));
    assert!(task.is_pending() && task.counter.woken() == 0);
    task
}

fn may_start(paths: &Paths, op: Op) -> bool {
    paths.why(op).unwrap().is_none()
}

/// Whom a start is withheld for.
fn behind(why: Option<&Blocked>) -> Option<(String, u32)> {
    why.and_then(Blocked::behind).map(|waiter| (waiter.operation.to_string(), waiter.thread))
}

fn until(mut is_so: impl FnMut() -> bool) {
    let begun = Instant::now();
    while !is_so() {
        assert!(begun.elapsed() < Duration::from_secs(60), "a minute has passed");
        thread::sleep(Duration::from_micros(200));
    }
}

#[test]
fn a_reader_is_withheld_for_a_writer() {
    let paths = strict(BOOK);
    let _crowd = crowded(&paths);
    let [read, write] = ops(&paths, ["read", "write"]);
    let guard = held(&paths, read);
    let mut writer = waits(&paths, write);
    let me = thread_number();
    let refused = match paths.try_enter(read) {
        Err(Error::Blocked(why)) => why,
        other => panic!("{other:?}"),
    };
    assert_eq!(behind(Some(&refused)), Some(("write".to_string(), me)));
    assert_eq!((refused.path(), refused.operation(), paths.blocked_by(read)), (0, "read", Ok(None)));
    assert_eq!(paths.why(read).unwrap(), Some(refused));
    let late = paths.enter_timeout(read, Duration::from_millis(1)).map(drop);
    assert!(matches!(&late, Err(Error::Timeout(why)) if why.behind().is_some()), "{late:?}");
    drop(guard);
    assert_eq!(writer.counter.woken(), 1);
    // Also while the writer has been woken, and hasn't come.
    assert_eq!(behind(paths.why(read).unwrap().as_ref()), Some(("write".to_string(), me)));
    assert!(paths.try_enter(read).is_err());
    drop(writer.ready().unwrap());
    drop(paths.try_enter(read).unwrap());
    assert_eq!(paths.waiters().unwrap().len(), 1);
}

#[test]
fn without_an_order_readers_pass() {
    let paths = open(BOOK, Duration::MAX);
    let [read, write] = ops(&paths, ["read", "write"]);
    let guard = held(&paths, read);
    let writer = waits(&paths, write);
    at(&paths, u64::MAX - 1);
    drop(paths.try_enter(read).unwrap());
    drop(guard);
    assert_eq!(writer.counter.woken(), 1);
    drop(paths.try_enter(read).unwrap());
}

#[test]
fn a_writer_is_patient_and_its_door_opens_for_those_that_came_meanwhile() {
    let paths = open(BOOK, Duration::from_nanos(10));
    let _crowd = crowded(&paths);
    let [read, write] = ops(&paths, ["read", "write"]);
    let _guard = held(&paths, read);
    at(&paths, 2000);
    let _writer = waits(&paths, write);
    at(&paths, 2009);
    assert!(may_start(&paths, read));
    at(&paths, 2010);
    assert!(!may_start(&paths, read));
    let mut early = waits(&paths, read);
    at(&paths, 2010 + MOST - 1);
    let mut late = waits(&paths, read);
    assert!(early.is_pending() && !may_start(&paths, read));
    at(&paths, 2010 + MOST);
    drop(early.ready().unwrap());
    at(&paths, 2011 + MOST);
    assert!(!may_start(&paths, read));
    drop(late.ready().unwrap());
}

/// The text has whom it waits for, for how long that has waited, and who is in its way.
#[test]
fn what_is_withheld_says_for_whom() {
    let paths = strict(BOOK);
    let _crowd = crowded(&paths);
    let [read, write] = ops(&paths, ["read", "write"]);
    let guard = held(&paths, read);
    let _writer = waits(&paths, write);
    at(&paths, 2_100_001_000);
    let text = paths.why(read).unwrap().unwrap().to_string();
    let (me, holder) = (thread_number(), guard.worker());
    let words = format!("read is behind write by a task of thread {me}, which has waited 2.1 s: path 0 of book: {{ read }}, write;");
    let words = format!("{words} in progress: read by thread {holder}");
    assert_eq!(text, words);
}

#[test]
fn those_that_wait_are_listed_in_their_order() {
    let paths = open(BOOK, Duration::MAX);
    let [read, write, pass] = ops(&paths, ["read", "write", "pass"]);
    let _guards = [held(&paths, write), held(&paths, pass)];
    let _first = waits(&paths, read);
    at(&paths, 3000);
    let _rest = [waits(&paths, pass.with_priority(2)), waits(&paths, write)];
    at(&paths, 5000);
    let waiters = paths.waiters().unwrap();
    let told: Vec<_> = waiters.iter().map(|each| (each.operation, each.priority, each.thread, each.waited.as_nanos())).collect();
    let me = thread_number();
    assert_eq!(told, [("pass", 2, me, 2000), ("read", 0, me, 4000), ("write", 0, me, 1999)]);
}

/// One that reads, and reads again while a writer waits for it, doesn't wait for that writer: here all are threads.
#[test]
fn a_thread_that_reads_may_read_again() {
    let paths = strict(BOOK);
    let [read, write] = ops(&paths, ["read", "write"]);
    let outer = paths.enter(read).unwrap();
    let own = Arc::clone(&paths);
    let writer = thread::spawn(move || own.enter_owned(write).map(drop));
    until(|| paths.waiting(write) == Ok(1));
    assert!(may_start(&paths, read));
    let inner = paths.enter(read).unwrap();
    // For all others it runs.
    let own = Arc::clone(&paths);
    assert!(!thread::spawn(move || may_start(&own, read)).join().unwrap());
    drop((outer, inner));
    writer.join().unwrap().unwrap();
}

/// What began while nobody waited may be the task's own that asks, where tasks enter: so it doesn't run.
#[test]
fn what_isnt_known_withholds_nothing() {
    let paths = strict(BOOK);
    let [read, write] = ops(&paths, ["read", "write"]);
    let early = held(&paths, read);
    let mut writer = waits(&paths, write);
    assert!(may_start(&paths, read));
    let late = Polled::new(paths.enter_async_owned(read)).ready().unwrap();
    drop(early);
    assert!(!may_start(&paths, read));
    drop(late);
    drop(writer.ready().unwrap());
}

/// The same of a task, which is known by its waker, and isn't taken for the thread that polls it.
#[test]
fn a_task_that_reads_may_read_again() {
    let paths = strict(BOOK);
    let _crowd = crowded(&paths);
    let [read, write] = ops(&paths, ["read", "write"]);
    let own: Waker = Counter::new().into();
    let polled = |op| {
        let mut enters = paths.enter_async_owned(op);
        (poll_by(&mut enters, &own), enters).0
    };
    let outer = polled(read);
    let mut writer = waits(&paths, write);
    assert!(outer.is_ready());
    assert!(!may_start(&paths, read));
    assert!(Polled::new(paths.enter_async(read)).is_pending());
    let inner = polled(read);
    assert!(inner.is_ready());
    drop((outer, inner));
    drop(writer.ready().unwrap());
}

/// One that reads begins to wait for something else: the writer's way isn't clear then, and another reader is woken, that may be what it
/// waits for. Here the guard of the thread that waits is elsewhere.
#[test]
fn a_reader_goes_on_when_another_begins_to_wait() {
    let paths = strict(BOOK);
    let _crowd = crowded(&paths);
    let [read, write, pass] = ops(&paths, ["read", "write", "pass"]);
    let passes = held(&paths, pass);
    let ((gives, given), (tells, told)) = (channel(), channel());
    let own = Arc::clone(&paths);
    let other = thread::spawn(move || {
        gives.send(own.enter_owned(read)).unwrap();
        told.recv().unwrap();
        own.enter_owned(pass)
    });
    let first = given.recv().unwrap().unwrap();
    let mut writer = waits(&paths, write);
    let mut reader = waits(&paths, read);
    tells.send(()).unwrap();
    until(|| reader.counter.woken() == 1);
    drop((reader.ready().unwrap(), passes, first));
    drop(other.join().unwrap().unwrap());
    drop(writer.ready().unwrap());
}

/// The same of a task.
#[test]
fn a_reader_goes_on_when_a_task_that_reads_begins_to_wait() {
    let paths = strict(BOOK);
    let _crowd = crowded(&paths);
    let [read, write, pass] = ops(&paths, ["read", "write", "pass"]);
    let passes = held(&paths, pass);
    let own: Waker = Counter::new().into();
    let (mut reads, mut wants) = (paths.enter_async(read), paths.enter_async(pass));
    let first = poll_by(&mut reads, &own);
    assert!(first.is_ready());
    let mut writer = waits(&paths, write);
    let mut reader = waits(&paths, read);
    assert!(poll_by(&mut wants, &own).is_pending());
    assert_eq!(reader.counter.woken(), 1);
    drop((reader.ready().unwrap(), passes, first));
    drop(writer.ready().unwrap());
}

/// Whoever is withheld for one that gives up goes on.
#[test]
fn a_reader_goes_on_when_the_writer_gives_up() {
    let paths = strict(BOOK);
    let _crowd = crowded(&paths);
    let [read, write] = ops(&paths, ["read", "write"]);
    let _guard = held(&paths, read);
    let writer = waits(&paths, write);
    let mut reader = waits(&paths, read);
    drop(writer);
    assert_eq!(reader.counter.woken(), 1);
    drop(reader.ready().unwrap());
}

/// The same where a thread gives up, whose time is over. A test that is too slow for it tries again.
#[test]
fn a_reader_goes_on_when_the_writers_time_is_over() {
    let paths = strict(BOOK);
    let _crowd = crowded(&paths);
    let [read, write] = ops(&paths, ["read", "write"]);
    let _guard = held(&paths, read);
    let mut is_behind = false;
    while !is_behind {
        let own = Arc::clone(&paths);
        let writer = thread::spawn(move || own.enter_timeout_owned(write, Duration::from_millis(100)).map(drop));
        until(|| paths.waiting(write) == Ok(1) || writer.is_finished());
        let mut reader = Polled::new(paths.enter_async(read));
        is_behind = reader.is_pending();
        assert!(matches!(writer.join().unwrap(), Err(Error::Timeout(_))));
        assert_eq!(reader.counter.woken(), u32::from(is_behind));
    }
}

/// The same where one comes that stands before the writer, and begins what closes its way.
#[test]
fn a_reader_goes_on_when_a_newcomer_closes_the_writers_way() {
    let text = "resource book cell operation read, write, sort, shelve, crowd
                path { read } , write end path (sort ; shelve) , write end path crowd end end";
    let paths = strict(text);
    let _crowd = crowded(&paths);
    let [read, write, sort] = ops(&paths, ["read", "write", "sort"]);
    let _guard = held(&paths, read);
    let _writer = waits(&paths, write);
    let mut reader = waits(&paths, read);
    assert!(!may_start(&paths, sort));
    let _sorts = paths.try_enter(sort.with_priority(1)).unwrap();
    assert_eq!(reader.counter.woken(), 1);
    drop(reader.ready().unwrap());
}

/// An x that may go when the open is over, behind an h that waits for an r; and a b that waits for the open alone.
const TURNS: &str = "resource r cell operation open, x, h, r, b, crowd
                     path { x } , h , open end path r , h end path open , b end path crowd end end";

/// One that was woken, and then found itself behind another, leaves its turn to the next.
#[test]
fn who_still_may_not_start_passes_the_turn_on() {
    let paths = strict(TURNS);
    let _crowd = crowded(&paths);
    let [open, x, h, r, b] = ops(&paths, ["open", "x", "h", "r", "b"]);
    let (opens, _runs) = (held(&paths, open), held(&paths, r));
    let (mut first, mut second) = (waits(&paths, x), waits(&paths, b));
    drop(opens);
    assert_eq!((first.counter.woken(), second.counter.woken()), (1, 0));
    let own: Waker = Counter::new().into();
    let mut urgent = paths.enter_async(h.with_priority(1));
    // It gives way once to who was woken.
    assert!((0..2).all(|_| poll_by(&mut urgent, &own).is_pending()));
    assert_eq!(behind(paths.why(x).unwrap().as_ref()).unwrap().0, "h");
    assert!(first.is_pending());
    assert_eq!((first.counter.woken(), second.counter.woken()), (1, 1));
    drop(second.ready().unwrap());
}

/// The same of a thread. Before it comes, the other begins to wait: here by hand, while the thread can't have the lock.
#[test]
fn a_thread_that_still_may_not_start_passes_the_turn_on() {
    let paths = strict(TURNS);
    let _crowd = crowded(&paths);
    let [open, x, h, r, b] = ops(&paths, ["open", "x", "h", "r", "b"]);
    let (opens, _runs) = (held(&paths, open), held(&paths, r));
    let own = Arc::clone(&paths);
    let first = thread::spawn(move || own.enter_owned(x).map(drop));
    until(|| paths.waiting(x) == Ok(1));
    let mut second = waits(&paths, b);
    let mut state = paths.monitor.lock();
    let _ = state.system.finish(opens.worker(), opens.activation());
    let asked = state.ask_next().unwrap();
    let place = match &asked {
        Asked::Thread(place) => *place,
        Asked::Task(_) => panic!("a thread waits before the task"),
    };
    let start = Start { who: Who::UNKNOWN, ..paths.start_of(h.with_priority(1)).unwrap() };
    let urgent = state.join(start, &mut Some(Caller::Thread)).unwrap();
    drop(state);
    paths.monitor.wake(asked);
    until(|| !paths.monitor.lock().queue.is_asked(place));
    // Since then the next one is asked, in one step.
    assert_eq!(paths.monitor.lock().queue.asked(), 1);
    until(|| second.counter.woken() == 1);
    drop(second.ready().unwrap());
    paths.monitor.give_up(urgent);
    first.join().unwrap().unwrap();
}

/// A start that a path forbade, and that is withheld when this path no longer does: nobody told it to ask again when the door opens.
#[test]
fn who_is_withheld_without_knowing_is_told() {
    let text = "resource r cell operation h, x, w, r, other, crowd
                path { x } , w , h end path r , w end path other end path crowd end end";
    let paths = strict(text);
    let _crowd = crowded(&paths);
    let [h, x, w, r, other] = ops(&paths, ["h", "x", "w", "r", "other"]);
    let (first, _runs) = (held(&paths, h), held(&paths, r));
    let _writer = waits(&paths, w);
    let mut reader = waits(&paths, x);
    drop(first);
    assert_eq!((reader.counter.woken(), behind(paths.why(x).unwrap().as_ref()).unwrap().0.as_str()), (1, "w"));
    assert!(reader.is_pending());
    // It knows now.
    drop(paths.enter(other).unwrap());
    assert_eq!(reader.counter.woken(), 1);
    at(&paths, 2000 + MOST);
    drop(reader.ready().unwrap());
}

/// A remover that waits first doesn't keep the deposit out that it waits for.
#[test]
fn a_deposit_comes_before_the_removal_that_waits() {
    let paths = strict(SLOT);
    let [deposit, remove] = ops(&paths, ["deposit", "remove"]);
    let mut first = waits(&paths, remove);
    let mut second = waits(&paths, remove);
    for remover in [&mut first, &mut second] {
        drop(paths.try_enter(deposit).unwrap());
        assert_eq!(remover.counter.woken(), 1);
        assert_eq!(behind(paths.why(remove).unwrap().as_ref()).unwrap().0, "remove");
        drop(remover.ready().unwrap());
    }
}

/// Neither side of a buffer keeps the other one out.
#[test]
fn a_buffer_goes_on_at_both_ends() {
    let text = "resource buffer queue 2 operation put, get path { put ; get : 2 } end path put end path get end end";
    let paths = strict(text);
    let [put, get] = ops(&paths, ["put", "get"]);
    let mut getter = waits(&paths, get);
    drop(paths.try_enter(put).unwrap());
    assert_eq!(getter.counter.woken(), 1);
    drop(getter.ready().unwrap());
    (0..2).for_each(|_| drop(paths.try_enter(put).unwrap()));
    let mut putter = waits(&paths, put);
    drop(paths.try_enter(get).unwrap());
    assert_eq!(putter.counter.woken(), 1);
    assert!(paths.try_enter(put).is_err());
    drop(putter.ready().unwrap());
}

#[test]
fn higher_priorities_come_first() {
    let paths = strict(SHELF);
    let [take] = ops(&paths, ["take"]);
    let mut guard = held(&paths, take);
    let mut tasks = [0, 7, 0, 7, 9].map(|priority| waits(&paths, take.with_priority(priority)));
    for next in [4, 1, 3, 0, 2] {
        drop(guard);
        assert_eq!(tasks.iter().map(|task| task.counter.woken()).collect::<Vec<_>>()[next], 1);
        let urgent = take.with_priority(10);
        assert!(may_start(&paths, urgent) && !may_start(&paths, take));
        guard = tasks[next].ready().unwrap();
    }
    assert!(tasks.iter().all(|task| task.counter.woken() == 1));
}

/// What was in progress at the end of a journal is nobody's: it doesn't run until it is over.
#[test]
fn what_was_left_in_progress_withholds_nothing() {
    let resumed = Options::new().yields(0).patience(Duration::ZERO).resume(BOOK, "7 start read: started 0\n");
    let paths = stilled(resumed.unwrap());
    let [read, write] = ops(&paths, ["read", "write"]);
    let own = Arc::clone(&paths);
    let writer = thread::spawn(move || own.enter_owned(write).map(drop));
    until(|| paths.waiting(write) == Ok(1));
    assert!(may_start(&paths, read));
    drop(paths.recover().unwrap());
    writer.join().unwrap().unwrap();
}

/// Who waits in strict order doesn't give way before.
#[test]
fn in_strict_order_nobody_gives_way() {
    let paths = stilled(Options::new().yields(u32::MAX).patience(Duration::ZERO).open(SLOT).unwrap());
    let [deposit, remove] = ops(&paths, ["deposit", "remove"]);
    let own = Arc::clone(&paths);
    let remover = thread::spawn(move || own.enter_owned(remove).map(drop));
    until(|| paths.waiting(remove) == Ok(1));
    drop(paths.enter(deposit).unwrap());
    remover.join().unwrap().unwrap();
}
