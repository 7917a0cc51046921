//! Tasks that wait, polled by hand and by an executor of this test: who is woken when, and who is let in.

use std::cell::RefCell;
use std::sync::{mpsc, Arc};
use std::thread;
use std::time::Duration;

use common::tasks::{poll_by, Counter, Executor, GivesWay, Polled};
use common::{is_idle, open, open_patient, until_waiting, BOOK, SHELF, SLOT};
use wanzoche::{Enter, Error, Paths, Verdict};

mod common;

#[test]
fn a_task_that_may_start_waits_for_nothing() {
    let (paths, deposit, remove) = open(SLOT, 30, ["deposit", "remove"]);
    let mut enters = Polled::new(paths.enter_async(deposit));
    let guard = enters.ready().unwrap();
    assert_eq!((guard.activation(), guard.op(), guard.put(7)), (0, deposit, Ok(0)));
    drop(guard);
    assert_eq!(Polled::new(paths.enter_async(remove)).ready().unwrap().look(), Ok(7));
    assert_eq!(enters.counter.woken(), 0);
    assert!(is_idle(&paths));
    assert_eq!(paths.audit(&paths.journal().unwrap()), Ok(Verdict::Sound));
}

#[test]
fn nothing_happens_before_a_poll() {
    let (paths, take, _) = open(SHELF, 30, ["take", "take"]);
    let enters = paths.enter_async(take);
    assert_eq!((paths.waiting(take), paths.journal().as_deref()), (Ok(0), Ok("")));
    drop(enters);
    assert_eq!(paths.journal().as_deref(), Ok(""));
}

#[test]
fn a_task_is_woken_once_when_it_may_start() {
    let (paths, deposit, remove) = open(SLOT, 30, ["deposit", "remove"]);
    let mut waits = Polled::new(paths.enter_async(remove));
    assert!(waits.is_pending() && waits.is_pending());
    assert_eq!((paths.waiting(remove), waits.counter.woken()), (Ok(1), 0));
    let guard = paths.enter(deposit).unwrap();
    assert_eq!(waits.counter.woken(), 0);
    drop(guard);
    assert_eq!((paths.waiting(remove), waits.counter.woken()), (Ok(1), 1));
    drop(waits.ready().unwrap());
    assert_eq!((paths.waiting(remove), waits.counter.woken()), (Ok(0), 1));
    assert!(is_idle(&paths));
}

/// A poll that nobody asked for takes no line of the journal while a path forbids the operation.
#[test]
fn idle_polls_write_nothing() {
    let (paths, _, remove) = open(SLOT, 30, ["deposit", "remove"]);
    let mut waits = Polled::new(paths.enter_async(remove));
    assert!((0..10).all(|_| waits.is_pending()));
    assert_eq!(paths.journal().unwrap().lines().count(), 1);
}

#[test]
fn those_of_one_operation_are_woken_in_order_of_arrival() {
    let (paths, take, _) = open(SHELF, 30, ["take", "take"]);
    let mut guard = paths.enter(take).unwrap();
    let mut tasks: Vec<Polled<Enter<'_>>> = (0..5).map(|_| Polled::new(paths.enter_async(take))).collect();
    assert!(tasks.iter_mut().all(Polled::is_pending));
    for next in 0..5 {
        drop(guard);
        let woken: Vec<u32> = tasks.iter().map(|task| task.counter.woken()).collect();
        assert!((0..5).all(|task| woken[task] == u32::from(task <= next)), "{woken:?}");
        guard = tasks[next].ready().unwrap();
    }
    drop(guard);
    assert!(is_idle(&paths) && paths.waiting(take) == Ok(0));
}

/// One that was woken and finds another quicker waits on before those that came later.
#[test]
fn who_comes_too_late_keeps_its_rank() {
    let (paths, take, _) = open_patient(SHELF, Duration::MAX, ["take", "take"]);
    let guard = paths.enter(take).unwrap();
    let (mut first, mut second) = (Polled::new(paths.enter_async(take)), Polled::new(paths.enter_async(take)));
    assert!(first.is_pending() && second.is_pending());
    drop(guard);
    let quicker = paths.try_enter(take).unwrap();
    assert!(first.is_pending());
    drop(quicker);
    assert_eq!((first.counter.woken(), second.counter.woken()), (2, 0));
    drop(first.ready().unwrap());
    drop(second.ready().unwrap());
}

/// A leave after which several may start wakes one, and each that is let in wakes the next.
#[test]
fn readers_are_let_in_together() {
    let (paths, read, write) = open(BOOK, 30, ["read", "write"]);
    let guard = paths.enter(write).unwrap();
    let mut readers: Vec<Polled<Enter<'_>>> = (0..4).map(|_| Polled::new(paths.enter_async(read))).collect();
    assert!(readers.iter_mut().all(Polled::is_pending));
    drop(guard);
    let mut inside = Vec::new();
    for at in 0..4 {
        assert_eq!(readers.iter().map(|task| task.counter.woken()).sum::<u32>(), at as u32 + 1);
        inside.push(readers[at].ready().unwrap());
    }
    assert_eq!(paths.report().unwrap().matches("live").count(), 4);
}

/// A leave after which twenty operations may start wakes the first task, and each that is let in wakes the next.
#[test]
fn one_leave_lets_tasks_of_twenty_operations_in() {
    let names: Vec<String> = (0..20).map(|number| format!("a{number}")).collect();
    let each: Vec<String> = names.iter().map(|name| format!("path open ; {name} end")).collect();
    let text = format!("resource r cell operation open, {} {} end", names.join(", "), each.join(" "));
    let paths = Paths::open(&text).unwrap();
    let enters = |name: &String| Polled::new(paths.enter_async(paths.op(name).unwrap()));
    let mut tasks: Vec<Polled<Enter<'_>>> = names.iter().map(enters).collect();
    assert!(tasks.iter_mut().all(Polled::is_pending));
    drop(paths.enter(paths.op("open").unwrap()).unwrap());
    let mut inside = Vec::new();
    for at in 0..20 {
        assert_eq!(tasks.iter().map(|task| task.counter.woken()).sum::<u32>(), at as u32 + 1);
        inside.push(tasks[at].ready().unwrap());
    }
}

#[test]
fn the_last_waker_counts() {
    let (paths, take, _) = open(SHELF, 30, ["take", "take"]);
    let guard = paths.enter(take).unwrap();
    let mut enters = paths.enter_async(take);
    let (early, late) = (Counter::new(), Counter::new());
    assert!(poll_by(&mut enters, &Arc::clone(&early).into()).is_pending());
    assert!(poll_by(&mut enters, &Arc::clone(&late).into()).is_pending());
    assert_eq!((Arc::strong_count(&early), Arc::strong_count(&late)), (1, 2));
    drop(guard);
    assert_eq!((early.woken(), late.woken()), (0, 1));
    drop(poll_by(&mut enters, &late.into()));
}

/// Threads and tasks stand in one line.
#[test]
fn threads_and_tasks_wait_in_one_line() {
    let (paths, take, _) = open(SHELF, 0, ["take", "take"]);
    let order = RefCell::new(Vec::new());
    let (says, said) = mpsc::channel();
    thread::scope(|scope| {
        let guard = paths.enter(take).unwrap();
        let mut tasks = [Polled::new(paths.enter_async(take)), Polled::new(paths.enter_async(take))];
        for (number, task) in tasks.iter_mut().enumerate() {
            assert!(task.is_pending());
            until_waiting(&paths, take, 2 * number as u32 + 1);
            let (paths, says) = (&paths, says.clone());
            scope.spawn(move || {
                let _guard = paths.enter(take).unwrap();
                says.send(number).unwrap();
            });
            until_waiting(paths, take, 2 * number as u32 + 2);
        }
        drop(guard);
        for number in 0..2 {
            assert_eq!(tasks[number].counter.woken(), 1);
            drop(tasks[number].ready().unwrap());
            order.borrow_mut().push(said.recv().unwrap());
            common::until(|| tasks.iter().skip(number + 1).take(1).all(|task| task.counter.woken() == 1));
        }
    });
    assert_eq!(order.into_inner(), [0, 1]);
    assert!(is_idle(&paths));
}

/// Tasks that never rest: each that comes along lets those go first that were woken, so all get the same.
#[test]
fn tasks_in_a_loop_take_turns() {
    let (paths, take, _) = open(SHELF, 30, ["take", "take"]);
    let entries = RefCell::new([0; 8]);
    let mut executor = Executor::default();
    for number in 0..8 {
        let (paths, entries) = (&paths, &entries);
        executor.spawn(async move {
            while entries.borrow().iter().sum::<u32>() < 800 {
                let _guard = paths.enter_async(take).await.unwrap();
                entries.borrow_mut()[number] += 1;
                GivesWay::default().await;
            }
        });
    }
    assert_eq!(executor.run(), 0);
    let entries = entries.into_inner();
    assert!(entries.iter().all(|each| (98..=102).contains(each)), "{entries:?}");
    assert!(is_idle(&paths) && paths.waiting(take) == Ok(0));
}

/// A producer and a consumer in one thread, neither of which could go on if the other's wait held the thread up.
#[test]
fn an_executor_by_hand_runs_a_buffer() {
    let text = "resource buffer queue 4 operation put, get path { put ; get : 4 } end path put end path get end end";
    let (paths, put, get) = open(text, 30, ["put", "get"]);
    let got = RefCell::new(Vec::new());
    let mut executor = Executor::default();
    executor.spawn(async {
        for number in 0..100 {
            paths.enter_async(put).await.unwrap().put(number).unwrap();
        }
    });
    executor.spawn(async {
        for _ in 0..100 {
            let number = paths.enter_async(get).await.unwrap().take().unwrap();
            got.borrow_mut().push(number);
        }
    });
    assert_eq!(executor.run(), 0);
    assert_eq!(got.into_inner(), (0..100).collect::<Vec<_>>());
}

#[test]
fn an_entry_moves_from_thread_to_thread() {
    let (paths, deposit, remove) = open(SLOT, 0, ["deposit", "remove"]);
    let paths = Arc::new(paths);
    let mut waits = Polled::new(paths.enter_async_owned(remove));
    let moved = thread::spawn(move || (waits.is_pending(), waits).1).join().unwrap();
    assert_eq!(paths.waiting(remove), Ok(1));
    let guard = paths.enter_owned(deposit).unwrap();
    thread::spawn(move || drop(guard)).join().unwrap();
    assert_eq!(moved.counter.woken(), 1);
    let guard = thread::spawn(move || (moved, ()).0.ready().unwrap()).join().unwrap();
    assert_eq!(paths.report().unwrap().matches("live").count(), 1);
    assert_eq!(guard.activation(), 1);
    drop(paths);
    thread::spawn(move || drop(guard)).join().unwrap();
}

#[test]
fn operations_of_other_paths_are_refused() {
    let (paths, _, _) = open(SLOT, 30, ["deposit", "remove"]);
    let foreign = Paths::open(SLOT).unwrap().op("deposit").unwrap();
    assert_eq!(Polled::new(paths.enter_async(foreign)).ready().unwrap_err(), Error::ForeignOperation);
    assert_eq!(paths.name(foreign), Err(Error::ForeignOperation));
    assert_eq!(paths.why(foreign), Err(Error::ForeignOperation));
}

#[test]
#[should_panic(expected = "polled again")]
fn who_is_ready_isnt_polled_again() {
    let (paths, take, _) = open(SHELF, 30, ["take", "take"]);
    let mut enters = Polled::new(paths.enter_async(take));
    drop(enters.ready());
    let _ = enters.poll();
}

#[test]
fn futures_say_how_far_they_are() {
    let (paths, take, _) = open(SHELF, 30, ["take", "take"]);
    assert_eq!(format!("{:?}", paths.enter_async(take)), "Enter { stage: New }");
    assert_eq!(format!("{:?}", Arc::new(paths).enter_async_owned(take)), "EnterOwned { stage: New }");
}
