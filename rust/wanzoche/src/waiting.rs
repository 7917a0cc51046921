//! How threads and tasks wait, and how they are woken.
//!
//! One lock guards the [`State`], with the [`Queue`](crate::queue::Queue) of those that wait. Whenever another may be next, who is next is
//! asked: behind a leave, behind a start while others wait, when one that has something in progress begins to wait, when one stops waiting
//! for whatever reason, and when one was asked and still may not start. A caller that was asked tries to start. So no turn is lost, all
//! readers come in, and nobody is woken in vain, but where another was quicker. One whose start is withheld asks again by itself when the
//! door opens.
//!
//! Nothing foreign runs under the lock but the log: wakers are cloned, called and dropped outside.

use std::any::Any;
use std::panic::{catch_unwind, resume_unwind, AssertUnwindSafe};
use std::sync::{Condvar, Mutex, MutexGuard, PoisonError, TryLockError};
use std::task::{Context, Poll};
use std::thread;
use std::time::Instant;

use crate::alarm::Alarm;
use crate::holders::Who;
use crate::memory::row;
use crate::queue::{Asked, Caller, Place};
use crate::state::{is_blocked, must_wait, told_outside, Start, State, Told, Trouble};
use crate::sys::{code, Answer};
use crate::Error;

/// So many beds are there for threads that sleep. More threads share them, and then some are woken only to sleep on.
const BEDS: usize = 64;

/// Until when a thread waits.
#[derive(Clone, Copy)]
pub(crate) enum Limit {
    /// It doesn't wait.
    Now,
    /// Until then.
    Until(Instant),
    /// Without a limit.
    Never,
}

impl Limit {
    /// This end, or another one that comes before.
    fn or_at(self, other: Option<Instant>) -> Option<Instant> {
        match self {
            Limit::Until(end) => Some(other.map_or(end, |other| end.min(other))),
            _ => other,
        }
    }

    fn is_over(self) -> bool {
        match self {
            Limit::Now => true,
            Limit::Until(end) => Instant::now() >= end,
            Limit::Never => false,
        }
    }
}

/// How far a task has come that wants to start an operation.
#[derive(Clone, Copy, Debug, PartialEq, Eq)]
pub(crate) enum Stage {
    New,
    /// It has let those go first that were asked before it came.
    GaveWay,
    Waits(Place),
    Over,
}

/// The same, with what wakes it if its start is withheld.
pub(crate) struct Turn {
    pub(crate) stage: Stage,
    alarm: Option<Alarm>,
}

impl Turn {
    pub(crate) fn new() -> Turn {
        Turn { stage: Stage::New, alarm: None }
    }

    pub(crate) fn place(&self) -> Option<Place> {
        match self.stage {
            Stage::Waits(place) => Some(place),
            _ => None,
        }
    }
}

/// What a waker panicked with.
type Panic = Box<dyn Any + Send>;

/// A system that threads and tasks share, and wait at.
pub(crate) struct Monitor {
    state: Mutex<State>,
    /// Where threads sleep: one whose place has number N in bed N, counted round.
    beds: Box<[Condvar]>,
    /// How often a thread gives way before it sleeps.
    yields: u32,
}

type Locked<'a> = MutexGuard<'a, State>;

impl Monitor {
    pub(crate) fn new(state: State, yields: u32) -> Result<Monitor, Error> {
        Ok(Monitor { state: Mutex::new(state), beds: row(BEDS, Condvar::new)?, yields })
    }

    /// Takes the lock. A lock that a panic has poisoned is as good as any: no panic leaves the state half changed.
    #[inline]
    pub(crate) fn lock(&self) -> Locked<'_> {
        self.state.lock().unwrap_or_else(PoisonError::into_inner)
    }

    /// Takes the lock if nobody has it.
    fn try_lock(&self) -> Option<Locked<'_>> {
        match self.state.try_lock() {
            Ok(state) => Some(state),
            Err(TryLockError::Poisoned(poisoned)) => Some(poisoned.into_inner()),
            Err(TryLockError::WouldBlock) => None,
        }
    }

    /// Starts an operation when it is admitted.
    #[inline]
    pub(crate) fn enter(&self, start: Start, limit: Limit) -> Result<u64, Error> {
        let mut state = self.lock();
        match state.start_directly(start) {
            Some(Answer { code: code::STARTED, number }) => Ok(number),
            first => self.enter_slowly(state, start, limit, first),
        }
    }

    /// The same where somebody waits, or the first attempt isn't the last word.
    #[cold]
    fn enter_slowly<'a>(&'a self, mut state: Locked<'a>, start: Start, limit: Limit, first: Option<Answer>) -> Result<u64, Error> {
        let mut told = state.attempt(start, first);
        let waits = !matches!(limit, Limit::Now);
        if waits && is_blocked(&told) && self.yields > 0 {
            (state, told) = self.give_way(state, start, limit);
        }
        let mut place = None;
        if waits && must_wait(&told) {
            match state.join(start, &mut Some(Caller::Thread)) {
                Ok(taken) => {
                    place = Some(taken);
                    (state, told) = self.wait(state, start, limit, taken, told);
                }
                Err(error) => told = Err(Trouble::Error(error)),
            }
        }
        told_outside(self.ends(state, start, place, told))
    }

    /// Gives way to others while there is time, until no path forbids the start; the lock is held without a break since the last look. A
    /// thread that finds the lock taken doesn't wait for it: that would be a sleep, and whoever has it may be about to leave.
    fn give_way(&self, state: Locked<'_>, start: Start, limit: Limit) -> (Locked<'_>, Told) {
        drop(state);
        for _ in 0..self.yields {
            if limit.is_over() {
                break;
            }
            thread::yield_now();
            if let Some(mut state) = self.try_lock() {
                let told = state.attempt_again(start, None);
                if !is_blocked(&told) {
                    return (state, told);
                }
            }
        }
        let mut state = self.lock();
        let told = state.attempt_again(start, None);
        (state, told)
    }

    /// Sleeps and tries again, until it may start or the time is over.
    fn wait<'a>(&'a self, mut state: Locked<'a>, start: Start, limit: Limit, place: Place, mut told: Told) -> (Locked<'a>, Told) {
        let mut others_may = state.stops_running(start.who);
        loop {
            let asks_at = state.asks_at(&told);
            state.queue.will_ask(place, asks_at);
            if others_may {
                match self.wake_next(state) {
                    Ok(()) => state = self.lock(),
                    Err(panic) => return (self.lock(), Err(Trouble::Panic(panic))),
                }
            }
            state = self.sleep(state, limit, place);
            others_may = state.queue.is_asked(place);
            let is_over = limit.is_over();
            told = state.attempt_again(start, Some(place));
            if is_over || !must_wait(&told) {
                return (state, told);
            }
            state.queue.wait_on(place, start.who, &mut Some(Caller::Thread));
        }
    }

    /// Sleeps until it is asked, it asks by itself, or the time is over.
    fn sleep<'a>(&'a self, mut state: Locked<'a>, limit: Limit, place: Place) -> Locked<'a> {
        let bed = self.bed(place);
        let end = limit.or_at(state.clock.time(state.queue.asks_at(place)));
        while !state.queue.is_asked(place) {
            state = match end {
                Some(end) => {
                    let left = end.saturating_duration_since(Instant::now());
                    if left.is_zero() {
                        return state;
                    }
                    bed.wait_timeout(state, left).unwrap_or_else(PoisonError::into_inner).0
                }
                None => bed.wait(state).unwrap_or_else(PoisonError::into_inner),
            };
        }
        state
    }

    fn bed(&self, place: Place) -> &Condvar {
        &self.beds[place.number() % BEDS]
    }

    /// The end of an attempt to start: whoever had a place leaves it. Who is next is asked, if it started or no longer waits.
    fn ends(&self, mut state: Locked<'_>, start: Start, place: Option<Place>, told: Told) -> Result<u64, Trouble> {
        let settled = state.settled(start, told);
        let caller = place.and_then(|place| state.quit(place));
        let woken = if place.is_some() || settled.is_ok() {
            self.wake_next(state)
        } else {
            drop(state);
            Ok(())
        };
        drop(caller);
        if let Err(panic) = woken {
            // Another's waker panics. Nobody gets this start then, so it ends.
            if let Ok(activation) = settled {
                self.leave(start.worker, activation);
            }
            resume_unwind(panic);
        }
        settled
    }

    /// A step of a task, which is known by its waker, that wants to start an operation. While it is pending, the task is woken when it should take the next one. Who
    /// is first to come lets those go first that have been asked and not yet come.
    #[inline]
    pub(crate) fn poll_enter(&self, start: Start, turn: &mut Turn, context: &mut Context<'_>) -> Poll<Result<u64, Error>> {
        let mut state = self.lock();
        state.has_tasks = true;
        let first = if turn.stage == Stage::New { state.start_directly(start) } else { None };
        if let Some(Answer { code: code::STARTED, number }) = first {
            turn.stage = Stage::Over;
            return Poll::Ready(Ok(number));
        }
        self.poll_again(state, start, first, turn, context)
    }

    /// The same where somebody waits, or the first attempt isn't the last word.
    #[cold]
    fn poll_again<'a>(
        &'a self,
        mut state: Locked<'a>,
        start: Start,
        first: Option<Answer>,
        turn: &mut Turn,
        context: &mut Context<'_>,
    ) -> Poll<Result<u64, Error>> {
        let start = Start { who: Who::task(context.waker()), ..start };
        let told = match turn.stage {
            Stage::New if first.is_none() && state.queue.asked() > 0 => {
                turn.stage = Stage::GaveWay;
                drop(state);
                context.waker().wake_by_ref();
                return Poll::Pending;
            }
            Stage::Waits(place) => {
                let told = state.attempt_again(start, Some(place));
                if is_blocked(&told) && state.queue.is_woken_by(place, context.waker()) {
                    return Poll::Pending;
                }
                told
            }
            _ => state.attempt(start, first),
        };
        self.poll_slowly(state, start, turn, told, context)
    }

    /// The end of a step behind its first answer: the task waits, or waits on, if it may not start yet.
    #[cold]
    fn poll_slowly<'a>(
        &'a self,
        mut state: Locked<'a>,
        start: Start,
        turn: &mut Turn,
        mut told: Told,
        context: &mut Context<'_>,
    ) -> Poll<Result<u64, Error>> {
        // Both are dropped when the lock is free.
        let (mut caller, alarm) = (None, turn.alarm.take());
        if must_wait(&told) {
            drop(state);
            caller = Some(Caller::Task(context.waker().clone()));
            state = self.lock();
            told = state.attempt_again(start, turn.place());
            if must_wait(&told) {
                match stay(&mut state, start, turn, &told, &mut caller) {
                    Ok(others_may) => return self.rests(state, turn, others_may, context),
                    Err(error) => told = Err(Trouble::Error(error)),
                }
            }
        }
        let place = turn.place();
        turn.stage = Stage::Over;
        let settled = self.ends(state, start, place, told);
        drop((caller, alarm));
        Poll::Ready(told_outside(settled))
    }

    /// The task rests until it is woken: by whoever asks it, or by an alarm if its start is withheld.
    fn rests(&self, state: Locked<'_>, turn: &mut Turn, others_may: bool, context: &mut Context<'_>) -> Poll<Result<u64, Error>> {
        let time = turn.place().and_then(|place| state.clock.time(state.queue.asks_at(place)));
        let woken = if others_may {
            self.wake_next(state)
        } else {
            drop(state);
            Ok(())
        };
        woken.unwrap_or_else(|panic| resume_unwind(panic));
        match time.map(|time| Alarm::set(time, context.waker().clone())).transpose() {
            Ok(alarm) => {
                turn.alarm = alarm;
                Poll::Pending
            }
            Err(error) => {
                turn.place().into_iter().for_each(|place| self.give_up(place));
                turn.stage = Stage::Over;
                Poll::Ready(Err(error))
            }
        }
    }

    /// A task gives its place up.
    pub(crate) fn give_up(&self, place: Place) {
        let mut state = self.lock();
        let caller = state.quit(place);
        let woken = self.wake_next(state);
        drop(caller);
        woken.unwrap_or_else(|panic| resume_unwind(panic));
    }

    /// Finishes an activation, and wakes who is next.
    #[inline]
    pub(crate) fn leave(&self, worker: u32, activation: u64) {
        let mut state = self.lock();
        let _ = state.system.finish(worker, activation);
        if !state.queue.line().is_empty() {
            self.leave_to_others(state);
        }
    }

    #[cold]
    fn leave_to_others(&self, state: Locked<'_>) {
        self.wake_next(state).unwrap_or_else(|panic| resume_unwind(panic));
    }

    /// Wakes who is next. If a waker panics, its task counts as asked, and another is woken as well.
    fn wake_next(&self, state: Locked<'_>) -> Result<(), Panic> {
        self.wake_each(state, State::ask_next, false)
    }

    /// Admits nothing any more, and wakes all that wait.
    pub(crate) fn close(&self) {
        let mut state = self.lock();
        state.close();
        self.wake_each(state, State::release, true).unwrap_or_else(|panic| resume_unwind(panic));
    }

    /// Wakes those that this asks, all or until one is woken, each when the lock is free, so that it needn't wait for that. A waker that
    /// panics holds up no other; what one panicked with last comes back.
    fn wake_each<'a>(&'a self, mut state: Locked<'a>, ask: fn(&mut State) -> Option<Asked>, all: bool) -> Result<(), Panic> {
        let mut panics = Ok(());
        while let Some(asked) = ask(&mut state) {
            drop(state);
            match catch_unwind(AssertUnwindSafe(|| self.wake(asked))) {
                Ok(()) if !all => return panics,
                Ok(()) => {}
                Err(panic) => panics = Err(panic),
            }
            state = self.lock();
        }
        panics
    }

    pub(crate) fn wake(&self, asked: Asked) {
        match asked {
            Asked::Thread(place) => self.bed(place).notify_all(),
            Asked::Task(waker) => waker.wake(),
        }
    }
}

/// The task waits for the operation, or waits on. What it gave before, if it isn't to be woken by that any more, takes its place. Whether
/// another may be next.
fn stay(state: &mut State, start: Start, turn: &mut Turn, told: &Told, caller: &mut Option<Caller>) -> Result<bool, Error> {
    let asks_at = state.asks_at(told);
    let (place, others_may) = match turn.stage {
        Stage::Waits(place) => {
            let was_asked = state.queue.is_asked(place);
            state.queue.wait_on(place, start.who, caller);
            (place, was_asked)
        }
        _ => {
            let place = state.join(start, caller)?;
            turn.stage = Stage::Waits(place);
            (place, state.stops_running(start.who))
        }
    };
    state.queue.will_ask(place, asks_at);
    Ok(others_may)
}
