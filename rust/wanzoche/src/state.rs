//! What is under the lock: the system, its log, and who waits.

use std::any::Any;
use std::panic::{catch_unwind, AssertUnwindSafe};

use crate::blocked::{Ahead, Blocked, Holders, NAMED};
use crate::clock::Clock;
use crate::holders::{Notes, Who};
use crate::memory::space;
use crate::names::{Names, Operations};
use crate::queue::{Asked, Caller, Place, Queue};
use crate::shared::Shared;
use crate::sys::{code, Activation, Answer, InLine, System, Text};
use crate::Error;

/// What gets the lines of a journal that is full: see [`Options::log`](crate::Options::log).
pub type Log = Box<dyn FnMut(&str) + Send>;

/// So much of what is in progress is looked at to say who holds a path.
const LOOKED_AT: usize = 64;

/// Why an attempt got no answer.
pub(crate) enum Trouble {
    /// It can't be made, as for want of memory.
    Error(Error),
    /// The log panicked with this. The panic goes on when the lock is free and the next caller is woken.
    Panic(Box<dyn Any + Send>),
}

/// The answer to an attempt.
pub(crate) type Told = Result<Answer, Trouble>;

pub(crate) fn is_blocked(told: &Told) -> bool {
    matches!(told, Ok(answer) if answer.code == code::BLOCKED)
}

/// Whether whoever asked has to wait: a path forbids the start, or it is withheld for one that waits.
pub(crate) fn must_wait(told: &Told) -> bool {
    matches!(told, Ok(answer) if answer.code == code::BLOCKED || answer.code == code::WITHHELD)
}

/// What an attempt got, outside of the lock: a panic of the log goes on here.
pub(crate) fn told_outside<T>(told: Result<T, Trouble>) -> Result<T, Error> {
    told.map_err(|trouble| match trouble {
        Trouble::Error(error) => error,
        Trouble::Panic(payload) => std::panic::resume_unwind(payload),
    })
}

/// A start that somebody wants.
#[derive(Clone, Copy)]
pub(crate) struct Start {
    pub(crate) worker: u32,
    pub(crate) operation: u32,
    pub(crate) priority: u32,
    pub(crate) who: Who,
}

pub(crate) struct State {
    pub(crate) system: System,
    pub(crate) queue: Queue,
    /// Whether a task has ever entered, and who began what, since then, while others waited.
    pub(crate) has_tasks: bool,
    notes: Notes,
    names: Shared<Names>,
    log: Option<Log>,
    is_closed: bool,
    /// Whether a start goes to the gate at once: nobody waits, and the paths aren't closed.
    is_direct: bool,
    /// What was in progress at the end of the journal that the paths go on behind, until it is recovered.
    pub(crate) lost: Vec<Activation>,
    /// The first activation of these paths: nobody knows who holds what was in progress before.
    first: u64,
    pub(crate) clock: Clock,
    /// Room for a list of what is in progress, and of what runs.
    live: Vec<Activation>,
    running: Vec<u32>,
}

impl State {
    pub(crate) fn new(system: System, queue: Queue, names: Shared<Names>, log: Option<Log>, lost: Vec<Activation>) -> Result<State, Error> {
        let (mut live, mut running) = (Vec::new(), Vec::new());
        space(&mut live, LOOKED_AT)?;
        space(&mut running, LOOKED_AT)?;
        let first = lost.last().map_or(0, |last| last.number + 1);
        let (notes, clock, has_tasks) = (Notes::new()?, Clock::new(), false);
        Ok(State { system, queue, has_tasks, notes, names, log, is_closed: false, is_direct: true, lost, first, clock, live, running })
    }

    /// Attempts a start at the gate, in the journal as it is, if nobody waits and the paths aren't closed.
    #[inline]
    pub(crate) fn start_directly(&mut self, start: Start) -> Option<Answer> {
        if self.is_direct {
            Some(self.system.start(start.worker, start.operation))
        } else {
            None
        }
    }

    /// Attempts a start, and if it lacks room once more in an empty journal.
    fn start_in_room(&mut self, start: Start) -> Told {
        let answer = self.system.start(start.worker, start.operation);
        self.started_in_room(start, answer)
    }

    /// The same behind the first attempt.
    fn started_in_room(&mut self, start: Start, answer: Answer) -> Told {
        self.again_in_room(answer, |state| state.system.start(start.worker, start.operation))
    }

    /// The same behind the first answer to any attempt.
    pub(crate) fn again_in_room(&mut self, answer: Answer, attempt: impl Fn(&mut State) -> Answer) -> Told {
        if answer.code != code::NO_ROOM || self.system.lines() == 0 {
            return Ok(answer);
        }
        self.give_lines()?;
        Ok(attempt(self))
    }

    /// The first attempt of a caller, or what its first answer comes to: at the gate, unless its start is withheld for one that waits.
    pub(crate) fn attempt(&mut self, start: Start, first: Option<Answer>) -> Told {
        if let Some(answer) = first {
            return self.started_in_room(start, answer);
        }
        let answer = self.may_start(start, None);
        match answer.code {
            code::CAN_START | code::BLOCKED => self.start_in_room(start),
            _ => Ok(answer),
        }
    }

    /// A later attempt, by one that has a place or has none: it takes no line of the journal, unless it starts.
    pub(crate) fn attempt_again(&mut self, start: Start, place: Option<Place>) -> Told {
        let answer = self.may_start(start, place);
        match answer.code {
            code::CAN_START => self.start_in_room(start),
            _ => Ok(answer),
        }
    }

    /// Whether a start may go now, by the paths and by those that stand before it. Whose door isn't shut keeps nobody out, so the library
    /// is asked only where there is one that is.
    fn may_start(&mut self, start: Start, place: Option<Place>) -> Answer {
        if self.is_closed {
            return Answer { code: code::CLOSED, number: 0 };
        }
        self.may_start_when_open(start, place)
    }

    /// The same as if the paths weren't closed.
    pub(crate) fn may_start_when_open(&mut self, start: Start, place: Option<Place>) -> Answer {
        let answer = self.system.can_start(start.operation);
        if answer.code != code::CAN_START || self.queue.line().is_empty() {
            return answer;
        }
        let now = self.clock.now();
        let (before, arrived) = match place {
            Some(place) => (self.queue.rank(place), self.queue.arrived(place)),
            None => (self.queue.behind_all_of(start.priority), now),
        };
        if !self.queue.shut_doors(before, now) {
            return answer;
        }
        self.list_running(Some(start.who));
        let one = InLine { operation: start.operation, priority: start.priority, arrived, shut_at: u64::MAX };
        match self.system.may_start(one, &self.queue.line()[..before], &self.running) {
            Answer { code: code::OUT_OF_MEMORY, .. } => answer,
            told => told,
        }
    }

    /// The caller waits from now on. Without memory for a place it doesn't.
    pub(crate) fn join(&mut self, start: Start, caller: &mut Option<Caller>) -> Result<Place, Error> {
        let now = self.clock.now();
        let place = self.queue.join(start, now, caller)?;
        self.is_direct = false;
        Ok(place)
    }

    /// The caller waits no more. What it gave comes back, if it hadn't been asked.
    pub(crate) fn quit(&mut self, place: Place) -> Option<Caller> {
        let caller = self.queue.quit(place);
        self.is_direct = !self.is_closed && self.queue.line().is_empty();
        caller
    }

    /// Whether somebody else waits, and this thread or task has something in progress that no longer runs since it waits, too.
    pub(crate) fn stops_running(&mut self, who: Who) -> bool {
        if self.queue.line().len() < 2 {
            return false;
        }
        self.list_live();
        self.live.iter().any(|each| self.holder(each) == Some(who))
    }

    /// When one that was told this asks again by itself: when the door opens for which its start was withheld; 0 if it wasn't.
    pub(crate) fn asks_at(&self, told: &Told) -> u64 {
        match told {
            Ok(Answer { code: code::WITHHELD, number }) => self.queue.opens_at(*number as usize),
            _ => 0,
        }
    }

    /// Lists what is in progress, as far as there is memory: what isn't known doesn't run.
    fn list_live(&mut self) {
        let number = self.system.list_live(&mut []) as usize;
        self.live.clear();
        let _ = space(&mut self.live, number);
        self.live.resize(number.min(self.live.capacity()), Activation::default());
        self.system.list_live(&mut self.live);
    }

    /// Who holds what is in progress, as far as it is known.
    fn holder(&self, each: &Activation) -> Option<Who> {
        let thread = Some(Who::thread(each.worker)).filter(|_| !self.has_tasks && each.number >= self.first);
        self.notes.who(each.number).or(thread)
    }

    /// Lists the operations in progress of those that don't wait, and aren't this one.
    fn list_running(&mut self, asking: Option<Who>) {
        self.list_live();
        let mut running = std::mem::take(&mut self.running);
        running.clear();
        if space(&mut running, self.live.len()).is_ok() {
            let runs = |who: Who| Some(who) != asking && !self.queue.has(who);
            let operations = self.live.iter().filter(|each| self.holder(each).map_or(false, runs)).map(|each| each.operation);
            running.extend(operations);
        }
        self.running = running;
    }

    /// Hands the lines to the log, and begins a new journal. If the log panics, the lines stay.
    pub(crate) fn give_lines(&mut self) -> Result<(), Trouble> {
        if let Some(log) = &mut self.log {
            let lines = self.system.text(Text::Journal).map_err(Trouble::Error)?;
            // Nothing here is half done while the log is called.
            catch_unwind(AssertUnwindSafe(|| log(&lines))).map_err(Trouble::Panic)?;
        }
        self.system.rotate();
        Ok(())
    }

    /// Asks who is next of those that wait: the first whose start neither a path forbids nor one before it withholds. A thread that was
    /// asked comes, and then asks on. A task may be forgotten, so those behind it are asked as well.
    pub(crate) fn ask_next(&mut self) -> Option<Asked> {
        if self.queue.line().is_empty() || self.is_closed {
            return None;
        }
        let now = self.clock.now();
        let are_shut = self.queue.shut_doors(self.queue.line().len(), now);
        if are_shut {
            self.list_running(None);
        }
        let mut from = 0;
        while let Some(rank) = self.next_from(from, are_shut) {
            let (place, who) = self.queue.at(rank);
            match (self.queue.is_asked(place), who.is_task()) {
                (false, _) => return Some(self.queue.ask(rank)),
                (true, false) => return None,
                (true, true) => from = rank + 1,
            }
        }
        are_shut.then(|| self.ask_unaware(now)).flatten()
    }

    /// The rank of who is next of those from this one on.
    fn next_from(&mut self, from: usize, are_shut: bool) -> Option<usize> {
        if !are_shut {
            return self.admitted_from(from);
        }
        let answer = self.system.next(&self.queue.line()[from..], &self.running);
        match answer.code {
            code::NEXT => Some(from + answer.number as usize),
            code::NOBODY => None,
            // There is no memory for an order.
            _ => self.admitted_from(from),
        }
    }

    /// The rank of the first from this one on whose start no path forbids.
    fn admitted_from(&mut self, from: usize) -> Option<usize> {
        let State { queue, system, .. } = self;
        let mut refused = Operations::default();
        let place = queue.line()[from..].iter().position(|each| {
            let is_free = !refused.contains(each.operation) && system.can_start(each.operation).code == code::CAN_START;
            if !is_free {
                refused.insert(each.operation);
            }
            is_free
        });
        place.map(|place| from + place)
    }

    /// Asks one whose start is withheld and who doesn't know, since a path forbade it before. It will ask by itself when a door opens.
    fn ask_unaware(&mut self, now: u64) -> Option<Asked> {
        let mut from = 0;
        while let Some(rank) = self.admitted_from(from) {
            let (place, _) = self.queue.at(rank);
            if !self.queue.is_asked(place) && self.queue.asks_at(place) <= now {
                return Some(self.queue.ask(rank));
            }
            from = rank + 1;
        }
        None
    }

    /// No start is admitted any more.
    pub(crate) fn close(&mut self) {
        self.is_closed = true;
        self.is_direct = false;
    }

    pub(crate) fn is_closed(&self) -> bool {
        self.is_closed
    }

    /// Of closed paths: asks one of those that still wait.
    pub(crate) fn release(&mut self) -> Option<Asked> {
        let rank = self.queue.first_unasked();
        rank.map(|rank| self.queue.ask(rank))
    }

    /// Notes who began this, if there are tasks.
    fn note(&mut self, start: Start, activation: u64) {
        if !self.has_tasks {
            return;
        }
        if self.notes.is_full() {
            self.list_live();
            self.notes.keep(&self.live);
        }
        self.notes.add(activation, start.who);
    }

    /// The activation that an attempt started, or why there is none.
    pub(crate) fn settled(&mut self, start: Start, told: Told) -> Result<u64, Trouble> {
        let answer = told?;
        if answer.code == code::STARTED {
            self.note(start, answer.number);
            return Ok(answer.number);
        }
        let refused = self.refused(start.operation, answer);
        Err(Trouble::Error(refused.map_or_else(|| Error::of_attempt(answer), Error::Blocked)))
    }

    /// What keeps a start out, if it is a path or one that waits.
    pub(crate) fn refused(&mut self, operation: u32, answer: Answer) -> Option<Blocked> {
        match answer.code {
            code::BLOCKED => Some(self.blocked(operation, answer.number, None)),
            code::WITHHELD => {
                let ahead = self.ahead(answer.number as usize);
                let path = self.names.common(operation, ahead.operation);
                Some(self.blocked(operation, path, Some(ahead)))
            }
            _ => None,
        }
    }

    /// Who waits at a rank.
    pub(crate) fn ahead(&self, rank: usize) -> Ahead {
        let InLine { operation, priority, arrived, .. } = self.queue.line()[rank];
        let (_, who) = self.queue.at(rank);
        let waited = self.clock.now().saturating_sub(arrived);
        Ahead { operation, thread: self.queue.worker(rank), is_task: who.is_task(), priority, waited }
    }

    /// Which path an operation waits for, what is in progress of it, and whom the start is withheld for, if it is.
    fn blocked(&mut self, operation: u32, path: u64, behind: Option<Ahead>) -> Blocked {
        let path = u32::try_from(path).unwrap_or(u32::MAX);
        let operations = self.names.operations_of(path);
        let mut live = [Activation::default(); LOOKED_AT];
        let number = self.system.list_live(&mut live) as usize;
        let mut holders = Holders { are_more: number > LOOKED_AT, ..Holders::default() };
        for each in live.iter().take(number).filter(|each| operations.contains(each.operation)) {
            if let Some(named) = holders.named[..NAMED].get_mut(holders.in_all as usize) {
                *named = (each.operation, each.worker);
            }
            holders.in_all += 1;
        }
        let may_begin = operations.filter(|each| self.system.can_start(each).code == code::CAN_START);
        Blocked { names: self.names.clone(), operation, path, holders, may_begin, behind }
    }
}
