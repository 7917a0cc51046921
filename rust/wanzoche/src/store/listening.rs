//! The thread that begins and ends the entries of tasks, and listens for all that wait.

use std::collections::VecDeque;
use std::mem;
use std::time::{Duration, Instant};

use super::disk::{self, Begun};
use super::entry::Entry;
use super::library::answer;
use super::opening::{is_due, Due, Helper, Opening};
use super::steps::Waits;
use crate::memory::space;
use crate::shared::Shared;
use crate::sys::{code, Answer};

/// So many milliseconds it waits for the next who waits.
const IDLE: i64 = 1000;
/// So often what is due is ended again, in milliseconds.
const AGAIN: i64 = 50;
/// So many it begins before it looks whether one that waits may ask again.
const AT_ONCE: usize = 32;

const CLOSED: Answer = Answer { code: code::CLOSED, number: 0 };
const NO_MEMORY: Answer = Answer { code: code::OUT_OF_MEMORY, number: 0 };

struct Listener<'a> {
    opening: &'a Shared<Opening>,
    /// Those that don't wait yet.
    asks: VecDeque<Shared<Entry>>,
    waits: Waits,
    /// What couldn't be ended, and when that was tried.
    due: Vec<Due>,
    tried: Instant,
    /// What it has heard of rings.
    heard: u32,
    /// Whether nothing came for so long.
    is_idle: bool,
    /// Whether each call answers the same from now on, so that nobody is called any more.
    is_broken: bool,
}

pub(super) fn serve(opening: &Shared<Opening>) {
    let (asks, waits, due) = (VecDeque::new(), Waits::default(), Vec::new());
    let mut listener = Listener { opening, asks, waits, due, tried: Instant::now(), heard: 0, is_idle: false, is_broken: false };
    while listener.goes_on() {
        // What is given up comes first: it stands in the way of others.
        listener.end_each();
        listener.begin_some();
        listener.listen();
        listener.end_due();
        listener.end_broken();
    }
}

impl Listener<'_> {
    /// Whether there is something to do, or will be. If not, the thread has ended for all others.
    fn goes_on(&mut self) -> bool {
        let mut work = self.opening.work();
        work.sleeps = false;
        if work.is_over {
            drop(work);
            self.close();
            return false;
        }
        if self.asks.is_empty() {
            mem::swap(&mut self.asks, &mut work.begins);
        }
        let is_left = self.is_idle && self.has_nothing() && work.ends.is_empty();
        if is_left {
            self.opening.end_thread(work, Helper::Listener);
        }
        !is_left
    }

    fn has_nothing(&self) -> bool {
        self.asks.is_empty() && self.waits.count() == 0 && self.due.is_empty()
    }

    /// Ends what is to end, until one of these has no turn.
    fn end_each(&mut self) {
        let mut has_turn = true;
        while has_turn {
            let next = self.opening.work().ends.pop_front();
            has_turn = next.map_or(false, |due| self.end(due));
        }
    }

    /// Ends one, or keeps it as due. False if it had no turn.
    fn end(&mut self, due: Due) -> bool {
        let told = match &due {
            Due::Record(entry) => {
                self.waits.remove(entry);
                entry.note_end();
                self.opening.handle.end(entry)
            }
            Due::Number(activation) => self.opening.handle.leave(*activation, 0),
        };
        if is_due(told) && space(&mut self.due, 1).is_ok() {
            self.due.push(due);
        }
        !is_due(told) && told.code != answer::OWED
    }

    /// Ends again what is due, each 50 ms.
    fn end_due(&mut self) {
        let is_time = self.tried.elapsed() >= Duration::from_millis(AGAIN as u64);
        if !is_time {
            return;
        }
        self.tried = Instant::now();
        for due in mem::take(&mut self.due) {
            self.end(due);
        }
    }

    /// Begins some that don't wait yet, until one of these has no turn.
    fn begin_some(&mut self) {
        for _ in 0..AT_ONCE {
            let has_turn = self.asks.pop_front().map_or(false, |entry| self.begin(entry, false));
            if !has_turn {
                return;
            }
        }
    }

    /// The next step of one that waited, or didn't. False if it had no turn.
    fn begin(&mut self, entry: Shared<Entry>, waited: bool) -> bool {
        if entry.is_ended() {
            return true;
        }
        let told = self.opening.handle.begin(&entry);
        match told.code {
            code::STARTED => self.has_begun(entry, told),
            code::BLOCKED | code::WITHHELD => self.wait(&entry),
            // It keeps its place in the order, and was called.
            answer::LATE if waited => self.wait(&entry),
            answer::LATE => self.asks.push_back(entry),
            _ => self.tell(&entry, told),
        }
        self.is_broken = self.is_broken || matches!(told.code, answer::CORRUPT | answer::UNSYNCED);
        told.code != answer::LATE
    }

    /// Where each call says what is wrong with the store, all that wait are told so.
    fn end_broken(&mut self) {
        for _ in 0..if self.is_broken { self.waits.count() } else { 0 } {
            self.waits.pop().map(|entry| self.begin(entry, true));
        }
    }

    /// From now on it is listened for it.
    fn wait(&mut self, entry: &Shared<Entry>) {
        if self.waits.add(entry).is_err() {
            let _ = self.opening.handle.end(entry);
            self.tell(entry, NO_MEMORY);
        }
    }

    fn has_begun(&self, entry: Shared<Entry>, told: Answer) {
        if !self.opening.is_synced {
            return self.tell(&entry, told);
        }
        let begun = Begun { record: entry.steps.copy(), entry, told };
        if let Some(begun) = Opening::hand_to_disk(self.opening, begun) {
            disk::tell(self.opening, begun);
        }
    }

    fn tell(&self, entry: &Entry, told: Answer) {
        self.opening.tell(entry, told, self.opening.handle.words(told));
    }

    /// Sleeps until one that waits may ask again, and has it ask; or until there is something else to do.
    fn listen(&mut self) {
        let limit = self.limit();
        let told = self.waits.listen(&self.opening.handle, &mut self.heard, limit);
        self.is_idle = told.code == answer::LATE && limit == IDLE;
        if told.code == answer::CALLED {
            let called = self.waits.take(usize::try_from(told.number).unwrap_or(usize::MAX));
            called.map(|entry| self.begin(entry, true));
        }
    }

    /// How long it may sleep. Who hands something over rings from now on.
    fn limit(&self) -> i64 {
        let mut work = self.opening.work();
        work.sleeps = self.asks.is_empty() && work.begins.is_empty() && work.ends.is_empty() && !work.is_over;
        match (work.sleeps, self.due.is_empty()) {
            (false, _) => 0,
            (true, true) => IDLE,
            (true, false) => AGAIN,
        }
    }

    /// The store is dropped. Who is told of that may wait for whoever drops it, who doesn't wait for this thread then.
    fn close(&mut self) {
        for entry in self.waits.each() {
            self.opening.handle.end(entry);
        }
        self.tell_left();
    }

    fn tell_left(&mut self) {
        self.opening.end_thread(self.opening.work(), Helper::Listener);
        while let Some(entry) = self.next_left() {
            self.opening.tell(&entry, CLOSED, String::new());
        }
    }

    fn next_left(&mut self) -> Option<Shared<Entry>> {
        let own = self.waits.pop().or_else(|| self.asks.pop_front());
        own.or_else(|| self.opening.work().begins.pop_front())
    }
}
