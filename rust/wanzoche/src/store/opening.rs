//! An opening, and what its threads do in the place of tasks.
//!
//! A task never waits in the library, for a turn at the file or for the disk. It hands its entry to a thread that begins it, and listens
//! for all that wait: one for each opening, however many they are. A second thread waits for the disk, where the store is synced. Each ends
//! after a second with nothing to do. What the drop of a guard couldn't leave is *due*: the thread that listens leaves it again until it is
//! over.
//!
//! The opening ends when its store is dropped. Then all entries are ended, and what is due is finished by the library, or by others. In
//! the child of a fork there are no threads, and nobody looks at what they share.

use std::cell::Cell;
use std::collections::VecDeque;
use std::io;
use std::mem;
use std::panic::{catch_unwind, AssertUnwindSafe};
use std::ptr;
use std::sync::{Condvar, Mutex, MutexGuard, PoisonError};
use std::task::Waker;
use std::thread;

use super::disk::{self, Begun};
use super::entry::{Entry, Rest};
use super::library::{answer, Handle};
use super::listening;
use crate::memory::space;
use crate::shared::Shared;
use crate::sys::{code, Answer};
use crate::Error;

/// The library's calls have tables of waiters on the stack.
const STACK: usize = 256 << 10;

thread_local! {
    /// The opening whose thread this is.
    static SERVES: Cell<*const Opening> = const { Cell::new(ptr::null()) };
}

/// What has to be ended.
pub(super) enum Due {
    Record(Shared<Entry>),
    /// An operation of a thread, by its activation.
    Number(u64),
}

/// What the threads of an opening share.
#[derive(Default)]
pub(super) struct Work {
    /// What is to begin, and to end.
    pub(super) begins: VecDeque<Shared<Entry>>,
    pub(super) ends: VecDeque<Due>,
    /// What has begun, and waits for the disk.
    pub(super) begun: Vec<Begun>,
    /// Of so many entries an end may come. There is room for these in `ends`, so that none is lost.
    open: usize,
    has_listener: bool,
    /// Whether it sleeps, so that it is rung.
    pub(super) sleeps: bool,
    has_disk: bool,
    pub(super) is_over: bool,
}

/// The threads of an opening.
#[derive(Clone, Copy, PartialEq, Eq)]
pub(super) enum Helper {
    Listener,
    Disk,
}

/// An opening of a store, for all that have a part in it.
pub(super) struct Opening {
    pub(super) handle: Handle,
    /// The time limit, in milliseconds, of the calls that have none of their own; -1 for none.
    pub(super) limit: i64,
    pub(super) is_synced: bool,
    work: Mutex<Work>,
    /// Something has begun that waits for the disk; and a thread has ended.
    pub(super) came: Condvar,
    ended: Condvar,
}

/// Whether an operation is in progress still, and nobody else will finish it.
pub(super) fn is_due(told: Answer) -> bool {
    matches!(told.code, answer::LATE | answer::SYSTEM | code::OUT_OF_MEMORY)
}

impl Opening {
    pub(super) fn new(handle: Handle, limit: i64, is_synced: bool) -> Result<Shared<Opening>, Error> {
        let (work, came, ended) = (Mutex::default(), Condvar::new(), Condvar::new());
        Shared::new(Opening { handle, limit, is_synced, work, came, ended })
    }

    /// Nothing in it is half done where a thread panics.
    pub(super) fn work(&self) -> MutexGuard<'_, Work> {
        self.work.lock().unwrap_or_else(PoisonError::into_inner)
    }

    /// Has an entry begun.
    pub(super) fn hand(this: &Shared<Opening>, entry: Shared<Entry>) -> Result<(), Error> {
        let mut work = this.work_of_tasks()?;
        work.begins.try_reserve(1).map_err(|_| Error::OutOfMemory)?;
        let open = work.open + 1;
        work.ends.try_reserve(open).map_err(|_| Error::OutOfMemory)?;
        work.begins.push_back(entry);
        if let Err(error) = Opening::call_listener(this, &mut work) {
            work.begins.pop_back();
            return Err(error);
        }
        work.open = open;
        Ok(())
    }

    /// Has something ended. Without a thread it isn't.
    fn hand_end(this: &Shared<Opening>, due: Due) -> Result<(), Error> {
        let mut work = this.work_of_tasks()?;
        let (is_record, open) = (matches!(due, Due::Record(_)), work.open);
        if !is_record {
            work.ends.try_reserve(open + 1).map_err(|_| Error::OutOfMemory)?;
        }
        work.ends.push_back(due);
        if let Err(error) = Opening::call_listener(this, &mut work) {
            work.ends.pop_back();
            return Err(error);
        }
        work.open -= usize::from(is_record);
        Ok(())
    }

    fn work_of_tasks(&self) -> Result<MutexGuard<'_, Work>, Error> {
        if self.handle.is_forked() {
            return Err(Error::Forked);
        }
        let work = self.work();
        if work.is_over {
            return Err(Error::Closed);
        }
        Ok(work)
    }

    /// Wakes the thread that listens, or begins it.
    fn call_listener(this: &Shared<Opening>, work: &mut Work) -> Result<(), Error> {
        if !work.has_listener {
            Opening::begin_thread(this, Helper::Listener).map_err(|error| Error::of_thread(&error))?;
            work.has_listener = true;
        } else if mem::replace(&mut work.sleeps, false) {
            this.handle.ring();
        }
        Ok(())
    }

    fn begin_thread(this: &Shared<Opening>, helper: Helper) -> io::Result<()> {
        let own = this.clone();
        let named = thread::Builder::new().name("wanzoche store".to_string()).stack_size(STACK);
        let begun = named.spawn(move || {
            SERVES.with(|serves| serves.set(&*own));
            match helper {
                Helper::Listener => listening::serve(&own),
                Helper::Disk => disk::serve(&own),
            }
        });
        begun.map(drop)
    }

    /// Has a thread tell what has begun when it is on the disk. It comes back if there is none.
    pub(super) fn hand_to_disk(this: &Shared<Opening>, begun: Begun) -> Option<Begun> {
        let mut work = this.work();
        if space(&mut work.begun, 1).is_err() || !(work.has_disk || Opening::begin_thread(this, Helper::Disk).is_ok()) {
            return Some(begun);
        }
        work.has_disk = true;
        work.begun.push(begun);
        this.came.notify_one();
        None
    }

    /// A thread ends. Nobody waits for it any more.
    pub(super) fn end_thread(&self, mut work: MutexGuard<'_, Work>, helper: Helper) {
        match helper {
            Helper::Listener => work.has_listener = false,
            Helper::Disk => work.has_disk = false,
        }
        self.ended.notify_all();
    }

    /// Tells a task what came of its entry, outside of the lock: a waker may do anything, as to drop the store. One that panics holds up no
    /// other.
    pub(super) fn tell(&self, entry: &Entry, told: Answer, words: String) {
        if let Some(waker) = entry.tell(told, words) {
            if !told.has_started() {
                self.forget();
            }
            let _ = catch_unwind(AssertUnwindSafe(|| waker.map(Waker::wake)));
        }
    }

    /// No end of an entry comes any more.
    pub(super) fn forget(&self) {
        let mut work = self.work();
        work.open = work.open.saturating_sub(1);
    }

    /// A task gives up its entry.
    pub(super) fn abandon(this: &Shared<Opening>, entry: &Shared<Entry>) {
        if !this.handle.is_forked() && entry.give_up() == Rest::Record {
            // There is a thread as long as something waits.
            let _ = Opening::hand_end(this, Due::Record(entry.clone()));
        }
    }

    /// Leaves what a guard of a thread had, now, or as soon as it can be.
    pub(super) fn leave_now(this: &Shared<Opening>, activation: u64) {
        if is_due(this.handle.leave(activation, 0)) {
            // Without a thread it stays in progress until the store is dropped.
            let _ = Opening::hand_end(this, Due::Number(activation));
        }
    }

    /// Leaves what a guard of a task had, on another thread, if there is one.
    pub(super) fn leave_aside(this: &Shared<Opening>, entry: Shared<Entry>, activation: u64) {
        if Opening::hand_end(this, Due::Record(entry)).is_err() {
            Opening::leave_now(this, activation);
        }
    }

    /// Ends the opening, when its threads have ended. The caller is the last that calls anything of it; it may be one of these threads.
    pub(super) fn end(&self, limit: i64) -> Answer {
        if !self.handle.is_forked() {
            let is_own = SERVES.try_with(Cell::get).map_or(false, |serves| ptr::eq(serves, self));
            let mut work = self.work();
            work.is_over = true;
            self.handle.ring();
            self.came.notify_all();
            while usize::from(work.has_listener) + usize::from(work.has_disk) > usize::from(is_own) {
                work = self.ended.wait(work).unwrap_or_else(PoisonError::into_inner);
            }
        }
        self.handle.close(limit)
    }
}
