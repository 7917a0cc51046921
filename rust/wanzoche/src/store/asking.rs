//! What can be asked of a store, and what is done to its journal.

use super::library::{answer, Text};
use super::{Hindrance, Store};
use crate::sys::{code, Answer};
use crate::{Error, Op, Verdict};

impl Store {
    /// What keeps an operation from beginning now: the first path that forbids it; `None` if none does. Whether it would be withheld only
    /// an entry says. What dead processes have in progress is finished first, unless it is kept.
    ///
    /// # Errors
    ///
    /// [`Error::ForeignOperation`], and those of [`report`](Store::report).
    pub fn why(&self, op: Op) -> Result<Option<Hindrance>, Error> {
        let operation = self.number(op)?;
        let told = self.opening.handle.can_start(operation, self.opening.limit);
        match told.code {
            code::CAN_START => Ok(None),
            _ => self.hindrance(operation, told).map(Some).ok_or_else(|| self.error(told)),
        }
    }

    /// How many threads and tasks wait for an operation, in all processes.
    ///
    /// # Errors
    ///
    /// [`Error::ForeignOperation`] and [`Error::Forked`].
    pub fn waiting(&self, op: Op) -> Result<u32, Error> {
        self.counted(self.opening.handle.waiting(self.number(op)?), answer::COUNTED)
    }

    /// What may start, which path blocks what, what is in progress, as [`Paths::report`](crate::Paths::report) says it, with numbers of
    /// openings for those of threads; and behind it a line `lost A W NAME` for each operation of a dead opening, `waiting NAME N` for each
    /// operation for which somebody waits, and `process W PID` for each opening that has something in progress.
    ///
    /// # Errors
    ///
    /// [`Error::Late`] if no turn was to be had within the [`limit`](super::Options::limit); [`Error::System`]; [`Error::Corrupt`] and
    /// [`Error::Unsynced`], after which each call says so; [`Error::Forked`] in the child of a fork; [`Error::OutOfMemory`].
    pub fn report(&self) -> Result<String, Error> {
        self.text(Text::Report)
    }

    /// All lines of the journal so far, also those that were moved away: one for each start, use and finish. Others go on meanwhile.
    ///
    /// # Errors
    ///
    /// Those of [`report`](Store::report).
    pub fn journal(&self) -> Result<String, Error> {
        self.text(Text::Journal)
    }

    /// Reads all lines of the journal again, each of which has to be owed by those before it. Others go on meanwhile.
    ///
    /// # Errors
    ///
    /// Those of [`report`](Store::report). A line that isn't owed is the verdict, counted from 0 in its file, whose head isn't a line.
    pub fn audit(&self) -> Result<Verdict, Error> {
        let told = self.opening.handle.audit(self.opening.limit);
        match told.code {
            code::SOUND => Ok(Verdict::Sound),
            // The library counts from 1, with the head.
            answer::CORRUPT if told.number > 1 => Ok(Verdict::Wrong { index: told.number - 2 }),
            _ => Err(self.error(told)),
        }
    }

    /// Moves the file of the journal away, to `FILE.1`, `FILE.2` and so on, and begins the next. The store does so by itself when its room
    /// is used up.
    ///
    /// # Errors
    ///
    /// Those of [`report`](Store::report). Then nothing was moved.
    pub fn rotate(&self) -> Result<(), Error> {
        self.counted(self.opening.handle.rotate(self.opening.limit), code::ROTATED).map(drop)
    }

    /// Finishes what a dead opening has in progress, of a store that [keeps it](super::Options::keep_lost), and says how much that was.
    /// Its number stands in the [`report`](Store::report), behind `lost A`.
    ///
    /// # Errors
    ///
    /// [`Error::Alive`] if it isn't dead, and those of [`report`](Store::report).
    pub fn recover(&self, worker: u32) -> Result<u32, Error> {
        self.counted(self.opening.handle.recover(worker, false, self.opening.limit), answer::RECOVERED)
    }

    /// The same, also of an opening that is alive: its guards say [`Error::NotInProgress`] then. Only right if what the operations guard
    /// refuses late writers by their [token](super::Guard::activation).
    ///
    /// # Errors
    ///
    /// Those of [`report`](Store::report).
    pub fn recover_even_alive(&self, worker: u32) -> Result<u32, Error> {
        self.counted(self.opening.handle.recover(worker, true, self.opening.limit), answer::RECOVERED)
    }

    /// Who this opening is in the journal and in reports: a number that is never given again.
    #[must_use]
    pub fn worker(&self) -> u32 {
        self.opening.handle.worker()
    }

    fn counted(&self, told: Answer, wanted: u32) -> Result<u32, Error> {
        match told.code {
            code if code == wanted => Ok(u32::try_from(told.number).unwrap_or(u32::MAX)),
            _ => Err(self.error(told)),
        }
    }

    fn text(&self, which: Text) -> Result<String, Error> {
        let (told, text) = self.opening.handle.text(which, self.opening.limit)?;
        match told.code {
            code::WRITTEN => Ok(text),
            _ => Err(self.error(told)),
        }
    }
}
