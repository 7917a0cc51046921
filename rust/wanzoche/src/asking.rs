//! What can be asked of paths, and what is written of them.

use crate::audit::{audit, Verdict};
use crate::exploring::{explore, Explored};
use crate::memory::{own, space};
use crate::state::told_outside;
use crate::sys::{code, Text};
use crate::{Blocked, Error, Op, Paths, Waiter};

impl Paths {
    /// What keeps the calling thread from an operation now: which path, who holds it, and what may begin next; or whom its start is
    /// withheld for. `None` if it may start. It may be otherwise by the time of a call that enters. Takes no line of the journal, and costs
    /// what a refusal of [`try_enter`](Paths::try_enter) costs.
    ///
    /// # Errors
    ///
    /// [`Error::ForeignOperation`].
    pub fn why(&self, op: Op) -> Result<Option<Blocked>, Error> {
        let start = self.start_of(op)?;
        let mut state = self.monitor.lock();
        let answer = state.may_start_when_open(start, None);
        match answer.code {
            code::CAN_START => Ok(None),
            _ => state.refused(start.operation, answer).map(Some).ok_or_else(|| Error::of_attempt(answer)),
        }
    }

    /// The number of the path that forbids an operation now; `None` if none does, also if it is withheld for one that waits. Takes no line
    /// of the journal, and costs one lock.
    ///
    /// # Errors
    ///
    /// [`Error::ForeignOperation`].
    pub fn blocked_by(&self, op: Op) -> Result<Option<u32>, Error> {
        let operation = self.number(op)?;
        let answer = self.monitor.lock().system.can_start(operation);
        match answer.code {
            code::CAN_START => Ok(None),
            code::BLOCKED => Ok(Some(u32::try_from(answer.number).unwrap_or(u32::MAX))),
            _ => Err(Error::of_attempt(answer)),
        }
    }

    /// How many threads and tasks wait for an operation: a thread that still gives way isn't counted. Costs a look at each that waits.
    ///
    /// # Errors
    ///
    /// [`Error::ForeignOperation`].
    pub fn waiting(&self, op: Op) -> Result<u32, Error> {
        let operation = self.number(op)?;
        Ok(self.monitor.lock().queue.waiting(operation))
    }

    /// All that wait, in their order: those of a higher priority first, and those of one priority in order of arrival.
    ///
    /// ```
    /// # use std::future::Future;
    /// # use std::pin::Pin;
    /// # use std::sync::Arc;
    /// # use std::task::{Context, Wake};
    /// use wanzoche::Paths;
    ///
    /// # struct Nothing;
    /// # impl Wake for Nothing { fn wake(self: Arc<Self>) {} }
    /// # let waker = Arc::new(Nothing).into();
    /// let paths = Paths::open("resource slot cell operation deposit, remove path deposit ; remove end end")?;
    /// let mut removal = paths.enter_async(paths.op("remove")?);
    /// assert!(Pin::new(&mut removal).poll(&mut Context::from_waker(&waker)).is_pending());
    /// for waiter in paths.waiters()? {
    ///     println!("{} has waited {:?}", waiter.operation, waiter.waited);
    /// }
    /// # assert_eq!(paths.waiters()?.len(), 1);
    /// # Ok::<(), wanzoche::Error>(())
    /// ```
    ///
    /// # Errors
    ///
    /// [`Error::OutOfMemory`].
    pub fn waiters(&self) -> Result<Vec<Waiter<'_>>, Error> {
        let state = self.monitor.lock();
        let number = state.queue.line().len();
        let mut waiters = Vec::new();
        space(&mut waiters, number)?;
        waiters.extend((0..number).map(|rank| state.ahead(rank).waiter(&self.names)));
        Ok(waiters)
    }

    /// The text of a path, as `deposit; remove`; `None` if there is no path with this number. They count from 0 in the order of the text.
    ///
    /// # Errors
    ///
    /// [`Error::OutOfMemory`].
    pub fn path(&self, number: u32) -> Result<Option<String>, Error> {
        self.names.path(number).map(own).transpose()
    }

    /// What can be started now, which path blocks what, and what is in progress: a line `startable` with operations, a line
    /// `blocked NAME P` for each other one with the first path that forbids it, a line `live A W NAME` for each that is in progress, with
    /// its activation and its [thread](crate::thread_number()), and `frozen yes` if nothing is in progress and nothing can ever start again, or
    /// `frozen no`. Nothing changes. The cost is a look at each path for each operation, and others wait meanwhile.
    ///
    /// # Errors
    ///
    /// [`Error::OutOfMemory`].
    pub fn report(&self) -> Result<String, Error> {
        self.text(Text::Report)
    }

    /// The lines of the journal since it was last begun anew: one for each start, use and finish, and for each that was refused.
    /// docs/journals.md of the repository has their form. The cost is that of the text, and others wait meanwhile.
    ///
    /// # Errors
    ///
    /// [`Error::NoJournal`] if no lines are kept ([`Options::without_journal`](crate::Options::without_journal)), and [`Error::OutOfMemory`].
    pub fn journal(&self) -> Result<String, Error> {
        self.text(Text::Journal)
    }

    /// Hands the lines so far to the log, if there is one, and begins a new journal, as at the end of a file. Without a journal it does
    /// nothing.
    ///
    /// # Errors
    ///
    /// [`Error::OutOfMemory`], if there is a log; then the lines stay.
    pub fn rotate(&self) -> Result<(), Error> {
        let told = self.monitor.lock().give_lines();
        told_outside(told)
    }

    /// Replays a journal under the declaration of these paths, as [`audit()`](crate::audit()) does.
    ///
    /// ```
    /// use wanzoche::{Paths, Verdict};
    ///
    /// let paths = Paths::open("resource till tally operation sell path sell end end")?;
    /// paths.enter(paths.op("sell")?)?.add(5)?;
    /// let journal = paths.journal()?;
    /// assert!(journal.contains(" use 0 add 5: used 5\n"));
    /// assert_eq!(paths.audit(&journal)?, Verdict::Sound);
    /// assert_eq!(paths.audit(&journal.replace("used 5", "used 4"))?, Verdict::Wrong { index: 1 });
    /// # Ok::<(), wanzoche::Error>(())
    /// ```
    ///
    /// To audit all that happened, join what the log got and [`journal`](Paths::journal). A journal without its front may be wrong where
    /// nothing was. The cost is that of a start, a use or a finish for each line; nobody waits for it.
    ///
    /// # Errors
    ///
    /// [`Error::Journal`] if the text isn't a journal, and [`Error::OutOfMemory`].
    pub fn audit(&self, journal: &str) -> Result<Verdict, Error> {
        audit(self.names.declaration(), journal)
    }

    /// Looks at every schedule of a script under the declaration of these paths, as [`explore()`](crate::explore()) does. Nothing of these
    /// paths changes, and nobody waits for it.
    ///
    /// # Errors
    ///
    /// [`Error::Script`] if the text isn't a script, and [`Error::OutOfMemory`].
    pub fn explore(&self, script: &str, most: u32) -> Result<Explored, Error> {
        explore(self.names.declaration(), script, most)
    }

    fn text(&self, which: Text) -> Result<String, Error> {
        self.monitor.lock().system.text(which)
    }
}
