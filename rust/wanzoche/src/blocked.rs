//! Which path forbids an operation, who holds it, and what may begin next; or whom a start is withheld for.

use std::fmt;
use std::time::Duration;

use crate::names::{Names, Operations};
use crate::shared::Shared;

/// So many of those that hold a path are named.
pub(crate) const NAMED: usize = 4;

/// A path forbids an operation: which one, what of it was in progress just then, and what could have begun. Or no path does, but the start
/// is withheld for one that waits, and then [`behind`](Blocked::behind) says for whom.
///
/// It comes with [`Error::Blocked`](crate::Error::Blocked) and [`Error::Timeout`](crate::Error::Timeout), and from
/// [`Paths::why`](crate::Paths::why). It says it in words, and has each part by a call. It is made without asking for memory.
///
/// ```
/// use wanzoche::{Error, Paths};
///
/// let paths = Paths::open("resource slot cell operation deposit, remove path deposit ; remove end end")?;
/// let (deposit, remove) = (paths.op("deposit")?, paths.op("remove")?);
/// let why = paths.why(remove)?.expect("nothing is in the slot");
/// assert_eq!(why.to_string(), "remove is blocked: path 0 of slot: deposit; remove; in progress: nothing of it; may begin next: deposit");
///
/// let _deposits = paths.enter(deposit)?;
/// let why = match paths.try_enter(remove) {
///     Err(Error::Blocked(why)) => why,
///     other => panic!("the deposit isn't over: {other:?}"),
/// };
/// assert_eq!((why.operation(), why.path(), why.resource(), why.text()), ("remove", 0, "slot", "deposit; remove"));
/// let holder = why.in_progress().next().expect("the deposit");
/// assert_eq!((holder.operation, holder.thread), ("deposit", wanzoche::thread_number()));
/// # Ok::<(), Error>(())
/// ```
#[derive(Clone)]
#[must_use = "it says why the operation wasn't started"]
pub struct Blocked {
    pub(crate) names: Shared<Names>,
    pub(crate) operation: u32,
    pub(crate) path: u32,
    pub(crate) holders: Holders,
    pub(crate) may_begin: Operations,
    pub(crate) behind: Option<Ahead>,
}

/// One that waits, by numbers.
#[derive(Clone, Copy, Debug, PartialEq, Eq)]
pub(crate) struct Ahead {
    pub(crate) operation: u32,
    pub(crate) thread: u32,
    pub(crate) is_task: bool,
    pub(crate) priority: u32,
    /// For how many nanoseconds.
    pub(crate) waited: u64,
}

impl Ahead {
    /// The same with its name.
    pub(crate) fn waiter(self, names: &Names) -> Waiter<'_> {
        let Ahead { operation, thread, is_task, priority, waited } = self;
        Waiter { operation: names.operation(operation), thread, is_task, priority, waited: Duration::from_nanos(waited) }
    }
}

/// One that waits. [`Paths::waiters`](crate::Paths::waiters) has all.
#[derive(Clone, Copy, Debug, PartialEq, Eq)]
#[non_exhaustive]
pub struct Waiter<'a> {
    /// The name of the operation that it waits for.
    pub operation: &'a str,
    /// The [number](crate::thread_number()) of the thread that waits, or of the one that polled the task first.
    pub thread: u32,
    /// Whether it is a task.
    pub is_task: bool,
    /// Its [priority](crate::Op::with_priority).
    pub priority: u32,
    /// How long it has waited.
    pub waited: Duration,
}

/// What of a path is in progress: the first few operations with their threads, and how many others.
#[derive(Clone, Copy, Debug, Default, PartialEq, Eq)]
pub(crate) struct Holders {
    pub(crate) named: [(u32, u32); NAMED],
    pub(crate) in_all: u32,
    /// Whether so much was in progress that not all of it was looked at.
    pub(crate) are_more: bool,
}

/// An operation in progress that stands in the path.
#[derive(Clone, Copy, Debug, PartialEq, Eq)]
pub struct Holder<'a> {
    /// Its name.
    pub operation: &'a str,
    /// The [number](crate::thread_number()) of the thread that began it.
    pub thread: u32,
}

impl Blocked {
    /// The name of the operation that may not begin.
    #[must_use]
    pub fn operation(&self) -> &str {
        self.names.operation(self.operation)
    }

    /// The first path that forbids it, counted from 0 in the order of the declaration. If it is withheld: the first that names both it and
    /// the operation that is waited for.
    #[must_use]
    pub fn path(&self) -> u32 {
        self.path
    }

    /// What this path says, as `deposit; remove`.
    #[must_use]
    pub fn text(&self) -> &str {
        self.names.path(self.path).unwrap_or("")
    }

    /// The resource whose path it is.
    #[must_use]
    pub fn resource(&self) -> &str {
        self.names.resource(self.path)
    }

    /// What of the path was in progress, in the order in which it began: the first four. [`Paths::report`](crate::Paths::report) has all.
    pub fn in_progress(&self) -> impl Iterator<Item = Holder<'_>> {
        let named = self.holders.named.iter().take(self.holders.in_all as usize);
        named.map(|(operation, thread)| Holder { operation: self.names.operation(*operation), thread: *thread })
    }

    /// How many operations of the path were in progress besides those. Where more than 64 operations were in progress at these paths,
    /// those beyond aren't counted.
    #[must_use]
    pub fn others(&self) -> u32 {
        self.holders.in_all.saturating_sub(NAMED as u32)
    }

    /// The operations of the path that no path forbade.
    pub fn may_begin(&self) -> impl Iterator<Item = &str> {
        self.may_begin.iter().map(|operation| self.names.operation(operation))
    }

    /// The one that waits for which the start is withheld; `None` if a path forbids it.
    #[must_use]
    pub fn behind(&self) -> Option<Waiter<'_>> {
        self.behind.map(|ahead| ahead.waiter(&self.names))
    }

    fn write_holders(&self, to: &mut fmt::Formatter<'_>) -> fmt::Result {
        let mut sign = " ";
        for holder in self.in_progress() {
            write!(to, "{sign}{} by thread {}", holder.operation, holder.thread)?;
            sign = ", ";
        }
        match (self.others(), self.holders.are_more) {
            (0, false) => Ok(()),
            (0, true) => to.write_str(", and others"),
            (others, false) => write!(to, " and {others} others"),
            (others, true) => write!(to, " and at least {others} others"),
        }
    }

    fn write_next(&self, to: &mut fmt::Formatter<'_>) -> fmt::Result {
        let mut sign = " ";
        for operation in self.may_begin() {
            write!(to, "{sign}{operation}")?;
            sign = ", ";
        }
        if self.may_begin == Operations::default() {
            to.write_str(" nothing")?;
        }
        Ok(())
    }
}

impl fmt::Display for Blocked {
    fn fmt(&self, to: &mut fmt::Formatter<'_>) -> fmt::Result {
        match self.behind() {
            Some(Waiter { operation, thread, is_task, waited, .. }) => {
                let (own, a_task, seconds) = (self.operation(), if is_task { "a task of " } else { "" }, waited.as_secs_f64());
                write!(to, "{own} is behind {operation} by {a_task}thread {thread}, which has waited {seconds:.1} s:")?;
            }
            None => write!(to, "{} is blocked:", self.operation())?,
        }
        write!(to, " path {} of {}: {}; in progress:", self.path, self.resource(), self.text())?;
        if self.holders.in_all > 0 {
            return self.write_holders(to);
        }
        if self.holders.are_more {
            return to.write_str(" more than is looked at");
        }
        to.write_str(" nothing of it; may begin next:")?;
        self.write_next(to)
    }
}

impl fmt::Debug for Blocked {
    fn fmt(&self, to: &mut fmt::Formatter<'_>) -> fmt::Result {
        write!(to, "Blocked({:?})", self.to_string())
    }
}

impl PartialEq for Blocked {
    fn eq(&self, other: &Blocked) -> bool {
        let own = (self.operation, self.path, self.holders, self.may_begin, self.behind);
        own == (other.operation, other.path, other.holders, other.may_begin, other.behind)
            && self.names.declaration() == other.names.declaration()
    }
}

impl Eq for Blocked {}
