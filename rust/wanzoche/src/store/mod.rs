//! Paths that the processes of a machine share, over a file: a [`Store`].
//!
//! Only for Linux with 64 bits, on a disk of the machine. docs/store.md of the repository says what lies in the folder, and what holds
//! when a process dies; docs/rust.md how it is used from here.
//!
//! Any number of processes open the same file, in Rust, Go or C. Then an operation begins in any of them exactly when the paths allow it,
//! whatever is in progress in the others:
//!
//! ```
//! use std::time::Duration;
//! use wanzoche::{Error, Paths};
//! # let folder = std::env::temp_dir().join(format!("wanzoche-store-{}", std::process::id()));
//! # std::fs::create_dir_all(&folder).unwrap();
//! # let file = folder.join("pool.log");
//!
//! const POOL: &str = "resource pool cell operation query, backup path { query : 3 } , backup end end";
//! let pool = Paths::open_store(POOL, &file)?; // as /var/lib/app/pool.log
//! let (query, backup) = (pool.op("query")?, pool.op("backup")?);
//! {
//!     let _connection = pool.enter(query)?; // at most three at once, in all processes together
//!     match pool.enter_timeout(backup, Duration::from_millis(10)) {
//!         Err(Error::Hindered(why)) => assert_eq!(why.to_string(), "backup is blocked: path 0 of pool: { query: 3 }, backup"),
//!         other => panic!("{other:?}"),
//!     }
//! }
//! let _alone = pool.enter(backup)?;
//! # std::fs::remove_dir_all(&folder).unwrap();
//! # Ok::<(), Error>(())
//! ```

mod asking;
mod disk;
mod entering;
mod entry;
mod guard;
mod hindrance;
#[allow(unsafe_code)]
pub(crate) mod library;
mod listening;
mod opening;
mod options;
#[allow(unsafe_code)]
mod steps;

use std::fmt;
use std::path::Path;
use std::sync::Arc;
use std::time::Duration;

pub use entering::{Enter, EnterOwned};
pub use guard::{Guard, Left, OwnedGuard};
pub use hindrance::Hindrance;
pub use options::Options;

use crate::names::Names;
use crate::shared::Shared;
use crate::sys::{code, Answer};
use crate::{Error, Op, Paths};
use guard::Held;
use hindrance::By;
use opening::Opening;

/// Paths that the processes of a machine share, over a file. [`Paths::open_store`] and [`Options::open`] open it.
///
/// It is a type of its own, and not a [`Paths`], since what can go wrong is another: the disk may be full, another process may have the
/// file or be stopped, and an end may be owed. Threads share it by reference, in an `Arc` or in a `static`. When it is dropped, what it
/// has in progress is finished. The child of a fork has no part in it: each call there says [`Error::Forked`], and it may open the store
/// itself.
///
/// All that wait stand in one order, over all processes and threads, by [priority](Op::with_priority) and then by arrival; once one has
/// waited for the [`patience`](Options::patience), nobody passes in whose way it would stand.
pub struct Store {
    opening: Shared<Opening>,
    names: Shared<Names>,
    id: u64,
}

impl Paths {
    /// Opens the store whose journal is this file, with the usual [`store::Options`](Options): paths of the declaration in the text, for
    /// all processes that open it. The file is made if there is none.
    ///
    /// # Errors
    ///
    /// Those of [`store::Options::open`](Options::open).
    pub fn open_store(text: &str, file: impl AsRef<Path>) -> Result<Store, Error> {
        Options::new().open(text, file)
    }
}

impl Store {
    /// Resolves the name of an operation, once.
    ///
    /// # Errors
    ///
    /// [`Error::UnknownOperation`], and [`Error::OutOfMemory`].
    pub fn op(&self, name: &str) -> Result<Op, Error> {
        match self.opening.handle.operation(name) {
            Some(number) => Ok(self.op_of(number)),
            None => Err(Error::UnknownOperation { name: crate::memory::own(name)? }),
        }
    }

    /// The name of an operation.
    ///
    /// # Errors
    ///
    /// [`Error::ForeignOperation`].
    pub fn name(&self, op: Op) -> Result<&str, Error> {
        self.number(op).map(|operation| self.names.operation(operation))
    }

    /// The text of a path, as `{ query: 3 }, backup`; `None` if there is no path with this number.
    #[must_use]
    pub fn path(&self, number: u32) -> Option<&str> {
        self.names.path(number)
    }

    /// Starts an operation, and waits until the paths admit it. It is in progress until the guard is dropped. If the store is synced, its
    /// line is on the disk then.
    ///
    /// Waits for ever for what never comes. What the thread has in progress while it waits isn't waited for. A task calls
    /// [`enter_async`](Store::enter_async) instead.
    ///
    /// # Errors
    ///
    /// [`Error::ForeignOperation`] and [`Error::NoRoom`]: 65,535 operations are in progress, of all processes. Else those of
    /// [`report`](Store::report), but for `Late`. Nothing was started then; only after [`Error::Unsynced`] nobody can say what is on the
    /// disk.
    pub fn enter(&self, op: Op) -> Result<Guard<'_>, Error> {
        self.begin(op, -1).map(|(operation, activation)| Guard(Held::new(self, activation, operation, None)))
    }

    /// Starts an operation if the paths admit it now, and it isn't withheld for one who waits.
    ///
    /// # Errors
    ///
    /// [`Error::Hindered`]; [`Error::Late`] if no turn was to be had within 45 ms; else those of [`enter`](Store::enter).
    pub fn try_enter(&self, op: Op) -> Result<Guard<'_>, Error> {
        self.begin(op, 0).map(|(operation, activation)| Guard(Held::new(self, activation, operation, None)))
    }

    /// Starts an operation, and waits until the paths admit it, but no longer than this time from the call and 60 ms, whoever is stopped or
    /// dies. It counts in milliseconds, of which a part is one.
    ///
    /// # Errors
    ///
    /// [`Error::Hindered`] if the time is over, or [`Error::Late`] if no turn was to be had; else those of [`enter`](Store::enter).
    pub fn enter_timeout(&self, op: Op, time: Duration) -> Result<Guard<'_>, Error> {
        self.begin(op, limit_of(time)).map(|(operation, activation)| Guard(Held::new(self, activation, operation, None)))
    }

    /// As [`enter`](Store::enter), with a guard that keeps the store: for a thread that isn't scoped.
    ///
    /// # Errors
    ///
    /// Those of [`enter`](Store::enter).
    pub fn enter_owned(self: &Arc<Self>, op: Op) -> Result<OwnedGuard, Error> {
        self.begin(op, -1).map(|(operation, activation)| OwnedGuard(Held::new(Arc::clone(self), activation, operation, None)))
    }

    /// As [`try_enter`](Store::try_enter), with a guard that keeps the store.
    ///
    /// # Errors
    ///
    /// Those of [`try_enter`](Store::try_enter).
    pub fn try_enter_owned(self: &Arc<Self>, op: Op) -> Result<OwnedGuard, Error> {
        self.begin(op, 0).map(|(operation, activation)| OwnedGuard(Held::new(Arc::clone(self), activation, operation, None)))
    }

    /// As [`enter_timeout`](Store::enter_timeout), with a guard that keeps the store.
    ///
    /// # Errors
    ///
    /// Those of [`enter_timeout`](Store::enter_timeout).
    pub fn enter_timeout_owned(self: &Arc<Self>, op: Op, time: Duration) -> Result<OwnedGuard, Error> {
        let begun = self.begin(op, limit_of(time));
        begun.map(|(operation, activation)| OwnedGuard(Held::new(Arc::clone(self), activation, operation, None)))
    }

    /// Starts an operation in a task, and waits until the paths admit it. The future is of any runtime.
    ///
    /// A turn at the file would hold up the task's thread, so a thread of the crate's own begins the entry in its place, and leaves what
    /// the guard had: one for the whole opening, however many tasks wait, and a second one that waits for the disk, if the store is synced.
    /// Each ends after a second with nothing to do. Of all processes 1,024 may wait in order; others ask again and again, so let many
    /// thousands of tasks wait at [`Paths`] of the process first.
    ///
    /// What a task has in progress counts as running while it waits for more. So where others wait for that, it may wait for up to 0.2
    /// seconds, until a door opens. The other calls of a guard wait for the file: a task calls them on a thread where it may wait.
    ///
    /// # Errors
    ///
    /// The future ends with those of [`enter`](Store::enter), and with [`Error::System`] if there is no thread.
    pub fn enter_async(&self, op: Op) -> Enter<'_> {
        Enter::new(self, op)
    }

    /// As [`enter_async`](Store::enter_async), with a future and a guard that keep the store: for a task that is spawned.
    pub fn enter_async_owned(self: &Arc<Self>, op: Op) -> EnterOwned {
        EnterOwned::new(Arc::clone(self), op)
    }

    /// Ends this opening, as to drop it does, and says how that went. What is in progress, of guards that were forgotten, is finished.
    ///
    /// # Errors
    ///
    /// Those of [`report`](Store::report): not all could be finished or synced in time. Others finish what is left, as that of the dead.
    pub fn close(self) -> Result<(), Error> {
        let told = self.opening.end(self.opening.limit);
        match told.code {
            code::CLOSED => Ok(()),
            _ => Err(Error::of_store(told, String::new())),
        }
    }

    fn number(&self, op: Op) -> Result<u32, Error> {
        op.number_at(self.id)
    }

    fn op_of(&self, number: u32) -> Op {
        Op::at(self.id, number)
    }

    /// Starts an operation within a limit: which it is, and its activation.
    fn begin(&self, op: Op, limit: i64) -> Result<(u32, u64), Error> {
        let operation = self.number(op)?;
        let told = self.opening.handle.enter(operation, op.priority(), limit);
        self.begun(operation, told, self.opening.handle.words(told)).map(|activation| (operation, activation))
    }

    fn begun(&self, operation: u32, told: Answer, words: String) -> Result<u64, Error> {
        match told.code {
            code::STARTED => Ok(told.number),
            _ => Err(self.hindrance(operation, told).map_or_else(|| Error::of_store(told, words), Error::Hindered)),
        }
    }

    fn hindrance(&self, operation: u32, told: Answer) -> Option<Hindrance> {
        let number = u32::try_from(told.number).unwrap_or(u32::MAX);
        let by = match told.code {
            code::BLOCKED => By::Path(number),
            code::WITHHELD => By::Waiter(number),
            _ => return None,
        };
        Some(Hindrance { names: self.names.clone(), operation, by })
    }

    /// The error of what this thread was answered last.
    fn error(&self, told: Answer) -> Error {
        Error::of_store(told, self.opening.handle.words(told))
    }
}

impl Drop for Store {
    fn drop(&mut self) {
        self.opening.end(0);
    }
}

impl fmt::Debug for Store {
    fn fmt(&self, to: &mut fmt::Formatter<'_>) -> fmt::Result {
        to.debug_struct("Store").field("worker", &self.worker()).finish_non_exhaustive()
    }
}

/// A time in milliseconds, of which a part is one, for the library; -1 where no clock reaches it.
fn limit_of(time: Duration) -> i64 {
    let milliseconds = time.as_nanos().saturating_add(999_999) / 1_000_000;
    i64::try_from(milliseconds).unwrap_or(-1)
}
