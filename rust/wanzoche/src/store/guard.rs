//! Operations in progress at a store.

use std::fmt;
use std::ops::Deref;
use std::sync::Arc;

use super::entry::Entry;
use super::library::answer;
use super::opening::Opening;
use super::Store;
use crate::shared::Shared;
use crate::sys::{code, Verb};
use crate::{Error, Op};

/// How the end of an operation was answered.
#[derive(Clone, Copy, Debug, PartialEq, Eq)]
pub enum Left {
    /// It is over, and on the disk if the store is synced.
    Finished,
    /// Nobody had a turn for it in time. It is written down, and whoever has the next turn finishes it, also if this process is dead by
    /// then.
    Owed,
}

/// An operation in progress, which is left when this is dropped, and a way to its store.
pub(super) struct Held<S: Deref<Target = Store>> {
    store: S,
    activation: u64,
    operation: u32,
    /// That of a task, which is left on another thread.
    entry: Option<Shared<Entry>>,
    is_over: bool,
}

impl<S: Deref<Target = Store>> Held<S> {
    pub(super) fn new(store: S, activation: u64, operation: u32, entry: Option<Shared<Entry>>) -> Held<S> {
        Held { store, activation, operation, entry, is_over: false }
    }

    fn leave(&mut self) -> Result<Left, Error> {
        let opening = &self.store.opening;
        let told = opening.handle.leave(self.activation, opening.limit);
        match told.code {
            code::FINISHED | answer::OWED => {
                self.is_over = true;
                Ok(if told.code == code::FINISHED { Left::Finished } else { Left::Owed })
            }
            _ => Err(self.store.error(told)),
        }
    }

    fn use_device(&self, verb: Verb, number: u64) -> Result<u64, Error> {
        let opening = &self.store.opening;
        let told = opening.handle.use_device(self.activation, verb, number, opening.limit);
        match told.code {
            code::USED => Ok(told.number),
            _ => Err(self.store.error(told)),
        }
    }

    fn write(&self, name: &str, to: &mut fmt::Formatter<'_>) -> fmt::Result {
        to.debug_struct(name).field("activation", &self.activation).finish_non_exhaustive()
    }
}

impl<S: Deref<Target = Store>> Drop for Held<S> {
    fn drop(&mut self) {
        let opening = &self.store.opening;
        match (self.is_over, self.entry.take()) {
            (true, None) => {}
            (true, Some(_)) => opening.forget(),
            (false, None) => Opening::leave_now(opening, self.activation),
            (false, Some(entry)) => Opening::leave_aside(opening, entry, self.activation),
        }
    }
}

/// The calls of both guards.
macro_rules! calls {
    ($guard:ty, $name:literal) => {
        impl $guard {
            /// The number of this operation in the journal. It rises with each start, over all processes, and is never given again: the
            /// token by which a resource refuses a late writer.
            #[must_use]
            pub fn activation(&self) -> u64 {
                self.0.activation
            }

            /// Which operation it is, with the usual priority: [`Store::name`] has its name.
            #[must_use]
            pub fn op(&self) -> Op {
                self.0.store.op_of(self.0.operation)
            }

            /// Ends the operation, and says how that went. To drop the guard does no more then.
            ///
            /// # Errors
            ///
            /// [`Error::NotInProgress`] if others have finished it, by [`Store::recover_even_alive`]. After [`Error::System`], as on a full
            /// disk, after [`Error::Late`] and [`Error::OutOfMemory`] it is still in progress: leave it again, or drop it. Else those of
            /// [`Store::report`].
            pub fn leave(&mut self) -> Result<Left, Error> {
                self.0.leave()
            }

            /// Puts a number into the resource's cell or queue: returns the cell's number before, or how many the queue has now.
            ///
            /// # Errors
            ///
            /// [`Error::Full`], [`Error::NotOffered`] and [`Error::NoRoom`], and [`Error::NotInProgress`] if others have finished the
            /// operation. Else those of [`Store::report`].
            pub fn put(&self, number: u64) -> Result<u64, Error> {
                self.0.use_device(Verb::Put, number)
            }

            /// Takes the first number out of the resource's queue, and returns it.
            ///
            /// # Errors
            ///
            /// [`Error::Empty`], and those of [`put`](Self::put) but `Full`.
            pub fn take(&self) -> Result<u64, Error> {
                self.0.use_device(Verb::Take, 0)
            }

            /// The number in the resource's cell or tally, or the first of its queue, which stays.
            ///
            /// # Errors
            ///
            /// [`Error::Empty`], and those of [`put`](Self::put) but `Full`.
            pub fn look(&self) -> Result<u64, Error> {
                self.0.use_device(Verb::Look, 0)
            }

            /// Adds to the resource's tally, and returns the new total.
            ///
            /// # Errors
            ///
            /// [`Error::Overflow`], and those of [`put`](Self::put) but `Full`.
            pub fn add(&self, number: u64) -> Result<u64, Error> {
                self.0.use_device(Verb::Add, number)
            }
        }

        impl fmt::Debug for $guard {
            fn fmt(&self, to: &mut fmt::Formatter<'_>) -> fmt::Result {
                self.0.write($name, to)
            }
        }
    };
}

/// An operation in progress at a store. It is left when the guard is dropped, also by a panic.
///
/// A drop waits for its turn for no longer than 45 ms, and for the disk. It can't say how that went, and nothing is lost: what was owed is
/// finished by whoever has the next turn, and what couldn't be written, as on a full disk, a thread of the crate's own leaves again until
/// it is over. Where the process dies before, others finish it as that of the dead. [`leave`](Guard::leave) says how it went.
///
/// A guard of [`Store::enter_async`] is left by a thread of the crate's own, so that its drop holds up no task: the operation is over soon
/// behind the drop.
///
/// Any thread may use and drop it. One that is forgotten (`std::mem::forget`) leaves its operation in progress until the store is dropped.
#[must_use = "the operation is over when the guard is dropped"]
pub struct Guard<'a>(pub(super) Held<&'a Store>);

/// An operation in progress that keeps its store, so that it is `'static`, for threads and tasks that aren't scoped. In all else it is a
/// [`Guard`].
#[must_use = "the operation is over when the guard is dropped"]
pub struct OwnedGuard(pub(super) Held<Arc<Store>>);

calls!(Guard<'_>, "Guard");
calls!(OwnedGuard, "OwnedGuard");
