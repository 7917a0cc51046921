//! Operations in progress.

use std::fmt;
use std::ops::Deref;
use std::sync::Arc;

use crate::state::told_outside;
use crate::sys::{code, Verb};
use crate::{Error, Op, Paths};

/// An operation in progress, which is finished when this is dropped, and a way to its paths.
pub(crate) struct InProgress<P: Deref<Target = Paths>> {
    paths: P,
    activation: u64,
    worker: u32,
    operation: u32,
}

impl<P: Deref<Target = Paths>> InProgress<P> {
    #[inline]
    pub(crate) fn new(paths: P, activation: u64, worker: u32, operation: u32) -> InProgress<P> {
        InProgress { paths, activation, worker, operation }
    }

    fn use_device(&self, verb: Verb, number: u64) -> Result<u64, Error> {
        let told = {
            let mut state = self.paths.monitor.lock();
            let answer = state.system.use_device(self.worker, self.activation, verb, number);
            state.again_in_room(answer, |state| state.system.use_device(self.worker, self.activation, verb, number))
        };
        let answer = told_outside(told)?;
        match answer.code {
            code::USED => Ok(answer.number),
            _ => Err(Error::of_attempt(answer)),
        }
    }

    fn write(&self, name: &str, to: &mut fmt::Formatter<'_>) -> fmt::Result {
        to.debug_struct(name).field("activation", &self.activation).field("worker", &self.worker).finish()
    }
}

impl<P: Deref<Target = Paths>> Drop for InProgress<P> {
    #[inline]
    fn drop(&mut self) {
        self.paths.monitor.leave(self.worker, self.activation);
    }
}

/// The calls of both guards.
macro_rules! calls {
    ($guard:ty, $name:literal) => {
        impl $guard {
            /// The number of this operation in the journal and in reports. They count from 0.
            #[must_use]
            pub fn activation(&self) -> u64 {
                self.0.activation
            }

            /// Which operation it is, with the usual priority: [`Paths::name`] has its name.
            #[must_use]
            pub fn op(&self) -> Op {
                self.0.paths.op_of(self.0.operation)
            }

            /// The [number](crate::thread_number()) of the thread that began it, by which the journal and reports name it.
            #[must_use]
            pub fn worker(&self) -> u32 {
                self.0.worker
            }

            /// Puts a number into the resource's cell or queue: returns the cell's number before, or how many the queue has now.
            ///
            /// # Errors
            ///
            /// [`Error::Full`] and [`Error::NotOffered`]; [`Error::NoRoom`], and, if there is a log, [`Error::OutOfMemory`]. Nothing
            /// changed in the device then.
            pub fn put(&self, number: u64) -> Result<u64, Error> {
                self.0.use_device(Verb::Put, number)
            }

            /// Takes the first number out of the resource's queue, and returns it.
            ///
            /// # Errors
            ///
            /// [`Error::Empty`], and those of [`put`](Self::put) but `Full`.
            pub fn take(&self) -> Result<u64, Error> {
                self.0.use_device(Verb::Take, 0)
            }

            /// The number in the resource's cell or tally, or the first of its queue, which stays.
            ///
            /// # Errors
            ///
            /// [`Error::Empty`], and those of [`put`](Self::put) but `Full`.
            pub fn look(&self) -> Result<u64, Error> {
                self.0.use_device(Verb::Look, 0)
            }

            /// Adds to the resource's tally, and returns the new total.
            ///
            /// # Errors
            ///
            /// [`Error::Overflow`], and those of [`put`](Self::put) but `Full`.
            pub fn add(&self, number: u64) -> Result<u64, Error> {
                self.0.use_device(Verb::Add, number)
            }
        }

        impl fmt::Debug for $guard {
            fn fmt(&self, to: &mut fmt::Formatter<'_>) -> fmt::Result {
                self.0.write($name, to)
            }
        }
    };
}

/// An operation in progress. It is finished when the guard is dropped, also by a panic.
///
/// Any thread may use and drop it: a guard is `Send` and `Sync`, since the library doesn't ask which thread finishes, and whoever takes
/// over a piece of work takes over its guard. The report and the journal go on naming the thread that began it. A guard that is
/// forgotten (`std::mem::forget`) leaves its operation in progress for ever.
///
/// A guard that nobody keeps guards nothing, so the compiler warns of it:
///
/// ```compile_fail
/// #![deny(unused_must_use)]
/// # fn main() -> Result<(), wanzoche::Error> {
/// let paths = wanzoche::Paths::open("resource shelf cell operation take path take end end")?;
/// paths.enter(paths.op("take")?)?; // unused `Guard` that must be used
/// # Ok(())
/// # }
/// ```
#[must_use = "the operation is over when the guard is dropped"]
pub struct Guard<'a>(pub(crate) InProgress<&'a Paths>);

/// An operation in progress that keeps its paths, so that it lives as long as you like: it is `'static`, for threads and tasks that aren't
/// scoped. In all else it is a [`Guard`].
#[must_use = "the operation is over when the guard is dropped"]
pub struct OwnedGuard(pub(crate) InProgress<Arc<Paths>>);

calls!(Guard<'_>, "Guard");
calls!(OwnedGuard, "OwnedGuard");
