//! Paths that threads and tasks wait on.

use std::fmt;
use std::sync::atomic::{AtomicU64, Ordering};
use std::sync::Arc;
use std::time::{Duration, Instant};

use crate::guard::InProgress;
use crate::holders::Who;
use crate::memory::own;
use crate::names::Names;
use crate::shared::Shared;
use crate::state::Start;
use crate::waiting::{Limit, Monitor};
use crate::{thread_number, Enter, EnterOwned, Error, Guard, Options, OwnedGuard};

/// An operation that [`Paths::op`] has resolved, with the priority of who waits for it. It is three numbers: copy it, and keep it where you
/// like.
#[derive(Clone, Copy, Debug, PartialEq, Eq, Hash)]
pub struct Op {
    number: u32,
    priority: u32,
    /// The paths that it belongs to.
    of: u64,
}

impl Op {
    /// The same operation for an entry of another priority than the usual one, which is 0: whoever waits for it stands before all that wait
    /// with a lower one, whenever they came. It interrupts nobody.
    ///
    /// ```
    /// use std::thread;
    /// use wanzoche::{Options, Paths};
    ///
    /// let paths = Options::new().yields(0).open("resource shelf cell operation take path take end end")?;
    /// let take = paths.op("take")?;
    /// thread::scope(|scope| {
    ///     let taken = paths.enter(take);
    ///     for (number, priority) in [(0, 0), (1, 7)] {
    ///         let paths = &paths;
    ///         scope.spawn(move || drop(paths.enter(take.with_priority(priority))));
    ///         while paths.waiting(take) == Ok(number) {
    ///             thread::yield_now();
    ///         }
    ///     }
    ///     let priorities: Vec<u32> = paths.waiters()?.iter().map(|waiter| waiter.priority).collect();
    ///     assert_eq!(priorities, [7, 0]);
    ///     drop(taken);
    ///     Ok::<(), wanzoche::Error>(())
    /// })
    /// # ?; Ok::<(), wanzoche::Error>(())
    /// ```
    #[must_use]
    pub fn with_priority(self, priority: u32) -> Op {
        Op { priority, ..self }
    }

    pub(crate) fn priority(self) -> u32 {
        self.priority
    }

    /// The operation with this number, of the paths or the store with this one.
    #[inline]
    pub(crate) fn at(of: u64, number: u32) -> Op {
        Op { number, priority: 0, of }
    }

    /// Its number there.
    #[inline]
    pub(crate) fn number_at(self, of: u64) -> Result<u32, Error> {
        if self.of == of {
            Ok(self.number)
        } else {
            Err(Error::ForeignOperation)
        }
    }
}

/// Paths that threads and tasks wait on: which operation may start when.
///
/// Threads share them by reference, as `&Paths` in scoped threads, in an `Arc` or in a `static`. When they are dropped, all memory is given
/// back.
///
/// ```
/// use std::sync::Arc;
/// use std::thread;
/// use wanzoche::Paths;
///
/// let paths = Arc::new(Paths::open("resource slot cell operation deposit, remove path deposit ; remove end end")?);
/// let (deposit, remove) = (paths.op("deposit")?, paths.op("remove")?);
/// let consumer = thread::spawn({
///     let paths = Arc::clone(&paths);
///     move || paths.enter(remove)?.look() // waits for the deposit
/// });
/// paths.enter(deposit)?.put(7)?;
/// assert_eq!(consumer.join().unwrap(), Ok(7));
/// # Ok::<(), wanzoche::Error>(())
/// ```
pub struct Paths {
    pub(crate) monitor: Monitor,
    pub(crate) names: Shared<Names>,
    pub(crate) id: u64,
    pub(crate) resumed: u64,
}

impl Paths {
    /// Opens paths of the declaration in a text, with the usual [`Options`].
    ///
    /// # Errors
    ///
    /// [`Error::Declaration`] if the text isn't a declaration, and [`Error::OutOfMemory`].
    pub fn open(text: &str) -> Result<Paths, Error> {
        Options::new().open(text)
    }

    /// Resolves the name of an operation, once. The cost is that of a look-up in a table.
    ///
    /// # Errors
    ///
    /// [`Error::UnknownOperation`] if no operation has this name, and [`Error::OutOfMemory`] if there is no memory to say so.
    pub fn op(&self, name: &str) -> Result<Op, Error> {
        let number = self.monitor.lock().system.operation(name);
        match number {
            Some(number) => Ok(self.op_of(number)),
            None => Err(Error::UnknownOperation { name: own(name)? }),
        }
    }

    /// The name of an operation.
    ///
    /// # Errors
    ///
    /// [`Error::ForeignOperation`].
    pub fn name(&self, op: Op) -> Result<&str, Error> {
        self.number(op).map(|operation| self.names.operation(operation))
    }

    /// Starts an operation, and waits until the paths admit it. It is in progress until the guard is dropped.
    ///
    /// Waits for ever for what never comes, as a thread that waits for what it holds itself. All that wait stand in one line, by
    /// [priority](Op::with_priority) and then by arrival, and whoever comes along doesn't pass those in whose way it would stand once they
    /// have waited for the [`patience`](crate::Options::patience). Costs one lock and a look at each path that names the operation, where
    /// nobody waits; to drop the guard costs the same. Allocates nothing, but for the text of the journal if there is a log and the journal
    /// is full, for a place if it waits and more than 64 wait already, and more than ever before, and likewise for lists of what is in
    /// progress where others wait.
    ///
    /// A task that runs on an executor never calls this, since it would hold up all tasks of its thread:
    /// [`enter_async`](Paths::enter_async) is for tasks.
    ///
    /// # Errors
    ///
    /// [`Error::ForeignOperation`], [`Error::Closed`], [`Error::NoRoom`] and [`Error::OutOfMemory`].
    #[inline]
    pub fn enter(&self, op: Op) -> Result<Guard<'_>, Error> {
        self.begin(op, Limit::Never).map(|(start, activation)| Guard(in_progress(self, start, activation)))
    }

    /// Starts an operation if the paths admit it now, and it isn't withheld for one that waits. Waits for no operation, but for the lock.
    ///
    /// A refusal looks at the operations of the path, and at 64 of those in progress, to say who holds it; for that it asks for no memory.
    ///
    /// # Errors
    ///
    /// [`Error::Blocked`] if a path forbids it, or it is withheld; else those of [`enter`](Paths::enter).
    #[inline]
    pub fn try_enter(&self, op: Op) -> Result<Guard<'_>, Error> {
        self.begin(op, Limit::Now).map(|(start, activation)| Guard(in_progress(self, start, activation)))
    }

    /// Starts an operation, and waits until the paths admit it, but no longer than this time from the call.
    ///
    /// # Errors
    ///
    /// [`Error::Timeout`] if a path still forbids it when the time is over, or it is withheld; else those of [`enter`](Paths::enter).
    ///
    /// ```
    /// use std::time::Duration;
    /// use wanzoche::{Error, Paths};
    ///
    /// let paths = Paths::open("resource slot cell operation deposit, remove path deposit ; remove end end")?;
    /// let refused = paths.enter_timeout(paths.op("remove")?, Duration::from_millis(10)).unwrap_err();
    /// assert!(matches!(&refused, Error::Timeout(why) if why.path() == 0));
    /// assert_eq!(
    ///     refused.to_string(),
    ///     "the time is over: remove is blocked: path 0 of slot: deposit; remove; in progress: nothing of it; may begin next: deposit"
    /// );
    /// # Ok::<(), Error>(())
    /// ```
    pub fn enter_timeout(&self, op: Op, time: Duration) -> Result<Guard<'_>, Error> {
        let begun = self.begin(op, limit_in(time)).map_err(Error::in_time);
        begun.map(|(start, activation)| Guard(in_progress(self, start, activation)))
    }

    /// As [`enter`](Paths::enter), with a guard that keeps the paths: for a thread that isn't scoped.
    ///
    /// ```
    /// use std::sync::Arc;
    /// use std::thread;
    /// use wanzoche::Paths;
    ///
    /// let paths = Arc::new(Paths::open("resource book cell operation read, write path { read } , write end end")?);
    /// let write = paths.op("write")?;
    /// let begins = thread::spawn(move || paths.enter_owned(write));
    /// let guard = begins.join().unwrap()?;
    /// drop(guard); // gives the memory of the paths back, too
    /// # Ok::<(), wanzoche::Error>(())
    /// ```
    ///
    /// # Errors
    ///
    /// Those of [`enter`](Paths::enter).
    #[inline]
    pub fn enter_owned(self: &Arc<Self>, op: Op) -> Result<OwnedGuard, Error> {
        let begun = self.begin(op, Limit::Never);
        begun.map(|(start, activation)| OwnedGuard(in_progress(Arc::clone(self), start, activation)))
    }

    /// As [`try_enter`](Paths::try_enter), with a guard that keeps the paths.
    ///
    /// # Errors
    ///
    /// Those of [`try_enter`](Paths::try_enter).
    #[inline]
    pub fn try_enter_owned(self: &Arc<Self>, op: Op) -> Result<OwnedGuard, Error> {
        let begun = self.begin(op, Limit::Now);
        begun.map(|(start, activation)| OwnedGuard(in_progress(Arc::clone(self), start, activation)))
    }

    /// As [`enter_timeout`](Paths::enter_timeout), with a guard that keeps the paths.
    ///
    /// # Errors
    ///
    /// Those of [`enter_timeout`](Paths::enter_timeout).
    pub fn enter_timeout_owned(self: &Arc<Self>, op: Op, time: Duration) -> Result<OwnedGuard, Error> {
        let begun = self.begin(op, limit_in(time)).map_err(Error::in_time);
        begun.map(|(start, activation)| OwnedGuard(in_progress(Arc::clone(self), start, activation)))
    }

    /// Starts an operation in a task, and waits until the paths admit it, without holding up the task's thread. The future is of any
    /// runtime; nothing happens before it is polled. To drop it while it waits starts nothing, and passes its turn on.
    ///
    /// Where somebody has been asked to start and hasn't yet done so, a task that comes along gives way once. A poll takes the lock of the
    /// paths, as each call does; a log is called within a poll, so let it be quick. To wait asks for memory as [`enter`](Paths::enter)
    /// does. A task whose start is withheld is woken by a thread of the crate's own if its turn doesn't come before a door opens
    /// ([`Options::patience`]).
    ///
    /// A task is known by its waker: what it has in progress doesn't run while it waits for more. Where tasks enter, what began while nobody
    /// waited isn't known to run, so whoever comes along may pass until that is over.
    ///
    /// # Errors
    ///
    /// The future ends with those of [`enter`](Paths::enter).
    ///
    /// ```
    /// # use std::future::Future;
    /// # use std::pin::Pin;
    /// # use std::sync::Arc;
    /// # use std::task::{Context, Poll, Wake};
    /// use wanzoche::Paths;
    ///
    /// async fn copy(paths: &Paths) -> Result<u64, wanzoche::Error> {
    ///     let read = paths.enter_async(paths.op("read")?).await?;
    ///     read.look()
    /// } // the read is over here
    /// # struct Nothing;
    /// # impl Wake for Nothing { fn wake(self: Arc<Self>) {} }
    /// # let paths = Paths::open("resource book cell operation read, write path { read } , write end end")?;
    /// # let waker = Arc::new(Nothing).into();
    /// # let polled = Box::pin(copy(&paths)).as_mut().poll(&mut Context::from_waker(&waker));
    /// # assert_eq!(polled, Poll::Ready(Ok(0)));
    /// # Ok::<(), wanzoche::Error>(())
    /// ```
    #[inline]
    pub fn enter_async(&self, op: Op) -> Enter<'_> {
        Enter::new(self, op)
    }

    /// As [`enter_async`](Paths::enter_async), with a future and a guard that keep the paths: for a task that is spawned.
    #[inline]
    pub fn enter_async_owned(self: &Arc<Self>, op: Op) -> EnterOwned {
        EnterOwned::new(Arc::clone(self), op)
    }

    /// The number of an operation of these paths.
    #[inline]
    pub(crate) fn number(&self, op: Op) -> Result<u32, Error> {
        op.number_at(self.id)
    }

    pub(crate) fn op_of(&self, number: u32) -> Op {
        Op::at(self.id, number)
    }

    #[inline]
    fn begin(&self, op: Op, limit: Limit) -> Result<(Start, u64), Error> {
        let start = self.start_of(op)?;
        self.monitor.enter(start, limit).map(|activation| (start, activation))
    }

    /// A start that the calling thread wants.
    #[inline]
    pub(crate) fn start_of(&self, op: Op) -> Result<Start, Error> {
        let worker = thread_number();
        Ok(Start { worker, operation: self.number(op)?, priority: op.priority, who: Who::thread(worker) })
    }

    /// Admits nothing any more. Whoever waits gets [`Error::Closed`], and so does each later call that enters. What is in progress stays so
    /// until its guard is dropped, and all else can still be asked. To close twice is to close once.
    ///
    /// ```
    /// use std::thread;
    /// use wanzoche::{Error, Paths};
    ///
    /// let paths = Paths::open("resource slot cell operation deposit, remove path deposit ; remove end end")?;
    /// let remove = paths.op("remove")?;
    /// thread::scope(|scope| {
    ///     let waits = scope.spawn(|| paths.enter(remove).map(drop));
    ///     paths.close();
    ///     assert_eq!(waits.join().unwrap(), Err(Error::Closed));
    /// });
    /// assert!(paths.is_closed());
    /// # Ok::<(), Error>(())
    /// ```
    pub fn close(&self) {
        self.monitor.close();
    }

    /// Whether the paths were closed.
    #[must_use]
    pub fn is_closed(&self) -> bool {
        self.monitor.lock().is_closed()
    }

    /// In how many bytes of the journal whole lines stood, behind which the paths go on ([`Options::resume`]): cut it there, and append to
    /// it. 0 if they go on behind none.
    #[must_use]
    pub fn resumed(&self) -> u64 {
        self.resumed
    }

    /// The guards of what was in progress at the end of the journal that the paths go on behind. Whoever has a guard may look at what was
    /// left half done, and drops it then. They are given once: a second call gets none.
    ///
    /// ```
    /// use wanzoche::Options;
    ///
    /// const BOOK: &str = "resource book cell operation read, write path { read } , write end end";
    /// let paths = Options::new().resume(BOOK, "7 start write: started 0\n")?;
    /// assert!(paths.try_enter(paths.op("read")?).is_err());
    /// for guard in paths.recover()? {
    ///     println!("{} by thread {} wasn't finished", paths.name(guard.op())?, guard.worker());
    /// }
    /// assert!(paths.try_enter(paths.op("read")?).is_ok());
    /// # Ok::<(), wanzoche::Error>(())
    /// ```
    ///
    /// # Errors
    ///
    /// [`Error::OutOfMemory`]; then another call gets them.
    pub fn recover(&self) -> Result<Vec<Guard<'_>>, Error> {
        let mut guards = Vec::new();
        let mut state = self.monitor.lock();
        guards.try_reserve_exact(state.lost.len()).map_err(|_| Error::OutOfMemory)?;
        let lost = std::mem::take(&mut state.lost);
        drop(state);
        guards.extend(lost.iter().map(|each| Guard(InProgress::new(self, each.number, each.worker, each.operation))));
        Ok(guards)
    }
}

#[inline]
fn in_progress<P: std::ops::Deref<Target = Paths>>(paths: P, start: Start, activation: u64) -> InProgress<P> {
    InProgress::new(paths, activation, start.worker, start.operation)
}

/// A number that no other paths and no store of this process have.
pub(crate) fn next_id() -> u64 {
    static LAST: AtomicU64 = AtomicU64::new(0);
    LAST.fetch_add(1, Ordering::Relaxed)
}

/// Until when a thread waits that begins now.
fn limit_in(time: Duration) -> Limit {
    match Instant::now().checked_add(time) {
        Some(end) if !time.is_zero() => Limit::Until(end),
        Some(_) => Limit::Now,
        None => Limit::Never,
    }
}

impl fmt::Debug for Paths {
    fn fmt(&self, to: &mut fmt::Formatter<'_>) -> fmt::Result {
        to.debug_struct("Paths").finish_non_exhaustive()
    }
}
