//! Tasks that wait: futures of any runtime.

use std::fmt;
use std::future::Future;
use std::ops::Deref;
use std::pin::Pin;
use std::sync::Arc;
use std::task::{Context, Poll};

use crate::guard::InProgress;
use crate::holders::Who;
use crate::state::Start;
use crate::waiting::{Stage, Turn};
use crate::{thread_number, Error, Guard, Op, OwnedGuard, Paths};

/// A start that a task wants, and how far it has come.
struct Entering<P: Deref<Target = Paths>> {
    /// None when it is over.
    paths: Option<P>,
    op: Op,
    /// The number of the thread that polled it first.
    worker: u32,
    turn: Turn,
}

impl<P: Deref<Target = Paths>> Entering<P> {
    fn new(paths: P, op: Op) -> Entering<P> {
        Entering { paths: Some(paths), op, worker: 0, turn: Turn::new() }
    }

    #[inline]
    fn poll(&mut self, context: &mut Context<'_>) -> Poll<Result<InProgress<P>, Error>> {
        let polled = match &self.paths {
            Some(paths) => paths.number(self.op).map(|operation| {
                if self.worker == 0 {
                    self.worker = thread_number();
                }
                let start = Start { worker: self.worker, operation, priority: self.op.priority(), who: Who::UNKNOWN };
                (paths.monitor.poll_enter(start, &mut self.turn, context), operation)
            }),
            None => panic!("an entry is polled again after it was ready"),
        };
        let (activation, operation) = match polled {
            Ok((Poll::Pending, _)) => return Poll::Pending,
            Ok((Poll::Ready(told), operation)) => (told, operation),
            Err(error) => (Err(error), 0),
        };
        match (self.paths.take(), activation) {
            (Some(paths), Ok(activation)) => Poll::Ready(Ok(InProgress::new(paths, activation, self.worker, operation))),
            (_, Err(error)) => Poll::Ready(Err(error)),
            (None, Ok(_)) => Poll::Pending,
        }
    }

    fn write(&self, name: &str, to: &mut fmt::Formatter<'_>) -> fmt::Result {
        to.debug_struct(name).field("stage", &self.turn.stage).finish()
    }
}

impl<P: Deref<Target = Paths>> Drop for Entering<P> {
    #[inline]
    fn drop(&mut self) {
        if let (Stage::Waits(place), Some(paths)) = (self.turn.stage, &self.paths) {
            paths.monitor.give_up(place);
        }
    }
}

/// What [`Paths::enter_async`] returns: a future of a [`Guard`].
///
/// It does nothing before it is polled. While it waits it has a place among those that wait. If it is dropped then, at whatever moment,
/// nothing was started, and its turn goes to the next. If it is forgotten (`std::mem::forget`), its place stays, a turn that it is offered
/// is lost until something else ends, and others may be kept waiting for it for 0.2 seconds each; so await it, or drop it.
///
/// # Panics
///
/// If it is polled again after it was ready. A panic of the log goes on in the poll that needed room.
#[must_use = "futures do nothing unless they are awaited"]
pub struct Enter<'a>(Entering<&'a Paths>);

/// What [`Paths::enter_async_owned`] returns: a future of an [`OwnedGuard`], which is `'static`. In all else it is an [`Enter`].
#[must_use = "futures do nothing unless they are awaited"]
pub struct EnterOwned(Entering<Arc<Paths>>);

impl<'a> Enter<'a> {
    pub(crate) fn new(paths: &'a Paths, op: Op) -> Enter<'a> {
        Enter(Entering::new(paths, op))
    }
}

impl EnterOwned {
    pub(crate) fn new(paths: Arc<Paths>, op: Op) -> EnterOwned {
        EnterOwned(Entering::new(paths, op))
    }
}

impl<'a> Future for Enter<'a> {
    type Output = Result<Guard<'a>, Error>;

    #[inline]
    fn poll(mut self: Pin<&mut Self>, context: &mut Context<'_>) -> Poll<Self::Output> {
        self.0.poll(context).map(|done| done.map(Guard))
    }
}

impl Future for EnterOwned {
    type Output = Result<OwnedGuard, Error>;

    #[inline]
    fn poll(mut self: Pin<&mut Self>, context: &mut Context<'_>) -> Poll<Self::Output> {
        self.0.poll(context).map(|done| done.map(OwnedGuard))
    }
}

impl fmt::Debug for Enter<'_> {
    fn fmt(&self, to: &mut fmt::Formatter<'_>) -> fmt::Result {
        self.0.write("Enter", to)
    }
}

impl fmt::Debug for EnterOwned {
    fn fmt(&self, to: &mut fmt::Formatter<'_>) -> fmt::Result {
        self.0.write("EnterOwned", to)
    }
}
