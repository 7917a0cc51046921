//! Tasks that wait at a store.

use std::fmt;
use std::future::Future;
use std::ops::Deref;
use std::pin::Pin;
use std::sync::Arc;
use std::task::{Context, Poll};

use super::entry::Entry;
use super::guard::Held;
use super::opening::Opening;
use super::{Guard, OwnedGuard, Store};
use crate::shared::Shared;
use crate::{Error, Op};

/// An entry that a task wants, and how far it has come.
struct Entering<S: Deref<Target = Store>> {
    /// None when it is over.
    store: Option<S>,
    op: Op,
    /// None before it is polled.
    entry: Option<Shared<Entry>>,
}

impl<S: Deref<Target = Store>> Entering<S> {
    fn new(store: S, op: Op) -> Entering<S> {
        Entering { store: Some(store), op, entry: None }
    }

    fn poll(&mut self, context: &mut Context<'_>) -> Poll<Result<Held<S>, Error>> {
        let polled = match &self.store {
            Some(store) => told(store, self.op, &mut self.entry, context),
            None => panic!("an entry is polled again after it was ready"),
        };
        let begun = match polled {
            Poll::Pending => return Poll::Pending,
            Poll::Ready(begun) => begun,
        };
        match (self.store.take(), begun) {
            (Some(store), Ok((operation, activation))) => Poll::Ready(Ok(Held::new(store, activation, operation, self.entry.take()))),
            (_, Err(error)) => Poll::Ready(Err(error)),
            (None, Ok(_)) => Poll::Pending,
        }
    }

    fn write(&self, name: &str, to: &mut fmt::Formatter<'_>) -> fmt::Result {
        to.debug_struct(name).field("was_polled", &self.entry.is_some()).finish_non_exhaustive()
    }
}

/// What an entry comes to: its operation and activation. A first poll hands it to the thread that begins it.
fn told(store: &Store, op: Op, entry: &mut Option<Shared<Entry>>, context: &mut Context<'_>) -> Poll<Result<(u32, u64), Error>> {
    let operation = match store.number(op) {
        Ok(operation) => operation,
        Err(error) => return Poll::Ready(Err(error)),
    };
    if let Some(entry) = entry {
        return match entry.answer_or_wake(context.waker()) {
            Some((answer, words)) => Poll::Ready(store.begun(operation, answer, words).map(|activation| (operation, activation))),
            None => Poll::Pending,
        };
    }
    let handed = Entry::new(operation, op.priority()).and_then(|new| {
        let _ = new.answer_or_wake(context.waker());
        let own = entry.insert(new).clone();
        Opening::hand(&store.opening, own)
    });
    match handed {
        Ok(()) => Poll::Pending,
        Err(error) => Poll::Ready(Err(error)),
    }
}

impl<S: Deref<Target = Store>> Drop for Entering<S> {
    fn drop(&mut self) {
        if let (Some(store), Some(entry)) = (&self.store, &self.entry) {
            Opening::abandon(&store.opening, entry);
        }
    }
}

/// What [`Store::enter_async`] returns: a future of a [`Guard`].
///
/// It does nothing before it is polled. If it is dropped while it waits, its wait ends, and its turn goes to the next. If its operation had
/// begun just then, it is left at once.
///
/// # Panics
///
/// If it is polled again after it was ready.
#[must_use = "futures do nothing unless they are awaited"]
pub struct Enter<'a>(Entering<&'a Store>);

/// What [`Store::enter_async_owned`] returns: a future of an [`OwnedGuard`], which is `'static`. In all else it is an [`Enter`].
#[must_use = "futures do nothing unless they are awaited"]
pub struct EnterOwned(Entering<Arc<Store>>);

impl<'a> Enter<'a> {
    pub(super) fn new(store: &'a Store, op: Op) -> Enter<'a> {
        Enter(Entering::new(store, op))
    }
}

impl EnterOwned {
    pub(super) fn new(store: Arc<Store>, op: Op) -> EnterOwned {
        EnterOwned(Entering::new(store, op))
    }
}

impl<'a> Future for Enter<'a> {
    type Output = Result<Guard<'a>, Error>;

    fn poll(mut self: Pin<&mut Self>, context: &mut Context<'_>) -> Poll<Self::Output> {
        self.0.poll(context).map(|done| done.map(Guard))
    }
}

impl Future for EnterOwned {
    type Output = Result<OwnedGuard, Error>;

    fn poll(mut self: Pin<&mut Self>, context: &mut Context<'_>) -> Poll<Self::Output> {
        self.0.poll(context).map(|done| done.map(OwnedGuard))
    }
}

impl fmt::Debug for Enter<'_> {
    fn fmt(&self, to: &mut fmt::Formatter<'_>) -> fmt::Result {
        self.0.write("Enter", to)
    }
}

impl fmt::Debug for EnterOwned {
    fn fmt(&self, to: &mut fmt::Formatter<'_>) -> fmt::Result {
        self.0.write("EnterOwned", to)
    }
}
