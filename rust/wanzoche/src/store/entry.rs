//! An entry that a task awaits.

use std::mem;
use std::sync::atomic::{AtomicBool, Ordering::Relaxed};
use std::sync::{Mutex, MutexGuard, PoisonError};
use std::task::Waker;

use super::steps::Steps;
use crate::shared::Shared;
use crate::sys::Answer;
use crate::Error;

/// How far an entry has come.
#[derive(Debug)]
enum Stage {
    Waits(Option<Waker>),
    /// Its answer, and the library's words for it.
    Done(Answer, String),
    /// The task has its answer, or wants none.
    Over,
}

/// An entry that a task awaits, and that a thread begins in its place.
#[derive(Debug)]
pub(super) struct Entry {
    pub(super) operation: u32,
    pub(super) priority: u32,
    pub(super) steps: Steps,
    stage: Mutex<Stage>,
    /// Whether it was ended. Only the thread that begins it asks for that, so that it begins none that was given up before.
    is_ended: AtomicBool,
}

/// What a task that gives up leaves behind.
#[derive(Debug, PartialEq, Eq)]
pub(super) enum Rest {
    /// Nothing: it had its answer, which was none that begins something.
    Nothing,
    /// It waits, or has begun: so it has to be ended.
    Record,
}

impl Entry {
    pub(super) fn new(operation: u32, priority: u32) -> Result<Shared<Entry>, Error> {
        let (steps, stage) = (Steps::default(), Mutex::new(Stage::Waits(None)));
        Shared::new(Entry { operation, priority, steps, stage, is_ended: AtomicBool::new(false) })
    }

    fn stage(&self) -> MutexGuard<'_, Stage> {
        self.stage.lock().unwrap_or_else(PoisonError::into_inner)
    }

    /// Its answer, once, if it has come; else the waker is woken when it comes.
    pub(super) fn answer_or_wake(&self, waker: &Waker) -> Option<(Answer, String)> {
        // Foreign code is called outside of the lock.
        let new = waker.clone();
        let mut stage = self.stage();
        let earlier = match mem::replace(&mut *stage, Stage::Over) {
            Stage::Done(answer, words) => return Some((answer, words)),
            Stage::Waits(earlier) => {
                *stage = Stage::Waits(Some(new));
                earlier
            }
            Stage::Over => None,
        };
        drop(stage);
        drop(earlier);
        None
    }

    /// The answer has come: who is to be woken. `None` if nobody wants it, who has it ended then.
    pub(super) fn tell(&self, answer: Answer, words: String) -> Option<Option<Waker>> {
        let mut stage = self.stage();
        match mem::replace(&mut *stage, Stage::Over) {
            Stage::Waits(waker) => {
                *stage = Stage::Done(answer, words);
                Some(waker)
            }
            _ => None,
        }
    }

    /// The task wants no answer any more.
    pub(super) fn give_up(&self) -> Rest {
        let stage = mem::replace(&mut *self.stage(), Stage::Over);
        match stage {
            Stage::Done(answer, _) if !answer.has_started() => Rest::Nothing,
            _ => Rest::Record,
        }
    }

    pub(super) fn note_end(&self) {
        self.is_ended.store(true, Relaxed);
    }

    pub(super) fn is_ended(&self) -> bool {
        self.is_ended.load(Relaxed)
    }
}
