//! The thread that waits for the disk, in the place of tasks whose operations have begun.

use std::mem;
use std::sync::PoisonError;
use std::time::Duration;

use super::entry::Entry;
use super::library::answer;
use super::opening::{Helper, Opening};
use super::steps::Record;
use crate::shared::Shared;
use crate::sys::Answer;

/// So long it waits for more.
const IDLE: Duration = Duration::from_secs(1);

/// An operation that has begun, and isn't told of before it is on the disk.
pub(super) struct Begun {
    pub(super) entry: Shared<Entry>,
    pub(super) told: Answer,
    pub(super) record: Record,
}

pub(super) fn serve(opening: &Opening) {
    while let Some(begun) = next(opening) {
        // The last was begun last: with it all are on the disk.
        if let Some(last) = begun.last() {
            let _ = opening.handle.sync(&last.record);
        }
        begun.into_iter().for_each(|each| tell(opening, each));
    }
}

/// All that have begun meanwhile, or nothing when the thread is to end.
fn next(opening: &Opening) -> Option<Vec<Begun>> {
    let mut work = opening.work();
    let mut is_idle = false;
    while work.begun.is_empty() {
        if work.is_over || is_idle {
            opening.end_thread(work, Helper::Disk);
            return None;
        }
        let (back, waited) = opening.came.wait_timeout(work, IDLE).unwrap_or_else(PoisonError::into_inner);
        work = back;
        is_idle = waited.timed_out();
    }
    Some(mem::take(&mut work.begun))
}

/// Tells a task that its operation has begun, or what is wrong with the disk.
pub(super) fn tell(opening: &Opening, begun: Begun) {
    let synced = opening.handle.sync(&begun.record);
    let told = if synced.code == answer::SYNCED { begun.told } else { synced };
    opening.tell(&begun.entry, told, opening.handle.words(told));
}
