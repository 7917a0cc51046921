//! Entries by the library's steps, of which one thread makes all.

use std::cell::UnsafeCell;
use std::sync::atomic::{AtomicUsize, Ordering::Relaxed};

use super::entry::Entry;
use super::library::{Handle, Opened};
use crate::memory::space;
use crate::shared::Shared;
use crate::sys::Answer;
use crate::Error;

/// The struct `wanzoche_store_record`, of which only the library knows what is in it.
#[repr(C)]
#[derive(Clone, Copy, Debug, Default)]
pub(super) struct Record([u64; 14]);

/// The caller of one that nobody is known by, and the way of one that is to wait, and for which another thread listens.
const NO_CALLER: u32 = u32::MAX;
pub(super) const LISTEN: u32 = 2;

/// So many milliseconds a step waits for its turn: longer than it takes to see that whoever has it is dead.
const PIECE: i64 = 45;

/// Where one is that doesn't wait.
const NOWHERE: usize = usize::MAX;

/// An entry by steps. One thread of its opening makes them.
#[derive(Debug)]
pub(super) struct Steps {
    record: UnsafeCell<Record>,
    /// Its place among those for which the thread listens.
    place: AtomicUsize,
}

// SAFETY: only one thread at a time has the record in a call or reads it, that which listens for its opening; an earlier one has ended by
// then, under a lock that the later one takes.
unsafe impl Sync for Steps {}

impl Default for Steps {
    fn default() -> Steps {
        Steps { record: UnsafeCell::default(), place: AtomicUsize::new(NOWHERE) }
    }
}

extern "C" {
    fn wanzoche_store_begin(
        store: *mut Opened,
        operation: u32,
        priority: u32,
        caller: u32,
        waits: u32,
        record: *mut Record,
        limit: i64,
    ) -> Answer;
    fn wanzoche_store_end(store: *mut Opened, record: *mut Record, limit: i64) -> Answer;
    fn wanzoche_store_sync(store: *mut Opened, record: *const Record) -> Answer;
    fn wanzoche_store_listen(store: *mut Opened, records: *const *mut Record, count: usize, heard: *mut u32, limit: i64) -> Answer;
    fn wanzoche_store_ring(store: *mut Opened);
}

/// The next step of an entry, on the thread that listens.
impl Handle {
    /// Tries to begin it, in one turn, for which it waits for 45 ms. If it isn't admitted, it stands in order from then on.
    pub(super) fn begin(&self, entry: &Entry) -> Answer {
        let record = entry.steps.record.get();
        // SAFETY: all calls may come from any thread at any time, also with a null store. The record was zero at first, and is there until
        // the call returns.
        unsafe { wanzoche_store_begin(self.at(), entry.operation, entry.priority, NO_CALLER, LISTEN, record, PIECE) }
    }

    /// Ends it, whether it waits or has begun, without a wait for the disk. One that has begun waits for its turn for 45 ms.
    pub(super) fn end(&self, entry: &Entry) -> Answer {
        // SAFETY: as above.
        unsafe { wanzoche_store_end(self.at(), entry.steps.record.get(), PIECE) }
    }

    /// Waits until what was last begun by a record is on the disk, if the store is synced.
    pub(super) fn sync(&self, record: &Record) -> Answer {
        // SAFETY: as above. It is read alone.
        unsafe { wanzoche_store_sync(self.at(), record) }
    }

    /// Ends the sleep of the thread that listens, or its next one.
    pub(super) fn ring(&self) {
        // SAFETY: as above.
        unsafe { wanzoche_store_ring(self.at()) }
    }
}

impl Steps {
    /// What stands in its record, for another thread.
    pub(super) fn copy(&self) -> Record {
        // SAFETY: the one thread that calls anything with the record is this one.
        unsafe { *self.record.get() }
    }
}

/// The entries that wait, for which one thread listens.
#[derive(Default)]
pub(super) struct Waits {
    entries: Vec<Shared<Entry>>,
    /// Theirs, in the same order.
    records: Vec<*mut Record>,
}

impl Waits {
    pub(super) fn count(&self) -> usize {
        self.entries.len()
    }

    pub(super) fn add(&mut self, entry: &Shared<Entry>) -> Result<(), Error> {
        space(&mut self.entries, 1)?;
        space(&mut self.records, 1)?;
        entry.steps.place.store(self.entries.len(), Relaxed);
        self.records.push(entry.steps.record.get());
        self.entries.push(entry.clone());
        Ok(())
    }

    /// Takes out the one at a place, and then another one stands there.
    pub(super) fn take(&mut self, place: usize) -> Option<Shared<Entry>> {
        if place >= self.entries.len() {
            return None;
        }
        self.records.swap_remove(place);
        let entry = self.entries.swap_remove(place);
        entry.steps.place.store(NOWHERE, Relaxed);
        if let Some(moved) = self.entries.get(place) {
            moved.steps.place.store(place, Relaxed);
        }
        Some(entry)
    }

    /// Takes this one out, if it waits.
    pub(super) fn remove(&mut self, entry: &Entry) {
        drop(self.take(entry.steps.place.load(Relaxed)));
    }

    pub(super) fn each(&self) -> impl Iterator<Item = &Shared<Entry>> {
        self.entries.iter()
    }

    /// Takes out the last one.
    pub(super) fn pop(&mut self) -> Option<Shared<Entry>> {
        self.take(self.entries.len().wrapping_sub(1))
    }

    /// Sleeps until one of them may ask again, whose place is the answer's number; until the opening is [rung](Handle::ring), or so many
    /// milliseconds.
    pub(super) fn listen(&self, handle: &Handle, heard: &mut u32, limit: i64) -> Answer {
        // SAFETY: the array has as many records as the call is told, each of an entry that is owned here. The call keeps none of them.
        unsafe { wanzoche_store_listen(handle.at(), self.records.as_ptr(), self.records.len(), heard, limit) }
    }
}
