//! Who holds what is in progress, as far as it is known.
//!
//! The C library knows the thread that began something by its number. One thread polls many tasks, so where tasks enter, what begins while
//! somebody waits is noted here beside, a task's by what wakes it. What began before, while nobody waited, is known to nobody then. It would
//! cost each entry to note it, and whoever waits has to wait for its end anyway. A guard may go elsewhere: it counts as held by whoever
//! began it.

use std::mem::{size_of, transmute_copy};
use std::ptr::NonNull;
use std::task::{RawWaker, RawWakerVTable, Waker};

use crate::memory::space;
use crate::sys::Activation;
use crate::Error;

/// So many starts are noted before the first one that needs new memory.
const FIRST_NOTES: usize = 64;

const OF_TASKS: u64 = 1 << 63;

/// A thread or a task.
#[derive(Clone, Copy, Debug, PartialEq, Eq)]
pub(crate) struct Who(u64);

impl Who {
    /// One that isn't known.
    pub(crate) const UNKNOWN: Who = Who(0);

    /// The thread with this number.
    #[inline]
    pub(crate) fn thread(number: u32) -> Who {
        Who(u64::from(number))
    }

    /// The task that this wakes. Two tasks are mistaken for one if their executors wake them by the same data, and a task for two if it is
    /// polled by another waker each time.
    #[inline]
    pub(crate) fn task(waker: &Waker) -> Who {
        if size_of::<Waker>() != size_of::<[usize; 2]>() {
            return Who(OF_TASKS);
        }
        // SAFETY: a waker is a pointer to data and one to functions, without a gap. Both may be read as numbers.
        let words: [usize; 2] = unsafe { transmute_copy(waker) };
        Who(OF_TASKS | words[place_of_data()] as u64)
    }

    #[inline]
    pub(crate) fn is_task(self) -> bool {
        self.0 & OF_TASKS != 0
    }
}

/// Which word of a waker is its data, as one shows whose data is known. The other word may differ between clones.
#[inline]
fn place_of_data() -> usize {
    fn clone(data: *const ()) -> RawWaker {
        RawWaker::new(data, &FUNCTIONS)
    }
    fn nothing(_: *const ()) {}
    static FUNCTIONS: RawWakerVTable = RawWakerVTable::new(clone, nothing, nothing, nothing);
    let data = NonNull::<u64>::dangling().as_ptr() as *const ();
    // SAFETY: as in `Who::task`, which has looked at the size; a waker is laid out as what it is made of.
    let words: [usize; 2] = unsafe { transmute_copy(&RawWaker::new(data, &FUNCTIONS)) };
    usize::from(words[0] != data as usize)
}

/// Who began something.
#[derive(Clone, Copy)]
struct Note {
    activation: u64,
    who: Who,
}

/// Who began what, in the order of the starts.
pub(crate) struct Notes {
    notes: Vec<Note>,
}

impl Notes {
    /// None, with memory for the first few.
    pub(crate) fn new() -> Result<Notes, Error> {
        let mut notes = Vec::new();
        space(&mut notes, FIRST_NOTES)?;
        Ok(Notes { notes })
    }

    /// Whether the next one needs new memory, unless some are forgotten.
    pub(crate) fn is_full(&self) -> bool {
        self.notes.len() == self.notes.capacity()
    }

    /// Notes who began this, behind all that began before. Without memory it isn't noted.
    pub(crate) fn add(&mut self, activation: u64, who: Who) {
        if space(&mut self.notes, 1).is_ok() {
            self.notes.push(Note { activation, who });
        }
    }

    /// Forgets all that isn't in progress any more.
    pub(crate) fn keep(&mut self, live: &[Activation]) {
        let mut rest = live.iter().peekable();
        self.notes.retain(|note| {
            while rest.next_if(|each| each.number < note.activation).is_some() {}
            rest.peek().map_or(false, |each| each.number == note.activation)
        });
    }

    /// Who began this, if it was noted.
    pub(crate) fn who(&self, activation: u64) -> Option<Who> {
        let at = self.notes.binary_search_by_key(&activation, |note| note.activation);
        at.ok().map(|at| self.notes[at].who)
    }
}

#[cfg(test)]
mod tests {
    use super::{Notes, Who};
    use crate::sys::Activation;
    use std::sync::Arc;
    use std::task::{Wake, Waker};

    struct Nothing(#[allow(dead_code)] u8);

    impl Wake for Nothing {
        fn wake(self: Arc<Self>) {}
    }

    #[test]
    fn tasks_are_known_by_what_wakes_them() {
        let (one, other) = (Waker::from(Arc::new(Nothing(1))), Waker::from(Arc::new(Nothing(2))));
        assert_eq!(Who::task(&one), Who::task(&one.clone()));
        assert_ne!(Who::task(&one), Who::task(&other));
        assert!(Who::task(&one).is_task() && !Who::thread(u32::MAX).is_task());
    }

    #[test]
    fn what_is_over_is_forgotten() {
        let mut notes = Notes::new().unwrap();
        let live = |numbers: &[u64]| -> Vec<Activation> {
            numbers.iter().map(|number| Activation { number: *number, ..Activation::default() }).collect()
        };
        for activation in [2, 3, 5, 8, 9] {
            notes.add(activation, Who::thread(activation as u32));
        }
        notes.keep(&live(&[1, 3, 4, 8]));
        let kept: Vec<u64> = (0..10).filter(|activation| notes.who(*activation) == Some(Who::thread(*activation as u32))).collect();
        assert_eq!(kept, [3, 8]);
        (10..100).for_each(|activation| notes.add(activation, Who::thread(1)));
        assert_eq!((notes.who(99), notes.who(100)), (Some(Who::thread(1)), None));
        notes.keep(&[]);
        assert!(!notes.is_full() && notes.who(99).is_none());
    }
}
