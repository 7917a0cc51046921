//! Who waits, in order, and who has been asked.
//!
//! A *caller*, a thread or a task, waits for one operation, and has a *place* while it does. All stand in one line: those of a higher
//! priority first, and those of one priority in order of arrival. A caller is *asked* when its operation may start: it is told so once, and
//! then tries to start, stops waiting, or waits on at its old rank, which it keeps meanwhile. Each has a *door*: while it is shut, starts
//! that came later may be withheld for it.
//!
//! Nothing here knows what may start, holds a lock, looks at a clock or runs foreign code: wakers come in and go out, and whoever has the
//! lock wakes and drops them behind it.

use std::task::Waker;

use crate::holders::Who;
use crate::memory::space;
use crate::state::Start;
use crate::sys::InLine;
use crate::Error;

/// So many callers may wait before the first one that needs new memory.
pub(crate) const FIRST_PLACES: usize = 64;

/// Whose door is shut opens it each time that so many nanoseconds are over, for those that came meanwhile.
pub(crate) const MOST: u64 = 200_000_000;

const NONE: u32 = u32::MAX;

/// Where a caller stands.
#[derive(Clone, Copy, Debug, PartialEq, Eq)]
pub(crate) struct Place(u32);

impl Place {
    /// A number below that of all places that were ever taken at once.
    pub(crate) fn number(self) -> usize {
        self.0 as usize
    }
}

/// How a caller is woken.
#[derive(Debug)]
pub(crate) enum Caller {
    /// It sleeps at its place.
    Thread,
    Task(Waker),
}

/// Who has been asked, and is to be woken.
#[derive(Debug)]
pub(crate) enum Asked {
    Thread(Place),
    Task(Waker),
}

/// What a place is.
enum Is {
    /// The next free one has this number.
    Free(u32),
    Waiting(Caller),
    /// The caller has been asked, and hasn't answered.
    Asked,
}

struct Slot {
    is: Is,
    /// The number of the thread that waits, or that polled the task first.
    worker: u32,
    priority: u32,
    arrived: u64,
    /// When it asks again by itself, since its start was withheld; 0 if it doesn't.
    asks_at: u64,
}

/// Who stands at a rank of the line.
#[derive(Clone, Copy)]
struct Standing {
    place: Place,
    who: Who,
}

/// All that wait at some paths.
pub(crate) struct Queue {
    slots: Vec<Slot>,
    free: u32,
    /// Those that wait, in order, as the library wants them; and who they are.
    line: Vec<InLine>,
    standing: Vec<Standing>,
    /// When the last one came.
    last: u64,
    /// How many have been asked, and haven't answered.
    asked: u32,
    /// How long one waits before starts are withheld for it, in nanoseconds; `u64::MAX`: for ever.
    patience: u64,
}

impl Queue {
    /// A queue with [`FIRST_PLACES`].
    pub(crate) fn new(patience: u64) -> Result<Queue, Error> {
        let mut queue = Queue { slots: Vec::new(), free: NONE, line: Vec::new(), standing: Vec::new(), last: 0, asked: 0, patience };
        queue.reserve(FIRST_PLACES)?;
        Ok(queue)
    }

    /// The caller waits from now on, behind all of its priority that came before. Without memory for a place it isn't taken.
    pub(crate) fn join(&mut self, start: Start, now: u64, caller: &mut Option<Caller>) -> Result<Place, Error> {
        let place = self.free_place()?;
        self.last = now.max(self.last + 1);
        let Start { worker, operation, priority, who } = start;
        let is = Is::Waiting(caller.take().unwrap_or(Caller::Thread));
        self.slots[place.number()] = Slot { is, worker, priority, arrived: self.last, asks_at: 0 };
        let rank = self.behind_all_of(priority);
        self.line.insert(rank, InLine { operation, priority, arrived: self.last, shut_at: u64::MAX });
        self.standing.insert(rank, Standing { place, who });
        Ok(place)
    }

    /// The caller waits on, at its rank. What it gave before comes back, if it hadn't been asked meanwhile.
    pub(crate) fn wait_on(&mut self, place: Place, who: Who, caller: &mut Option<Caller>) {
        let rank = self.rank(place);
        self.standing[rank].who = who;
        let now = Is::Waiting(caller.take().unwrap_or(Caller::Thread));
        match std::mem::replace(&mut self.slots[place.number()].is, now) {
            Is::Waiting(earlier) => *caller = Some(earlier),
            _ => self.asked -= 1,
        }
    }

    /// The caller waits no more. What it gave comes back, if it hadn't been asked.
    pub(crate) fn quit(&mut self, place: Place) -> Option<Caller> {
        let rank = self.rank(place);
        self.line.remove(rank);
        self.standing.remove(rank);
        let is = std::mem::replace(&mut self.slots[place.number()].is, Is::Free(self.free));
        self.free = place.0;
        match is {
            Is::Waiting(caller) => Some(caller),
            _ => {
                self.asked -= 1;
                None
            }
        }
    }

    /// Asks who stands at a rank and hasn't been asked.
    pub(crate) fn ask(&mut self, rank: usize) -> Asked {
        let place = self.standing[rank].place;
        self.asked += 1;
        match std::mem::replace(&mut self.slots[place.number()].is, Is::Asked) {
            Is::Waiting(Caller::Task(waker)) => Asked::Task(waker),
            _ => Asked::Thread(place),
        }
    }

    /// The first rank of one that hasn't been asked.
    pub(crate) fn first_unasked(&self) -> Option<usize> {
        self.standing.iter().position(|each| !self.is_asked(each.place))
    }

    /// Whether the caller has been asked, and hasn't answered.
    pub(crate) fn is_asked(&self, place: Place) -> bool {
        matches!(self.slots[place.number()].is, Is::Asked)
    }

    /// Whether the caller waits, and this is what wakes it.
    pub(crate) fn is_woken_by(&self, place: Place, waker: &Waker) -> bool {
        matches!(&self.slots[place.number()].is, Is::Waiting(Caller::Task(own)) if own.will_wake(waker))
    }

    /// The place at a rank, and who waits there.
    pub(crate) fn at(&self, rank: usize) -> (Place, Who) {
        let Standing { place, who } = self.standing[rank];
        (place, who)
    }

    /// The number of the thread that waits at a rank, or that polled the task first.
    pub(crate) fn worker(&self, rank: usize) -> u32 {
        self.slots[self.standing[rank].place.number()].worker
    }

    /// Those that wait, in order.
    #[inline]
    pub(crate) fn line(&self) -> &[InLine] {
        &self.line
    }

    /// Whether this thread or task waits.
    pub(crate) fn has(&self, who: Who) -> bool {
        self.standing.iter().any(|each| each.who == who)
    }

    /// How many wait for an operation.
    pub(crate) fn waiting(&self, operation: u32) -> u32 {
        self.line.iter().map(|each| u32::from(each.operation == operation)).sum()
    }

    /// How many have been asked, and haven't answered.
    pub(crate) fn asked(&self) -> u32 {
        self.asked
    }

    /// How many stand before one that comes now with this priority.
    pub(crate) fn behind_all_of(&self, priority: u32) -> usize {
        self.line.partition_point(|each| each.priority >= priority)
    }

    /// How many stand before a caller.
    pub(crate) fn rank(&self, place: Place) -> usize {
        let Slot { priority, arrived, .. } = self.slots[place.number()];
        self.line.partition_point(|each| each.priority > priority || (each.priority == priority && each.arrived < arrived))
    }

    /// When a caller came.
    pub(crate) fn arrived(&self, place: Place) -> u64 {
        self.slots[place.number()].arrived
    }

    /// Says of the first so many for whom starts are withheld at this time. Whether there is one.
    pub(crate) fn shut_doors(&mut self, first: usize, now: u64) -> bool {
        let patience = self.patience;
        self.line[..first].iter_mut().for_each(|each| each.shut_at = shut_at(each.arrived, patience, now));
        self.line[..first].iter().any(|each| each.shut_at != u64::MAX)
    }

    /// When the door opens next of one for whom a start was withheld just now.
    pub(crate) fn opens_at(&self, rank: usize) -> u64 {
        match self.line[rank] {
            InLine { shut_at: 0, arrived, .. } => arrived.saturating_add(self.patience).saturating_add(MOST),
            InLine { shut_at, .. } => shut_at.saturating_add(MOST),
        }
    }

    /// When a caller asks again by itself; 0 if it doesn't.
    pub(crate) fn asks_at(&self, place: Place) -> u64 {
        self.slots[place.number()].asks_at
    }

    /// The caller asks again by itself at this time; at 0 it doesn't.
    pub(crate) fn will_ask(&mut self, place: Place, at: u64) {
        self.slots[place.number()].asks_at = at;
    }

    fn free_place(&mut self) -> Result<Place, Error> {
        if let Some(Slot { is: Is::Free(next), .. }) = self.slots.get(self.free as usize) {
            let place = Place(self.free);
            self.free = *next;
            return Ok(place);
        }
        let at = u32::try_from(self.slots.len()).ok().filter(|at| *at != NONE).ok_or(Error::OutOfMemory)?;
        self.reserve(1)?;
        self.slots.push(Slot { is: Is::Free(NONE), worker: 0, priority: 0, arrived: 0, asks_at: 0 });
        Ok(Place(at))
    }

    /// Makes space for so many more places, and for their callers in the line.
    fn reserve(&mut self, more: usize) -> Result<(), Error> {
        space(&mut self.slots, more)?;
        let missing = self.slots.len() + more - self.line.len();
        space(&mut self.line, missing)?;
        space(&mut self.standing, missing)
    }
}

/// Starts of those that came later than this are withheld for one that came then: of nobody while it is patient, then of all, until its
/// door opens for those that came meanwhile.
fn shut_at(arrived: u64, patience: u64, now: u64) -> u64 {
    match now.saturating_sub(arrived).checked_sub(patience) {
        None => u64::MAX,
        Some(over) if over < MOST => 0,
        Some(over) => now - over % MOST,
    }
}

#[cfg(test)]
mod tests {
    use super::{shut_at, Asked, Caller, Place, Queue, MOST};
    use crate::holders::Who;
    use crate::state::Start;

    fn queue() -> Queue {
        Queue::new(0).unwrap()
    }

    fn joins(queue: &mut Queue, operation: u32, priority: u32) -> Place {
        let start = Start { worker: 1, operation, priority, who: Who::thread(1) };
        queue.join(start, 0, &mut Some(Caller::Thread)).unwrap()
    }

    /// The places of all that haven't been asked, which are asked one after the other.
    fn order(queue: &mut Queue) -> Vec<Place> {
        let asked = std::iter::from_fn(|| queue.first_unasked().map(|rank| queue.ask(rank)));
        asked.map(|asked| if let Asked::Thread(place) = asked { place } else { panic!("a thread") }).collect()
    }

    #[test]
    fn all_stand_in_order_of_priority_and_arrival() {
        let mut queue = queue();
        let priorities = [0, 2, 1, 2, 0, u32::MAX];
        let places: Vec<Place> = (0..).zip(priorities).map(|(operation, priority)| joins(&mut queue, operation, priority)).collect();
        let operations: Vec<u32> = queue.line().iter().map(|each| each.operation).collect();
        assert_eq!(operations, [5, 1, 3, 2, 0, 4]);
        assert!(queue.line().windows(2).all(|two| two[0].priority > two[1].priority || two[0].arrived < two[1].arrived));
        assert_eq!(places.iter().map(|place| queue.rank(*place)).collect::<Vec<_>>(), [4, 1, 3, 2, 5, 0]);
        assert_eq!([3, 2, 1, 0].map(|priority| queue.behind_all_of(priority)), [1, 3, 4, 6]);
        assert_eq!(order(&mut queue), [5, 1, 3, 2, 0, 4].map(|at| places[at]));
        assert_eq!((queue.asked(), queue.waiting(3), queue.waiting(9)), (6, 1, 0));
    }

    #[test]
    fn who_waits_on_keeps_its_rank() {
        let mut queue = queue();
        let places: Vec<Place> = (0..5).map(|_| joins(&mut queue, 0, 0)).collect();
        for _ in 0..3 {
            let rank = queue.first_unasked().unwrap();
            queue.ask(rank);
        }
        for at in [1, 0, 2] {
            queue.wait_on(places[at], Who::thread(7), &mut Some(Caller::Thread));
        }
        assert_eq!((queue.asked(), queue.waiting(0)), (0, 5));
        assert!(queue.has(Who::thread(7)) && queue.has(Who::thread(1)) && !queue.has(Who::thread(2)));
        assert_eq!(order(&mut queue), places);
    }

    #[test]
    fn who_quits_is_passed_over() {
        for gone in 0..4 {
            let mut queue = queue();
            let mut places: Vec<Place> = (0..4).map(|_| joins(&mut queue, 0, 0)).collect();
            let gone = places.remove(gone);
            assert!(queue.quit(gone).is_some());
            assert_eq!(queue.waiting(0), 3);
            // The place goes to who comes next, who stands last.
            assert_eq!(joins(&mut queue, 0, 0), gone);
            places.push(gone);
            assert_eq!(order(&mut queue), places);
        }
    }

    #[test]
    fn who_quits_after_it_was_asked_leaves_nothing() {
        let mut queue = queue();
        let place = joins(&mut queue, 0, 0);
        queue.ask(0);
        assert!(queue.is_asked(place) && queue.first_unasked().is_none());
        assert!(queue.quit(place).is_none());
        assert_eq!((queue.waiting(0), queue.asked(), queue.line().len()), (0, 0, 0));
    }

    #[test]
    fn more_than_the_first_places_are_taken() {
        let mut queue = queue();
        let places: Vec<Place> = (0..200).map(|_| joins(&mut queue, 0, 0)).collect();
        places.iter().for_each(|place| drop(queue.quit(*place)));
        assert_eq!((0..200).map(|_| joins(&mut queue, 0, 0)).filter(|place| place.number() < 200).count(), 200);
    }

    #[test]
    fn a_door_is_shut_behind_its_patience_and_opens_for_those_that_came_meanwhile() {
        assert_eq!([0, 109].map(|now| shut_at(100, 10, now)), [u64::MAX; 2]);
        assert_eq!([110, 109 + MOST].map(|now| shut_at(100, 10, now)), [0; 2]);
        assert_eq!([110 + MOST, 109 + 2 * MOST].map(|now| shut_at(100, 10, now)), [110 + MOST; 2]);
        assert_eq!(shut_at(100, 10, 110 + 7 * MOST), 110 + 7 * MOST);
        assert_eq!([100, 99].map(|now| shut_at(100, 0, now)), [0; 2]);
        assert_eq!(shut_at(1, u64::MAX, u64::MAX), u64::MAX);
    }

    #[test]
    fn doors_open_at_times_of_their_own() {
        let mut queue = Queue::new(10).unwrap();
        for now in [100, 105, 300] {
            let start = Start { worker: 1, operation: 0, priority: 0, who: Who::thread(1) };
            queue.join(start, now, &mut None).unwrap();
        }
        assert!(!queue.shut_doors(3, 109) && queue.shut_doors(3, 110) && !queue.shut_doors(0, 110));
        assert!(queue.shut_doors(3, 120));
        assert_eq!(queue.line().iter().map(|each| each.shut_at).collect::<Vec<_>>(), [0, 0, u64::MAX]);
        assert_eq!((queue.opens_at(0), queue.opens_at(1)), (110 + MOST, 115 + MOST));
        assert!(queue.shut_doors(3, 112 + MOST));
        assert_eq!((queue.opens_at(0), queue.opens_at(1), queue.opens_at(2)), (110 + 2 * MOST, 115 + MOST, 310 + MOST));
    }
}
