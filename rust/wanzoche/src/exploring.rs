//! Every schedule of a script.

use std::fmt;

use crate::sys::{self, code};
use crate::Error;

/// What all schedules of a script come to.
#[derive(Clone, Debug, PartialEq, Eq)]
#[must_use = "it says whether the script can go wrong"]
pub enum Explored {
    /// Every schedule ends done.
    AllDone {
        /// How many states were looked at.
        states: u64,
    },
    /// In one, somebody waits and nobody can go on.
    Stalls(Schedule),
    /// In one, a step is refused, as a `take` from an empty queue.
    Refused(Schedule),
    /// There are more states than were to be looked at.
    Undecided {
        /// How many were.
        states: u64,
    },
}

/// A shortest schedule that goes wrong.
#[derive(Clone, Debug, PartialEq, Eq)]
pub struct Schedule {
    journal: String,
    processes: String,
}

impl Schedule {
    /// What happened, as a journal.
    #[must_use]
    pub fn journal(&self) -> &str {
        &self.journal
    }

    /// A line for each process, in the order of the script: `kant: stalled right`, or `done`, `under way` or `faulted REPLY` behind the name.
    pub fn processes(&self) -> impl Iterator<Item = &str> {
        self.processes.lines()
    }
}

impl Explored {
    /// Whether every schedule ends done.
    #[must_use]
    pub fn is_done(&self) -> bool {
        matches!(self, Explored::AllDone { .. })
    }
}

impl fmt::Display for Explored {
    fn fmt(&self, to: &mut fmt::Formatter<'_>) -> fmt::Result {
        match self {
            Explored::AllDone { states } => write!(to, "every schedule ends done; {states} states"),
            Explored::Stalls(schedule) | Explored::Refused(schedule) => write!(to, "{}{}", schedule.journal, schedule.processes),
            Explored::Undecided { states } => write!(to, "undecided after {states} states"),
        }
    }
}

/// Looks at every schedule of a script under a declaration: whether each of them ends done, or one stalls, or has a step refused. It starts
/// no thread and nothing of any paths. docs/scripts.md of the repository says what a script is.
///
/// It gives up after `most` states: a million of them take about a second. The memory is given back.
///
/// # Errors
///
/// [`Error::Declaration`] and [`Error::Script`] if the texts aren't what they should be, and [`Error::OutOfMemory`].
///
/// ```
/// use wanzoche::{explore, Explored};
///
/// let forks = "resource a cell operation left path left end end resource b cell operation right path right end end";
/// let found = explore(
///     forks,
///     "process kant\nenter left\nenter right\nleave\nleave\nend\nprocess hume\nenter right\nenter left\nleave\nleave\nend\n",
///     1_000_000,
/// )?;
/// let schedule = match found {
///     Explored::Stalls(schedule) => schedule,
///     other => panic!("{other}"),
/// };
/// assert!(schedule.processes().eq(["kant: stalled right", "hume: stalled left"]));
///
/// let in_one_order = "process kant\nenter left\nenter right\nleave\nleave\nend\nprocess hume\nenter left\nenter right\nleave\nleave\nend\n";
/// let found = explore(forks, in_one_order, 1_000_000)?;
/// assert!(found.is_done(), "{found}");
/// # Ok::<(), wanzoche::Error>(())
/// ```
pub fn explore(declaration: &str, script: &str, most: u32) -> Result<Explored, Error> {
    let (answer, journal, processes) = sys::explore(declaration, script, most)?;
    match answer.code {
        code::ALL_DONE => Ok(Explored::AllDone { states: answer.number }),
        code::STALLS => Ok(Explored::Stalls(Schedule { journal, processes })),
        code::REFUSED => Ok(Explored::Refused(Schedule { journal, processes })),
        code::UNDECIDED => Ok(Explored::Undecided { states: answer.number }),
        _ => Err(Error::of_text(answer, declaration)),
    }
}
