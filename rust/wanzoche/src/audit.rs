//! Verdicts on journals.

use std::fmt;

use crate::sys::{self, code};
use crate::{Error, MOST_LINES};

/// What an audit says of a journal.
#[derive(Clone, Copy, Debug, PartialEq, Eq, Hash)]
pub enum Verdict {
    /// Each reply was owed by the lines before it.
    Sound,
    /// A reply wasn't.
    Wrong {
        /// The first line whose reply wasn't owed, counted from 0, where a first line that names the room doesn't count.
        index: u64,
    },
}

impl fmt::Display for Verdict {
    fn fmt(&self, to: &mut fmt::Formatter<'_>) -> fmt::Result {
        match self {
            Verdict::Sound => to.write_str("sound"),
            Verdict::Wrong { index } => write!(to, "wrong line {index}"),
        }
    }
}

/// Replays a journal, whoever wrote it, under a declaration: whether each reply was owed by the lines before it.
///
/// Each cell and tally had 0 in it at first, and each queue was empty. A journal that begins with a line `journal 2 room N` has that room;
/// others have [`MOST_LINES`].
///
/// # Errors
///
/// [`Error::Declaration`] and [`Error::Journal`] if the texts aren't what they should be, and [`Error::OutOfMemory`].
///
/// ```
/// use wanzoche::{audit, Verdict};
/// let slot = "resource slot cell operation deposit, remove path deposit ; remove end end";
/// assert_eq!(audit(slot, "1 start deposit: started 0\n1 finish 0: finished\n"), Ok(Verdict::Sound));
/// assert_eq!(audit(slot, "1 start remove: started 0\n"), Ok(Verdict::Wrong { index: 0 }));
/// ```
pub fn audit(declaration: &str, journal: &str) -> Result<Verdict, Error> {
    let answer = sys::audit(declaration, MOST_LINES, journal);
    match answer.code {
        code::SOUND => Ok(Verdict::Sound),
        code::WRONG_LINE => Ok(Verdict::Wrong { index: answer.number }),
        _ => Err(Error::of_text(answer, declaration)),
    }
}
