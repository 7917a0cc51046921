//! What can be wrong.

use std::{fmt, io};

use crate::store::library::answer as store;
use crate::store::Hindrance;
use crate::sys::{self, code, Answer};
use crate::Blocked;

/// Why a call wasn't served. Nothing was started then, and nothing has changed; of a store that has another exception:
/// [`Unsynced`](Error::Unsynced).
#[derive(Clone, Debug, PartialEq, Eq)]
#[non_exhaustive]
pub enum Error {
    /// A text isn't a declaration: its first fault, and where it stands, counted from 1. From [`Paths::open`](crate::Paths::open),
    /// [`Options::open`](crate::Options::open) and [`audit`](crate::audit()).
    Declaration {
        /// What is wrong, in words, as `unexpected` or `undeclared`.
        fault: &'static str,
        /// The line of the fault. 1 if the text is too long.
        line: usize,
        /// The column of the fault, in bytes. 1 if the text is too long.
        column: usize,
    },
    /// The room isn't 1 to [`MOST_LINES`](crate::MOST_LINES). From [`Options::open`](crate::Options::open).
    BadRoom,
    /// No operation has this name. From [`Paths::op`](crate::Paths::op).
    UnknownOperation {
        /// The name that was asked for.
        name: String,
    },
    /// The operation was resolved by other paths. From each call that takes an [`Op`](crate::Op).
    ForeignOperation,
    /// A path forbids the operation now: which one, who holds it, and what may begin next. Or its start is withheld for one that waits.
    /// From [`try_enter`](crate::Paths::try_enter) and [`try_enter_owned`](crate::Paths::try_enter_owned).
    Blocked(Blocked),
    /// The time is over, and a path still forbids the operation, or its start is withheld for one that waits. From
    /// [`enter_timeout`](crate::Paths::enter_timeout) and [`enter_timeout_owned`](crate::Paths::enter_timeout_owned).
    Timeout(Blocked),
    /// The paths were closed, before or while the caller waited. From each call that enters.
    Closed,
    /// So many operations are in progress that the journal has no line left, or, without a journal, the room no place; or 4,294,967,295
    /// were started. From each call that enters, and from those that use a device.
    NoRoom,
    /// There is no memory. From each call that returns a text, from the opening, from a call that waits beside more others than ever
    /// before, and, if there is a log, from each call that needs a new journal.
    OutOfMemory,
    /// The resource's device doesn't offer this: a cell has `put` and `look`, a tally `look` and `add`, a queue `put`, `take` and `look`.
    NotOffered,
    /// The queue is empty. From [`take`](crate::Guard::take) and [`look`](crate::Guard::look).
    Empty,
    /// The queue is full. From [`put`](crate::Guard::put).
    Full,
    /// The total would be above `u64::MAX`. From [`add`](crate::Guard::add).
    Overflow,
    /// A text isn't a journal. From [`audit`](crate::audit()) and [`Options::resume`](crate::Options::resume).
    Journal {
        /// What is wrong, in words, as `bad line`.
        fault: &'static str,
        /// The line of the fault, counted from 1. 1 if the text is too long.
        line: u64,
    },
    /// A reply in the journal wasn't owed by the lines before it, so nothing goes on behind it. From
    /// [`Options::resume`](crate::Options::resume).
    WrongLine {
        /// The first such line, counted from 0, where a first line that names the room doesn't count.
        index: u64,
    },
    /// A text isn't a script. From [`explore`](crate::explore()).
    Script {
        /// What is wrong, in words, as `undeclared in script`.
        fault: &'static str,
        /// The line of the fault, counted from 1. 1 if the text is too long.
        line: u64,
    },
    /// No lines are kept: the paths were opened by [`Options::without_journal`](crate::Options::without_journal). From
    /// [`Paths::journal`](crate::Paths::journal), and from [`Options::open`](crate::Options::open) if there is a log.
    NoJournal,
    /// At a store a path forbids the operation, or its start is withheld for one who waits: now, or when the time is over. From
    /// [`Store::try_enter`](crate::Store::try_enter) and [`enter_timeout`](crate::Store::enter_timeout).
    Hindered(Hindrance),
    /// No turn at the store's file was to be had in time: a process that has one is stopped, or the machine is very busy. From each call
    /// of a store that has a time limit.
    Late,
    /// The system refuses what a store asks of it, as on a full disk.
    System {
        /// The number of the error, for [`std::io::Error::from_raw_os_error`].
        errno: i32,
        /// What was refused, in words.
        words: String,
    },
    /// Others have the store's file open who don't share it: a program that has it to itself, or processes of an older Python package. From
    /// [`Paths::open_store`](crate::Paths::open_store).
    InUse {
        /// Who, in words.
        words: String,
    },
    /// The store was made with another declaration. From [`Paths::open_store`](crate::Paths::open_store).
    OtherDeclaration {
        /// Where the two differ first, in words.
        words: String,
    },
    /// What lies there isn't a store, or it is incomplete: the file isn't a journal, or one is gone or shorter than it was.
    NotAStore {
        /// Which, in words.
        words: String,
    },
    /// A line of the store's journal isn't owed by those before it, or isn't a line. Each later call of this opening says so, too.
    Corrupt {
        /// The line, counted from 1; 0 if none is meant.
        line: u64,
        /// Which file, and why, in words.
        words: String,
    },
    /// A sync of the store failed, so nobody can say what of the last lines is on the disk. Each later call of this opening says so, too:
    /// drop it, and open the store again.
    Unsynced {
        /// The number of the sync's error.
        errno: i32,
    },
    /// The store was opened before a fork, of which this is the child: it has no part in it, and may open it itself.
    Forked,
    /// The opening is alive. From [`Store::recover`](crate::Store::recover).
    Alive,
    /// The operation isn't in progress any more: others have finished it, by
    /// [`Store::recover_even_alive`](crate::Store::recover_even_alive). From the calls of a store's guards.
    NotInProgress,
    /// The C library gave an answer that this crate doesn't know of the call: it isn't the library that the crate is made for.
    Library {
        /// The answer in words.
        answer: &'static str,
    },
}

impl Error {
    /// Why a text wasn't opened or audited.
    pub(crate) fn of_text(answer: Answer, declaration: &str) -> Error {
        let fault = sys::words(answer.code);
        match answer.code {
            code::BAD_ROOM => Error::BadRoom,
            code::OUT_OF_MEMORY => Error::OutOfMemory,
            code::JOURNAL_TOO_LONG => Error::Journal { fault, line: 1 },
            code::BAD_LINE | code::UNDECLARED_LINE => Error::Journal { fault, line: answer.number.saturating_add(1) },
            code::WRONG_LINE => Error::WrongLine { index: answer.number },
            code::SCRIPT_TOO_LONG => Error::Script { fault, line: 1 },
            code::SCRIPT_BAD_LINE..=code::SCRIPT_TOO_MANY => Error::Script { fault, line: answer.number.saturating_add(1) },
            code::TOO_LONG => Error::Declaration { fault, line: 1, column: 1 },
            code::BAD_BYTE..=code::TOO_MANY => {
                let (line, column) = place(declaration, answer.number);
                Error::Declaration { fault, line, column }
            }
            _ => Error::Library { answer: fault },
        }
    }

    /// Why an operation wasn't started, but for a path that forbids it, or a device not used.
    pub(crate) fn of_attempt(answer: Answer) -> Error {
        match answer.code {
            code::CLOSED => Error::Closed,
            code::NO_ROOM => Error::NoRoom,
            code::NOT_OFFERED => Error::NotOffered,
            code::EMPTY => Error::Empty,
            code::FULL => Error::Full,
            code::OVERFLOW => Error::Overflow,
            other => Error::Library { answer: sys::words(other) },
        }
    }

    /// Why a store wasn't opened, with the library's words for it.
    pub(crate) fn of_opening(answer: Answer, words: String, declaration: &str) -> Error {
        match answer.code {
            code::BAD_ROOM | code::TOO_LONG..=code::TOO_MANY => Error::of_text(answer, declaration),
            _ => Error::of_store(answer, words),
        }
    }

    /// Why a call of a store wasn't served, but for a path that forbids it; with the library's words, if it has any.
    pub(crate) fn of_store(answer: Answer, words: String) -> Error {
        let errno = i32::try_from(answer.number).unwrap_or(0);
        match answer.code {
            store::LATE => Error::Late,
            store::SYSTEM => Error::System { errno, words: words_or(words, || io::Error::from_raw_os_error(errno).to_string()) },
            store::IN_USE => Error::InUse { words },
            store::OTHER_DECLARATION => Error::OtherDeclaration { words },
            store::NOT_A_STORE => Error::NotAStore { words: words_or(words, || sys::words(answer.code).to_string()) },
            store::CORRUPT => Error::Corrupt { line: answer.number, words: words_or(words, || sys::words(answer.code).to_string()) },
            store::UNSYNCED => Error::Unsynced { errno },
            store::FORKED => Error::Forked,
            store::ALIVE => Error::Alive,
            code::STALE | code::NOT_YOURS => Error::NotInProgress,
            code::OUT_OF_MEMORY => Error::OutOfMemory,
            _ => Error::of_attempt(answer),
        }
    }

    /// Why there is no thread that waits in a task's place.
    pub(crate) fn of_thread(error: &io::Error) -> Error {
        let errno = error.raw_os_error().unwrap_or(0);
        Error::System { errno, words: format!("there is no thread that waits for a task: {error}") }
    }

    /// The same where a time is over.
    pub(crate) fn in_time(self) -> Error {
        match self {
            Error::Blocked(why) => Error::Timeout(why),
            other => other,
        }
    }
}

/// These words, or others if there are none.
fn words_or(words: String, others: impl FnOnce() -> String) -> String {
    if words.is_empty() {
        others()
    } else {
        words
    }
}

/// The line and the column of a place in a text, both from 1.
fn place(text: &str, at: u64) -> (usize, usize) {
    let at = usize::try_from(at).unwrap_or(usize::MAX).min(text.len());
    let before = &text.as_bytes()[..at];
    let begin = before.iter().rposition(|byte| *byte == b'\n').map_or(0, |feed| feed + 1);
    (1 + before.iter().filter(|byte| **byte == b'\n').count(), 1 + at - begin)
}

impl fmt::Display for Error {
    fn fmt(&self, to: &mut fmt::Formatter<'_>) -> fmt::Result {
        match self {
            Error::Declaration { fault, line, column } => write!(to, "declaration: {fault} in line {line}, column {column}"),
            Error::BadRoom => write!(to, "the room is 1 to {} lines", crate::MOST_LINES),
            Error::UnknownOperation { name } => write!(to, "no operation `{name}` is declared"),
            Error::ForeignOperation => to.write_str("the operation was resolved by other paths"),
            Error::Blocked(why) => why.fmt(to),
            Error::Timeout(why) => write!(to, "the time is over: {why}"),
            Error::Closed => to.write_str("the paths are closed"),
            Error::NoRoom => to.write_str("there is no room for more in progress"),
            Error::OutOfMemory => to.write_str("out of memory"),
            Error::NotOffered => to.write_str("the device doesn't offer this"),
            Error::Empty => to.write_str("the queue is empty"),
            Error::Full => to.write_str("the queue is full"),
            Error::Overflow => write!(to, "the total would be above {}", u64::MAX),
            Error::Journal { fault, line } => write!(to, "journal: {fault} in line {line}"),
            Error::WrongLine { index } => write!(to, "journal: wrong line {index}"),
            Error::Script { fault, line } => write!(to, "{fault}, line {line}"),
            Error::NoJournal => to.write_str("the paths were opened without a journal"),
            Error::Hindered(why) => why.fmt(to),
            Error::Late => to.write_str("no turn at the store was to be had in time"),
            Error::System { words, .. } | Error::InUse { words } | Error::OtherDeclaration { words } | Error::NotAStore { words } => {
                to.write_str(words)
            }
            Error::Corrupt { words, .. } => to.write_str(words),
            Error::Unsynced { errno } => write!(to, "a sync of the store failed: {}", io::Error::from_raw_os_error(*errno)),
            Error::Forked => to.write_str("the store was opened before a fork, and belongs to the parent"),
            Error::Alive => to.write_str("the opening is alive"),
            Error::NotInProgress => to.write_str("the operation isn't in progress any more: others have finished it"),
            Error::Library { answer } => write!(to, "the C library answered `{answer}`, which isn't an answer to this call"),
        }
    }
}

impl std::error::Error for Error {}
