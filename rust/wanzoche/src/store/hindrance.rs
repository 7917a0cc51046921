//! What keeps an operation of a store from beginning.

use std::fmt;

use crate::names::Names;
use crate::shared::Shared;

/// What keeps an operation from beginning at a store: a path forbids it, or its start is withheld for one who waits, in whatever process.
///
/// It comes with [`Error::Hindered`](crate::Error::Hindered), and from [`Store::why`](super::Store::why). Who is in progress stands in the
/// [`report`](super::Store::report).
///
/// ```
/// use wanzoche::{Error, Paths};
/// # let folder = std::env::temp_dir().join(format!("wanzoche-hindrance-{}", std::process::id()));
/// # std::fs::create_dir_all(&folder).unwrap();
/// # let file = folder.join("book.log");
///
/// let book = Paths::open_store("resource book cell operation read, write path { read } , write end end", &file)?;
/// let _reads = book.enter(book.op("read")?)?;
/// let why = match book.try_enter(book.op("write")?) {
///     Err(Error::Hindered(why)) => why,
///     other => panic!("the read isn't over: {other:?}"),
/// };
/// assert_eq!(why.to_string(), "write is blocked: path 0 of book: { read }, write");
/// assert_eq!((why.operation(), why.path(), why.behind()), ("write", Some(0), None));
/// # std::fs::remove_dir_all(&folder).unwrap();
/// # Ok::<(), Error>(())
/// ```
#[derive(Clone)]
#[must_use = "it says why the operation wasn't started"]
pub struct Hindrance {
    pub(super) names: Shared<Names>,
    pub(super) operation: u32,
    pub(super) by: By,
}

/// By numbers.
#[derive(Clone, Copy, Debug, PartialEq, Eq)]
pub(super) enum By {
    Path(u32),
    /// One who waits for this operation.
    Waiter(u32),
}

impl Hindrance {
    /// The name of the operation that may not begin.
    #[must_use]
    pub fn operation(&self) -> &str {
        self.names.operation(self.operation)
    }

    /// The first path that forbids it, counted from 0 in the order of the declaration; `None` if it is withheld.
    #[must_use]
    pub fn path(&self) -> Option<u32> {
        match self.by {
            By::Path(path) => Some(path),
            By::Waiter(_) => None,
        }
    }

    /// What this path says, as `{ read }, write`; nothing if it is withheld.
    #[must_use]
    pub fn text(&self) -> &str {
        self.path().and_then(|path| self.names.path(path)).unwrap_or("")
    }

    /// The resource whose path it is; nothing if it is withheld.
    #[must_use]
    pub fn resource(&self) -> &str {
        self.path().map_or("", |path| self.names.resource(path))
    }

    /// The operation of the one who waits for whom the start is withheld; `None` if a path forbids it.
    #[must_use]
    pub fn behind(&self) -> Option<&str> {
        match self.by {
            By::Path(_) => None,
            By::Waiter(operation) => Some(self.names.operation(operation)),
        }
    }
}

impl fmt::Display for Hindrance {
    fn fmt(&self, to: &mut fmt::Formatter<'_>) -> fmt::Result {
        match self.by {
            By::Path(path) => write!(to, "{} is blocked: path {path} of {}: {}", self.operation(), self.resource(), self.text()),
            By::Waiter(other) => write!(to, "{} is behind {}, which waits", self.operation(), self.names.operation(other)),
        }
    }
}

impl fmt::Debug for Hindrance {
    fn fmt(&self, to: &mut fmt::Formatter<'_>) -> fmt::Result {
        write!(to, "Hindrance({:?})", self.to_string())
    }
}

impl PartialEq for Hindrance {
    fn eq(&self, other: &Hindrance) -> bool {
        (self.operation, self.by) == (other.operation, other.by) && self.names.declaration() == other.names.declaration()
    }
}

impl Eq for Hindrance {}
