//! How a store is opened.

use std::path::Path;
use std::time::Duration;

use super::library::{Handle, How};
use super::opening::Opening;
use super::{limit_of, Store};
use crate::names::Names;
use crate::paths::next_id;
use crate::shared::Shared;
use crate::sys::{System, Text};
use crate::Error;

/// How a store is opened.
///
/// ```
/// use std::time::Duration;
/// use wanzoche::store;
/// # let folder = std::env::temp_dir().join(format!("wanzoche-options-{}", std::process::id()));
/// # std::fs::create_dir_all(&folder).unwrap();
/// # let file = folder.join("pool.log");
///
/// const POOL: &str = "resource pool cell operation query, backup path { query : 3 } , backup end end";
/// let pool = store::Options::new().without_sync().limit(Duration::from_secs(5)).open(POOL, &file)?;
/// drop(pool.enter(pool.op("query")?)?);
/// # std::fs::remove_dir_all(&folder).unwrap();
/// # Ok::<(), wanzoche::Error>(())
/// ```
#[derive(Clone, Debug)]
#[must_use = "`open` opens a store"]
pub struct Options {
    how: How,
    limit: i64,
}

impl Options {
    /// Synced, nothing of the dead is kept, the usual patience, the most room, and no time limit.
    pub fn new() -> Options {
        Options { how: How::default(), limit: -1 }
    }

    /// Answers don't wait for the disk. What processes that die had answered is known all the same, but after a loss of power the last
    /// lines may be missing. Right for what goes down with the machine, as connections and caches.
    pub fn without_sync(mut self) -> Options {
        self.how.no_sync = true;
        self
    }

    /// What dead processes have in progress stays so until [`Store::recover`]. Else whoever finds it in the way finishes it. Give all
    /// processes the same.
    pub fn keep_lost(mut self) -> Options {
        self.how.keep_lost = true;
        self
    }

    /// How long one waits before starts are withheld for it, in whatever process; 5 ms unless you say so. [`Duration::ZERO`] is a strict
    /// order, and [`Duration::MAX`] withholds nothing. It counts in milliseconds, of which a part is one.
    pub fn patience(mut self, patience: Duration) -> Options {
        self.how.is_strict = patience.is_zero();
        self.how.patience = limit_of(patience);
        self
    }

    /// How many lines a file gets before the next is begun, 1 to [`MOST_LINES`](crate::MOST_LINES), and that unless you say so. It counts
    /// where the journal is made; one that is there keeps its own.
    pub fn room(mut self, lines: u32) -> Options {
        // The library takes 0 for the most; here it is a bad room, as for paths of a process.
        self.how.room = if lines == 0 { u32::MAX } else { lines };
        self
    }

    /// How long the opening, and each call that has no time limit of its own, waits for its turn at the file; without end unless you say
    /// so. A turn takes microseconds, so that only matters where a process is stopped in the middle of one: then such a call ends with
    /// [`Error::Late`], within this time and 60 ms. [`Store::enter`] and [`Store::enter_async`] wait without end all the same.
    pub fn limit(mut self, limit: Duration) -> Options {
        self.limit = limit_of(limit);
        self
    }

    /// Opens the store whose journal is this file, which is made if there is none. Reads the whole journal, while others go on, and waits
    /// for the disk. So a task calls it on a thread where it may wait.
    ///
    /// # Errors
    ///
    /// [`Error::Declaration`] and [`Error::BadRoom`]; [`Error::InUse`], [`Error::OtherDeclaration`], [`Error::NotAStore`],
    /// [`Error::Corrupt`], [`Error::System`], [`Error::Late`], and [`Error::OutOfMemory`].
    pub fn open(&self, text: &str, file: impl AsRef<Path>) -> Result<Store, Error> {
        let names = names_of(text)?;
        let opened = Handle::open(file.as_ref().as_os_str(), text, &self.how, self.limit);
        let handle = opened.map_err(|(answer, words)| Error::of_opening(answer, words, text))?;
        Ok(Store { opening: Opening::new(handle, self.limit, !self.how.no_sync)?, names, id: next_id() })
    }
}

/// What the operations and paths of a declaration are called.
fn names_of(text: &str) -> Result<Shared<Names>, Error> {
    let mut system = System::open(text, 1, false).map_err(|answer| Error::of_text(answer, text))?;
    let declaration = system.text(Text::Declaration)?;
    Shared::new(Names::of(declaration, |name| system.operation(name))?)
}

impl Default for Options {
    fn default() -> Options {
        Options::new()
    }
}
