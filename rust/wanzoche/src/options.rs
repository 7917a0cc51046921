//! How paths are opened.

use std::fmt;
use std::time::Duration;

use crate::names::Names;
use crate::paths::next_id;
use crate::queue::Queue;
use crate::shared::Shared;
use crate::state::State;
use crate::sys::{Activation, System, Text};
use crate::threads::pass_over;
use crate::waiting::Monitor;
use crate::{Error, Log, Paths};

/// The most lines that a journal may have room for.
pub const MOST_LINES: u32 = 1_048_576;

/// The room of a journal, unless [`Options::room`] says another.
pub const USUAL_ROOM: u32 = 4_096;

/// How often a thread gives way before it sleeps, unless [`Options::yields`] says otherwise.
pub const USUAL_YIELDS: u32 = 30;

/// How long one waits before starts are withheld for it, unless [`Options::patience`] says otherwise.
pub const USUAL_PATIENCE: Duration = Duration::from_millis(5);

/// How paths are opened.
///
/// ```
/// use wanzoche::Options;
/// let mut kept = String::new();
/// let log = Box::new(move |lines: &str| kept.push_str(lines));
/// let paths = Options::new().room(16).log(log).open("resource shelf cell operation take path take end end")?;
/// # drop(paths); Ok::<(), wanzoche::Error>(())
/// ```
#[must_use = "`open` opens paths"]
pub struct Options {
    room: u32,
    yields: u32,
    patience: Duration,
    log: Option<Log>,
    journal: bool,
}

impl Options {
    /// A room of [`USUAL_ROOM`] lines, [`USUAL_YIELDS`] yields, the [`USUAL_PATIENCE`], a journal, and no log.
    pub fn new() -> Options {
        Options { room: USUAL_ROOM, yields: USUAL_YIELDS, patience: USUAL_PATIENCE, log: None, journal: true }
    }

    /// How many lines the journal takes before the paths begin a new one, 1 to [`MOST_LINES`]. Each start, use and finish takes one, and so
    /// does a start that a path forbids. An operation in progress keeps one for its finish, so there are always fewer of them than the room
    /// has lines. A line takes 144 bytes.
    pub fn room(mut self, lines: u32) -> Options {
        self.room = lines;
        self
    }

    /// How often a thread that may not start gives way to others before it sleeps. Most operations are over sooner than a thread falls
    /// asleep and is woken. 0 is right for operations that take long. Tasks don't give way: they wait at once.
    pub fn yields(mut self, yields: u32) -> Options {
        self.yields = yields;
        self
    }

    /// How long one waits before starts are withheld for it. Until then whoever comes along may pass, which costs no sleep. From then on a
    /// start waits that would stand in the way of one before it, if that one's way is clear: if it would be admitted as soon as all is over
    /// that is in progress for those that don't wait themselves. So readers that overlap keep no writer out, and one that holds something
    /// and asks for more isn't held up by who waits for what it holds.
    ///
    /// After each further 0.2 seconds those may pass that came meanwhile, since the library doesn't see what threads wait for elsewhere.
    ///
    /// [`Duration::ZERO`] is a strict order, in which nobody gives way before it waits. [`Duration::MAX`] withholds nothing: whoever waits
    /// is woken in order, and whoever comes along may pass.
    ///
    /// ```
    /// use std::time::Duration;
    /// use wanzoche::Options;
    ///
    /// let strict = Options::new().patience(Duration::ZERO).open("resource shelf cell operation take path take end end")?;
    /// # drop(strict); Ok::<(), wanzoche::Error>(())
    /// ```
    pub fn patience(mut self, patience: Duration) -> Options {
        self.patience = patience;
        self
    }

    /// What gets the lines of the journal when it is full, before a new one is begun. Without a log they are dropped.
    ///
    /// The log is called under the lock of the paths, by the thread or the task that needs room. So all others wait for it, and it calls
    /// nothing of these paths: that would wait for itself. If it panics, the panic goes on in that thread, nothing is started there, and the
    /// lines stay for the next time.
    pub fn log(mut self, log: Log) -> Options {
        self.log = Some(log);
        self
    }

    /// Keeps no lines, for a service that wants no log: to enter and to leave is quicker, and no new journal is ever begun. Then the
    /// [`room`](Options::room) is that of what is in progress alone, one operation less than it says, and a place takes 32 bytes.
    /// [`Paths::journal`] says [`Error::NoJournal`], and [`Paths::rotate`] does nothing. All other calls answer as with a journal that
    /// has room.
    ///
    /// ```
    /// use wanzoche::{Error, Options};
    /// let paths = Options::new().without_journal().open("resource shelf cell operation take path take end end")?;
    /// let taken = paths.enter(paths.op("take")?)?;
    /// assert_eq!(paths.report()?, "startable\nblocked take 0\nlive 0 1 take\nfrozen no\n");
    /// assert_eq!(paths.journal(), Err(Error::NoJournal));
    /// # drop(taken); Ok::<(), Error>(())
    /// ```
    pub fn without_journal(mut self) -> Options {
        self.journal = false;
        self
    }

    /// Opens paths of the declaration in a text. Takes all the memory that entering and leaving will need, while at most 64 callers wait
    /// at once; beyond, a caller that waits takes what no earlier one has left, and it is kept.
    ///
    /// # Errors
    ///
    /// [`Error::Declaration`] if the text isn't a declaration, [`Error::BadRoom`], and [`Error::OutOfMemory`]. [`Error::NoJournal`] if
    /// there is a log, but no journal.
    pub fn open(self, text: &str) -> Result<Paths, Error> {
        self.wants_its_log()?;
        let system = System::open(text, self.room, self.journal).map_err(|answer| Error::of_text(answer, text))?;
        self.over(system, 0, Vec::new())
    }

    /// Opens paths that go on behind the lines of a journal, as the paths that wrote it would: devices have what they had, activations count
    /// on, and what was in progress is in progress, until [`Paths::recover`] gives you its guards.
    ///
    /// The journal may be of any program, and cut anywhere, as a file is after a crash: [`Paths::resumed`] says how many of its bytes are
    /// whole lines, so cut the rest off before you append to it. Its lines stay yours: [`Paths::journal`] and the log have only new ones,
    /// and joined they are one journal. A room that it names counts instead of [`room`](Options::room).
    ///
    /// No line is believed: each one's reply has to be owed by those before it. Costs that of an audit.
    ///
    /// # Errors
    ///
    /// [`Error::WrongLine`] at the first line whose reply isn't owed, [`Error::Journal`] if the text isn't a journal, and those of
    /// [`open`](Options::open).
    ///
    /// ```
    /// use wanzoche::{Options, Paths};
    ///
    /// const SLOT: &str = "resource slot cell operation deposit, remove path deposit ; remove end end";
    /// let before = Paths::open(SLOT)?;
    /// before.enter(before.op("deposit")?)?.put(7)?;
    /// let mut kept = before.journal()?;
    ///
    /// let paths = Options::new().resume(SLOT, &kept)?;
    /// assert_eq!(paths.resumed(), kept.len() as u64);
    /// assert_eq!(paths.enter(paths.op("remove")?)?.look(), Ok(7));
    /// kept.push_str(&paths.journal()?);
    /// assert_eq!(paths.audit(&kept)?, wanzoche::Verdict::Sound);
    /// # Ok::<(), wanzoche::Error>(())
    /// ```
    pub fn resume(self, text: &str, journal: &str) -> Result<Paths, Error> {
        self.wants_its_log()?;
        let resumed = System::resume(text, journal, self.room, self.journal);
        let (mut system, bytes) = resumed.map_err(|answer| Error::of_text(answer, text))?;
        // The caller has the lines.
        system.rotate();
        let lost = live(&mut system)?;
        pass_over(lost.iter().map(|each| each.worker).max().unwrap_or(0));
        self.over(system, bytes, lost)
    }

    fn wants_its_log(&self) -> Result<(), Error> {
        if self.log.is_some() && !self.journal {
            return Err(Error::NoJournal);
        }
        Ok(())
    }

    fn over(self, mut system: System, resumed: u64, lost: Vec<Activation>) -> Result<Paths, Error> {
        let text = system.text(Text::Declaration)?;
        let names = Shared::new(Names::of(text, |name| system.operation(name))?)?;
        let queue = Queue::new(u64::try_from(self.patience.as_nanos()).unwrap_or(u64::MAX))?;
        let state = State::new(system, queue, names.clone(), self.log, lost)?;
        // Who gives way isn't in line, so another may come before it.
        let yields = if self.patience.is_zero() { 0 } else { self.yields };
        Ok(Paths { monitor: Monitor::new(state, yields)?, names, id: next_id(), resumed })
    }
}

/// All that is in progress.
fn live(system: &mut System) -> Result<Vec<Activation>, Error> {
    let number = system.list_live(&mut []) as usize;
    let mut all = Vec::new();
    all.try_reserve_exact(number).map_err(|_| Error::OutOfMemory)?;
    all.resize(number, Activation::default());
    system.list_live(&mut all);
    Ok(all)
}

impl Default for Options {
    fn default() -> Options {
        Options::new()
    }
}

impl fmt::Debug for Options {
    fn fmt(&self, to: &mut fmt::Formatter<'_>) -> fmt::Result {
        let mut fields = to.debug_struct("Options");
        fields.field("room", &self.room).field("yields", &self.yields).field("patience", &self.patience);
        fields.field("has_log", &self.log.is_some()).field("journal", &self.journal).finish()
    }
}
