//! The store of the C library. All that is unsafe in this part of the crate is here and in its steps.

use std::ffi::OsStr;
use std::os::raw::c_char;
use std::os::unix::ffi::OsStrExt;
use std::process;
use std::ptr::{self, NonNull};
use std::sync::atomic::{AtomicPtr, Ordering};

use crate::memory::space;
use crate::sys::{code, text_in, zeroes, Answer, Verb};
use crate::Error;

/// The codes of a store's answers, as wanzoche_store.h has them, behind those of wanzoche.h.
pub(crate) mod answer {
    pub(crate) const LATE: u32 = 64;
    pub(crate) const OWED: u32 = 65;
    pub(crate) const SYSTEM: u32 = 66;
    pub(crate) const IN_USE: u32 = 67;
    pub(crate) const OTHER_DECLARATION: u32 = 68;
    pub(crate) const NOT_A_STORE: u32 = 69;
    pub(crate) const CORRUPT: u32 = 70;
    pub(crate) const UNSYNCED: u32 = 71;
    pub(crate) const FORKED: u32 = 72;
    pub(crate) const ALIVE: u32 = 73;
    pub(crate) const RECOVERED: u32 = 74;
    pub(crate) const COUNTED: u32 = 75;
    pub(crate) const CALLED: u32 = 76;
    pub(crate) const SYNCED: u32 = 78;
}

impl Answer {
    pub(super) fn has_started(self) -> bool {
        self.code == code::STARTED
    }
}

/// A size that is enough for each message.
const MESSAGE: usize = 512;

/// So much more room than it was a text gets, for lines that come meanwhile.
const MORE: usize = 4096;

/// The error of a file's name with a zero byte in it.
const EINVAL: u64 = 22;

/// The struct `wanzoche_store`, of which only the library knows what is in it.
#[repr(C)]
pub(super) struct Opened {
    _private: [u8; 0],
}

/// The struct `wanzoche_store_options`.
#[repr(C)]
#[derive(Clone, Copy, Debug, Default, PartialEq, Eq)]
pub(super) struct How {
    pub(super) no_sync: bool,
    pub(super) keep_lost: bool,
    pub(super) is_strict: bool,
    pub(super) patience: i64,
    pub(super) room: u32,
}

extern "C" {
    fn wanzoche_store_open(
        store: *mut *mut Opened,
        file: *const c_char,
        text: *const c_char,
        length: usize,
        options: *const How,
        limit: i64,
        message: *mut c_char,
        size: usize,
    ) -> Answer;
    fn wanzoche_store_close(store: *mut Opened, limit: i64) -> Answer;
    fn wanzoche_store_enter_with_priority(store: *mut Opened, operation: u32, priority: u32, limit: i64) -> Answer;
    fn wanzoche_store_leave(store: *mut Opened, activation: u64, limit: i64) -> Answer;
    fn wanzoche_store_use(store: *mut Opened, activation: u64, verb: u32, number: u64, limit: i64) -> Answer;
    fn wanzoche_store_can_start(store: *mut Opened, operation: u32, limit: i64) -> Answer;
    fn wanzoche_store_report(store: *mut Opened, buffer: *mut c_char, size: usize, limit: i64) -> Answer;
    fn wanzoche_store_waiting(store: *mut Opened, operation: u32) -> Answer;
    fn wanzoche_store_recover(store: *mut Opened, worker: u32, even_alive: bool, limit: i64) -> Answer;
    fn wanzoche_store_rotate(store: *mut Opened, limit: i64) -> Answer;
    fn wanzoche_store_journal(store: *mut Opened, buffer: *mut c_char, size: usize, limit: i64) -> Answer;
    fn wanzoche_store_audit(store: *mut Opened, limit: i64) -> Answer;
    fn wanzoche_store_operation(store: *mut Opened, name: *const c_char, length: usize) -> i64;
    fn wanzoche_store_worker(store: *const Opened) -> u32;
    fn wanzoche_store_message(store: *mut Opened, buffer: *mut c_char, size: usize);
}

/// The texts that a store writes.
#[derive(Clone, Copy)]
pub(super) enum Text {
    Report,
    Journal,
}

/// An opening of a store, until [`close`](Handle::close). Then it is null, and each call answers that it is closed.
#[derive(Debug)]
pub(super) struct Handle {
    at: AtomicPtr<Opened>,
    process: u32,
}

impl Drop for Handle {
    fn drop(&mut self) {
        self.close(0);
    }
}

impl Handle {
    /// Opens a store. The error has the library's words for why not.
    pub(super) fn open(file: &OsStr, text: &str, how: &How, limit: i64) -> Result<Handle, (Answer, String)> {
        let no_memory = |_| (Answer { code: code::OUT_OF_MEMORY, number: 0 }, String::new());
        let name = name_of(file).map_err(no_memory)?;
        if name.len() != file.as_bytes().len() + 1 {
            return Err((Answer { code: answer::SYSTEM, number: EINVAL }, String::new()));
        }
        let mut message = zeroes(MESSAGE).map_err(no_memory)?;
        let mut at = ptr::null_mut();
        let (from, lies, said) = (name.as_ptr().cast(), text.as_ptr().cast(), message.as_mut_ptr().cast());
        // SAFETY: the name ends with a zero byte, the text and the message have as many bytes as the call is told, and the options are
        // those of the header. The call keeps none of them.
        let answer = unsafe { wanzoche_store_open(&mut at, from, lies, text.len(), how, limit, said, message.len()) };
        match NonNull::new(at) {
            Some(at) => Ok(Handle { at: AtomicPtr::new(at.as_ptr()), process: process::id() }),
            None => Err((answer, text_in(message))),
        }
    }

    /// The opening, or null. Nobody closes it while others have it: [`close`](Handle::close) wants that.
    pub(super) fn at(&self) -> *mut Opened {
        self.at.load(Ordering::Acquire)
    }

    /// Whether this is the child of a fork, which has no part in it.
    pub(super) fn is_forked(&self) -> bool {
        self.process != process::id()
    }

    /// Ends the opening. The caller sees to it that no other call is under way, or comes at the same time.
    pub(super) fn close(&self, limit: i64) -> Answer {
        let at = self.at.swap(ptr::null_mut(), Ordering::AcqRel);
        // SAFETY: it was opened, and is closed only once, since nobody finds it here any more. A null one is allowed.
        unsafe { wanzoche_store_close(at, limit) }
    }

    pub(super) fn enter(&self, operation: u32, priority: u32, limit: i64) -> Answer {
        // SAFETY: the header says under THREADS that all calls may come from any thread at any time. Each number is allowed, and so is a
        // null store. The same holds of the calls below.
        unsafe { wanzoche_store_enter_with_priority(self.at(), operation, priority, limit) }
    }

    pub(super) fn leave(&self, activation: u64, limit: i64) -> Answer {
        // SAFETY: as above.
        unsafe { wanzoche_store_leave(self.at(), activation, limit) }
    }

    pub(super) fn use_device(&self, activation: u64, verb: Verb, number: u64, limit: i64) -> Answer {
        // SAFETY: as above.
        unsafe { wanzoche_store_use(self.at(), activation, verb as u32, number, limit) }
    }

    pub(super) fn can_start(&self, operation: u32, limit: i64) -> Answer {
        // SAFETY: as above.
        unsafe { wanzoche_store_can_start(self.at(), operation, limit) }
    }

    pub(super) fn waiting(&self, operation: u32) -> Answer {
        // SAFETY: as above.
        unsafe { wanzoche_store_waiting(self.at(), operation) }
    }

    pub(super) fn recover(&self, worker: u32, even_alive: bool, limit: i64) -> Answer {
        // SAFETY: as above.
        unsafe { wanzoche_store_recover(self.at(), worker, even_alive, limit) }
    }

    pub(super) fn rotate(&self, limit: i64) -> Answer {
        // SAFETY: as above.
        unsafe { wanzoche_store_rotate(self.at(), limit) }
    }

    pub(super) fn audit(&self, limit: i64) -> Answer {
        // SAFETY: as above.
        unsafe { wanzoche_store_audit(self.at(), limit) }
    }

    pub(super) fn worker(&self) -> u32 {
        // SAFETY: as above.
        unsafe { wanzoche_store_worker(self.at()) }
    }

    pub(super) fn operation(&self, name: &str) -> Option<u32> {
        // SAFETY: as above, and the name has as many bytes as the call is told.
        let number = unsafe { wanzoche_store_operation(self.at(), name.as_ptr().cast(), name.len()) };
        u32::try_from(number).ok()
    }

    /// A text that the store writes. It may grow between two calls, so it is asked for until it fits.
    pub(super) fn text(&self, which: Text, limit: i64) -> Result<(Answer, String), Error> {
        let call = match which {
            Text::Report => wanzoche_store_report,
            Text::Journal => wanzoche_store_journal,
        };
        let mut buffer: Vec<u8> = Vec::new();
        loop {
            // SAFETY: as above, and the buffer has as many bytes as the call is told.
            let answer = unsafe { call(self.at(), buffer.as_mut_ptr().cast(), buffer.len(), limit) };
            if answer.code != code::TOO_SMALL {
                return Ok((answer, text_in(buffer)));
            }
            let length = usize::try_from(answer.number).map_err(|_| Error::OutOfMemory)?;
            buffer = zeroes(length.checked_add(MORE).ok_or(Error::OutOfMemory)?)?;
        }
    }

    /// The library's words for this answer to the last call of this thread, where they say more; none without memory for them.
    pub(super) fn words(&self, told: Answer) -> String {
        if !matches!(told.code, answer::SYSTEM | answer::CORRUPT | answer::NOT_A_STORE) {
            return String::new();
        }
        let mut message = zeroes(MESSAGE).unwrap_or_default();
        // SAFETY: as above.
        unsafe { wanzoche_store_message(self.at(), message.as_mut_ptr().cast(), message.len()) };
        text_in(message)
    }
}

/// The bytes of a file's name up to its first zero byte, with one behind.
fn name_of(file: &OsStr) -> Result<Vec<u8>, Error> {
    let mut name = Vec::new();
    space(&mut name, file.len() + 1)?;
    name.extend(file.as_bytes().iter().take_while(|byte| **byte != 0));
    name.push(0);
    Ok(name)
}

#[cfg(test)]
mod tests {
    use std::fs;
    use std::path::Path;

    use super::answer;
    use crate::store::steps::LISTEN;
    use crate::sys::{code, Answer};
    use crate::Error;

    /// The number of a code in the header, which lies elsewhere in a package.
    fn in_header(header: &str, name: &str) -> u32 {
        let folder = Path::new(env!("CARGO_MANIFEST_DIR"));
        let places = ["native/include", "../../include"].map(|place| folder.join(place).join(header));
        let text = places.iter().find_map(|place| fs::read_to_string(place).ok()).expect("the header");
        let line = text.lines().find_map(|line| line.trim().strip_prefix("WANZOCHE_")?.strip_prefix(name)?.strip_prefix(" = "));
        let digits = line.expect(name).split(|sign: char| !sign.is_ascii_digit()).next();
        digits.and_then(|digits| digits.parse().ok()).expect(name)
    }

    fn error(code: u32) -> Error {
        Error::of_store(Answer { code, number: 28 }, "the words".to_string())
    }

    #[test]
    fn each_code_of_the_header_has_its_error() {
        let words = || "the words".to_string();
        let all = [
            ("LATE", answer::LATE, Error::Late),
            ("SYSTEM", answer::SYSTEM, Error::System { errno: 28, words: words() }),
            ("IN_USE", answer::IN_USE, Error::InUse { words: words() }),
            ("OTHER_DECLARATION", answer::OTHER_DECLARATION, Error::OtherDeclaration { words: words() }),
            ("NOT_A_STORE", answer::NOT_A_STORE, Error::NotAStore { words: words() }),
            ("CORRUPT", answer::CORRUPT, Error::Corrupt { line: 28, words: words() }),
            ("UNSYNCED", answer::UNSYNCED, Error::Unsynced { errno: 28 }),
            ("FORKED", answer::FORKED, Error::Forked),
            ("ALIVE", answer::ALIVE, Error::Alive),
        ];
        for (name, code, wanted) in all {
            assert_eq!((in_header("wanzoche_store.h", name), error(code)), (code, wanted));
            assert!(!error(code).to_string().contains("isn't an answer"));
        }
        let more = [("OWED", answer::OWED), ("RECOVERED", answer::RECOVERED), ("COUNTED", answer::COUNTED), ("SYNCED", answer::SYNCED)];
        for (name, code) in more.into_iter().chain([("CALLED", answer::CALLED), ("LISTEN", LISTEN)]) {
            assert_eq!(in_header("wanzoche_store.h", name), code);
        }
    }

    #[test]
    fn each_code_that_a_store_has_of_paths() {
        let all = [
            ("CLOSED", code::CLOSED, Error::Closed),
            ("STALE", code::STALE, Error::NotInProgress),
            ("NOT_YOURS", code::NOT_YOURS, Error::NotInProgress),
            ("NO_ROOM", code::NO_ROOM, Error::NoRoom),
            ("NOT_OFFERED", code::NOT_OFFERED, Error::NotOffered),
            ("EMPTY", code::EMPTY, Error::Empty),
            ("FULL", code::FULL, Error::Full),
            ("OVERFLOW", code::OVERFLOW, Error::Overflow),
            ("OUT_OF_MEMORY", code::OUT_OF_MEMORY, Error::OutOfMemory),
        ];
        for (name, code, wanted) in all {
            assert_eq!((in_header("wanzoche.h", name), error(code)), (code, wanted));
        }
        assert_eq!(in_header("wanzoche.h", "FINISHED"), code::FINISHED);
        assert_eq!(in_header("wanzoche.h", "ROTATED"), code::ROTATED);
    }

    #[test]
    fn words_where_the_library_has_none() {
        let of = |code, number| Error::of_store(Answer { code, number }, String::new()).to_string();
        assert_eq!(of(answer::SYSTEM, 28), "No space left on device (os error 28)");
        assert_eq!(of(answer::UNSYNCED, 5), "a sync of the store failed: Input/output error (os error 5)");
        assert!([answer::CORRUPT, answer::NOT_A_STORE].iter().all(|code| !of(*code, 0).is_empty()));
    }
}
