//! The C library's calls for paths of one process. Those for a store are in its own module.
//!
//! A [`System`] owns an open handle, and each of its calls has the handle for itself, since it takes `&mut self`. The rest of the crate
//! keeps it under a lock.

use std::ffi::CStr;
use std::os::raw::c_char;
use std::ptr;

use crate::Error;

/// The struct `wanzoche` of wanzoche.h.
#[repr(C)]
struct Handle {
    at: *mut u8,
    live: bool,
}

/// The struct `wanzoche_answer`: what a call answers.
#[repr(C)]
#[derive(Clone, Copy, Debug)]
pub(crate) struct Answer {
    pub(crate) code: u32,
    pub(crate) number: u64,
}

/// The struct `wanzoche_activation`: an operation in progress.
#[repr(C)]
#[derive(Clone, Copy, Debug, Default)]
pub(crate) struct Activation {
    pub(crate) number: u64,
    pub(crate) worker: u32,
    pub(crate) operation: u32,
}

/// The struct `wanzoche_waiter`: one that waits, and for whom others are kept from starting.
#[repr(C)]
#[derive(Clone, Copy, Debug, PartialEq, Eq)]
pub(crate) struct InLine {
    pub(crate) operation: u32,
    pub(crate) priority: u32,
    /// When it came, in nanoseconds since the paths were opened.
    pub(crate) arrived: u64,
    /// Starts of those that came later than this are withheld for it; `u64::MAX`: of nobody.
    pub(crate) shut_at: u64,
}

/// The codes of answers that this crate tells apart, as wanzoche.h has them.
pub(crate) mod code {
    pub(crate) const CLOSED: u32 = 0;
    pub(crate) const STARTED: u32 = 1;
    pub(crate) const BLOCKED: u32 = 2;
    pub(crate) const USED: u32 = 4;
    pub(crate) const NOT_OFFERED: u32 = 5;
    pub(crate) const EMPTY: u32 = 6;
    pub(crate) const FULL: u32 = 7;
    pub(crate) const OVERFLOW: u32 = 8;
    pub(crate) const FINISHED: u32 = 10;
    pub(crate) const STALE: u32 = 11;
    pub(crate) const NOT_YOURS: u32 = 12;
    pub(crate) const NO_ROOM: u32 = 13;
    pub(crate) const CAN_START: u32 = 15;
    pub(crate) const ROTATED: u32 = 16;
    pub(crate) const WRITTEN: u32 = 17;
    pub(crate) const TOO_SMALL: u32 = 18;
    pub(crate) const OPENED: u32 = 19;
    pub(crate) const BAD_ROOM: u32 = 21;
    pub(crate) const OUT_OF_MEMORY: u32 = 22;
    pub(crate) const SOUND: u32 = 23;
    pub(crate) const WRONG_LINE: u32 = 24;
    pub(crate) const JOURNAL_TOO_LONG: u32 = 25;
    pub(crate) const BAD_LINE: u32 = 26;
    pub(crate) const UNDECLARED_LINE: u32 = 27;
    pub(crate) const NO_JOURNAL: u32 = 28;
    pub(crate) const TOO_LONG: u32 = 32;
    pub(crate) const BAD_BYTE: u32 = 33;
    pub(crate) const TOO_MANY: u32 = 45;
    pub(crate) const ALL_DONE: u32 = 47;
    pub(crate) const STALLS: u32 = 48;
    pub(crate) const REFUSED: u32 = 49;
    pub(crate) const UNDECIDED: u32 = 50;
    pub(crate) const SCRIPT_TOO_LONG: u32 = 51;
    pub(crate) const SCRIPT_BAD_LINE: u32 = 52;
    pub(crate) const SCRIPT_TOO_MANY: u32 = 56;
    pub(crate) const WITHHELD: u32 = 57;
    pub(crate) const NEXT: u32 = 58;
    pub(crate) const NOBODY: u32 = 59;
}

/// What a use does to the device of a resource: the verbs of wanzoche.h.
#[derive(Clone, Copy)]
#[repr(u32)]
pub(crate) enum Verb {
    Put = 0,
    Take = 1,
    Look = 2,
    Add = 3,
}

extern "C" {
    fn wanzoche_open(handle: *mut Handle, text: *const c_char, length: usize, room: u32, message: *mut c_char, size: usize) -> Answer;
    fn wanzoche_open_without_journal(
        handle: *mut Handle,
        text: *const c_char,
        length: usize,
        room: u32,
        message: *mut c_char,
        size: usize,
    ) -> Answer;
    fn wanzoche_resume(
        handle: *mut Handle,
        text: *const c_char,
        length: usize,
        room: u32,
        journal: *const c_char,
        journal_length: usize,
        message: *mut c_char,
        size: usize,
    ) -> Answer;
    fn wanzoche_resume_without_journal(
        handle: *mut Handle,
        text: *const c_char,
        length: usize,
        room: u32,
        journal: *const c_char,
        journal_length: usize,
        message: *mut c_char,
        size: usize,
    ) -> Answer;
    fn wanzoche_close(handle: *mut Handle);
    fn wanzoche_operation(handle: *mut Handle, name: *const c_char, length: usize) -> i64;
    fn wanzoche_start(handle: *mut Handle, worker: u32, operation: u32) -> Answer;
    fn wanzoche_use(handle: *mut Handle, worker: u32, activation: u64, verb: u32, number: u64) -> Answer;
    fn wanzoche_finish(handle: *mut Handle, worker: u32, activation: u64) -> Answer;
    fn wanzoche_can_start(handle: *mut Handle, operation: u32) -> Answer;
    fn wanzoche_may_start(
        handle: *mut Handle,
        operation: u32,
        priority: u32,
        arrived: u64,
        waiting: *const InLine,
        waiters: usize,
        running: *const u32,
        count: usize,
    ) -> Answer;
    fn wanzoche_next(handle: *mut Handle, waiting: *const InLine, waiters: usize, running: *const u32, count: usize) -> Answer;
    fn wanzoche_lines(handle: *mut Handle) -> usize;
    fn wanzoche_list_live(handle: *mut Handle, list: *mut Activation, capacity: u32) -> u32;
    fn wanzoche_journal(handle: *mut Handle, buffer: *mut c_char, size: usize) -> Answer;
    fn wanzoche_report(handle: *mut Handle, buffer: *mut c_char, size: usize) -> Answer;
    fn wanzoche_declaration(handle: *mut Handle, buffer: *mut c_char, size: usize) -> Answer;
    fn wanzoche_rotate(handle: *mut Handle) -> Answer;
    fn wanzoche_audit(
        declaration: *const c_char,
        length: usize,
        room: u32,
        journal: *const c_char,
        journal_length: usize,
        message: *mut c_char,
        size: usize,
    ) -> Answer;
    fn wanzoche_explore(
        declaration: *const c_char,
        length: usize,
        script: *const c_char,
        script_length: usize,
        most: u32,
        journal: *mut c_char,
        journal_size: usize,
        message: *mut c_char,
        size: usize,
    ) -> Answer;
    fn wanzoche_words(code: u32) -> *const c_char;
    fn wanzoche_version() -> *const c_char;
}

/// The texts that a system writes.
#[derive(Clone, Copy)]
pub(crate) enum Text {
    Journal,
    Report,
    Declaration,
}

/// A system of the C library: an open handle, closed when it is dropped.
pub(crate) struct System {
    handle: Handle,
}

// SAFETY: the header says under THREADS that a handle is for one thread at a time, which need not be the one that opened it. The
// pointer in it is the library's own, and nothing else in this program has it.
unsafe impl Send for System {}

impl System {
    /// Opens a system of the declaration in a text, with a journal of `room` lines or, without one, with room for what is live. The
    /// answer says why not.
    pub(crate) fn open(text: &str, room: u32, journal: bool) -> Result<System, Answer> {
        let mut system = System { handle: Handle { at: ptr::null_mut(), live: false } };
        let call = if journal { wanzoche_open } else { wanzoche_open_without_journal };
        // SAFETY: the handle is closed, and the call's alone. The text is `text.len()` bytes, which the call only reads and doesn't
        // keep. A null message is allowed.
        let answer = unsafe { call(&mut system.handle, text.as_ptr().cast(), text.len(), room, ptr::null_mut(), 0) };
        match answer.code {
            code::OPENED => Ok(system),
            _ => Err(answer),
        }
    }

    /// Opens a system that goes on behind the lines of a journal, and says in how many of its bytes whole lines stand.
    pub(crate) fn resume(text: &str, journal: &str, room: u32, keeps: bool) -> Result<(System, u64), Answer> {
        let mut system = System { handle: Handle { at: ptr::null_mut(), live: false } };
        let call = if keeps { wanzoche_resume } else { wanzoche_resume_without_journal };
        let (at, lines) = (text.as_ptr().cast(), journal.as_ptr().cast());
        // SAFETY: the handle is closed, and the call's alone. Both texts have as many bytes as the call is told, which it only reads and
        // doesn't keep. A null message is allowed.
        let answer = unsafe { call(&mut system.handle, at, text.len(), room, lines, journal.len(), ptr::null_mut(), 0) };
        match answer.code {
            code::OPENED => Ok((system, answer.number)),
            _ => Err(answer),
        }
    }

    /// The number of the operation with this name.
    pub(crate) fn operation(&mut self, name: &str) -> Option<u32> {
        // SAFETY: the handle is this call's alone, and the name is `name.len()` bytes, which the call only reads and doesn't keep.
        let number = unsafe { wanzoche_operation(&mut self.handle, name.as_ptr().cast(), name.len()) };
        u32::try_from(number).ok()
    }

    /// Writes what is in progress to a list, in the order of the starts, as far as it has place, and says how much there is.
    pub(crate) fn list_live(&mut self, list: &mut [Activation]) -> u32 {
        let capacity = u32::try_from(list.len()).unwrap_or(u32::MAX);
        // SAFETY: the handle is this call's alone, and the list has at least as many places as the call is told.
        unsafe { wanzoche_list_live(&mut self.handle, list.as_mut_ptr(), capacity) }
    }

    /// Tries to start an operation for a worker.
    #[inline]
    pub(crate) fn start(&mut self, worker: u32, operation: u32) -> Answer {
        // SAFETY: the handle is this call's alone. Each number is allowed.
        unsafe { wanzoche_start(&mut self.handle, worker, operation) }
    }

    /// Uses the device of a live activation.
    pub(crate) fn use_device(&mut self, worker: u32, activation: u64, verb: Verb, number: u64) -> Answer {
        // SAFETY: the handle is this call's alone. Each number is allowed.
        unsafe { wanzoche_use(&mut self.handle, worker, activation, verb as u32, number) }
    }

    /// Finishes a live activation.
    #[inline]
    pub(crate) fn finish(&mut self, worker: u32, activation: u64) -> Answer {
        // SAFETY: the handle is this call's alone. Each number is allowed.
        unsafe { wanzoche_finish(&mut self.handle, worker, activation) }
    }

    /// Whether a start of the operation would be admitted now.
    pub(crate) fn can_start(&mut self, operation: u32) -> Answer {
        // SAFETY: the handle is this call's alone. Each number is allowed.
        unsafe { wanzoche_can_start(&mut self.handle, operation) }
    }

    /// Whether a start of one that comes behind these may go now, where so much runs.
    pub(crate) fn may_start(&mut self, one: InLine, before: &[InLine], running: &[u32]) -> Answer {
        let InLine { operation, priority, arrived, .. } = one;
        let (waiting, operations) = (before.as_ptr(), running.as_ptr());
        // SAFETY: the handle is this call's alone, and both lists have as many places as the call is told. It only reads them, and doesn't
        // keep them. Each number is allowed.
        unsafe { wanzoche_may_start(&mut self.handle, operation, priority, arrived, waiting, before.len(), operations, running.len()) }
    }

    /// Which of those that wait comes next, where so much runs.
    pub(crate) fn next(&mut self, waiting: &[InLine], running: &[u32]) -> Answer {
        // SAFETY: as above.
        unsafe { wanzoche_next(&mut self.handle, waiting.as_ptr(), waiting.len(), running.as_ptr(), running.len()) }
    }

    /// How many lines the journal has.
    pub(crate) fn lines(&mut self) -> usize {
        // SAFETY: the handle is this call's alone.
        unsafe { wanzoche_lines(&mut self.handle) }
    }

    /// Gives up the lines of the journal, and counts the room anew.
    pub(crate) fn rotate(&mut self) {
        // SAFETY: the handle is this call's alone. The only other answer than that it was done is that the handle is closed, which it
        // never is before it is dropped.
        unsafe { wanzoche_rotate(&mut self.handle) };
    }

    /// A text that the system writes; else [`Error::OutOfMemory`], or [`Error::NoJournal`] if it is that of a journal which isn't kept.
    pub(crate) fn text(&mut self, which: Text) -> Result<String, Error> {
        let call = match which {
            Text::Journal => wanzoche_journal,
            Text::Report => wanzoche_report,
            Text::Declaration => wanzoche_declaration,
        };
        // SAFETY: the handle is this call's alone. A null buffer of no bytes is allowed, and the answer says how many bytes it takes.
        let answer = unsafe { call(&mut self.handle, ptr::null_mut(), 0) };
        match answer.code {
            code::TOO_SMALL => {}
            code::NO_JOURNAL => return Err(Error::NoJournal),
            _ => return Err(Error::OutOfMemory),
        }
        let length = usize::try_from(answer.number).map_err(|_| Error::OutOfMemory)?;
        let mut buffer = zeroes(length.checked_add(1).ok_or(Error::OutOfMemory)?)?;
        // SAFETY: as above, and the buffer has as many bytes as the call is told, which lie apart from the handle.
        let answer = unsafe { call(&mut self.handle, buffer.as_mut_ptr().cast(), buffer.len()) };
        if answer.code != code::WRITTEN {
            return Err(Error::OutOfMemory);
        }
        Ok(text_in(buffer))
    }
}

impl Drop for System {
    fn drop(&mut self) {
        // SAFETY: the handle is this call's alone, and nobody has it afterwards. To close a handle that is closed does nothing.
        unsafe { wanzoche_close(&mut self.handle) }
    }
}

/// So many zero bytes, or [`Error::OutOfMemory`].
pub(crate) fn zeroes(length: usize) -> Result<Vec<u8>, Error> {
    let mut bytes = Vec::new();
    bytes.try_reserve_exact(length).map_err(|_| Error::OutOfMemory)?;
    bytes.resize(length, 0);
    Ok(bytes)
}

/// Replays a journal under a declaration; `room` counts if the journal doesn't name its own.
pub(crate) fn audit(declaration: &str, room: u32, journal: &str) -> Answer {
    let (text, lines) = (declaration.as_ptr().cast(), journal.as_ptr().cast());
    // SAFETY: both texts have as many bytes as the call is told. It only reads them, and doesn't keep them. A null message is allowed.
    unsafe { wanzoche_audit(text, declaration.len(), room, lines, journal.len(), ptr::null_mut(), 0) }
}

/// The room for the lines of processes that is enough for each message.
const STANDINGS: usize = 1280;

/// Looks at the schedules of a script. The answer says what all come to; the texts are the journal and the processes of one that goes wrong.
pub(crate) fn explore(declaration: &str, script: &str, most: u32) -> Result<(Answer, String, String), Error> {
    let (text, steps) = (declaration.as_ptr().cast(), script.as_ptr().cast());
    let call = |journal: &mut [u8], message: &mut [u8]| {
        let (lines, said) = (journal.as_mut_ptr().cast(), message.as_mut_ptr().cast());
        // SAFETY: all four have as many bytes as the call is told, and lie apart. It only reads the first two, and doesn't keep them.
        unsafe { wanzoche_explore(text, declaration.len(), steps, script.len(), most, lines, journal.len(), said, message.len()) }
    };
    let mut message = zeroes(STANDINGS)?;
    let asked = call(&mut [], &mut message);
    let enough = if asked.code == code::TOO_SMALL { asked.number.saturating_add(1) } else { 0 };
    let mut journal = zeroes(usize::try_from(enough).map_err(|_| Error::OutOfMemory)?)?;
    let answer = call(&mut journal, &mut message);
    Ok((answer, text_in(journal), text_in(message)))
}

/// The text in a buffer, up to its zero byte. The library's texts are ASCII.
pub(crate) fn text_in(mut buffer: Vec<u8>) -> String {
    let length = buffer.iter().position(|byte| *byte == 0).unwrap_or(0);
    buffer.truncate(length);
    String::from_utf8(buffer).unwrap_or_default()
}

/// A code in words.
pub(crate) fn words(code: u32) -> &'static str {
    // SAFETY: the answer is never null, and leads to a constant text that ends with a zero byte.
    let text = unsafe { CStr::from_ptr(wanzoche_words(code)) };
    text.to_str().unwrap_or("no such code")
}

/// The version of the library.
pub(crate) fn version() -> &'static str {
    // SAFETY: the answer is never null, and leads to a constant text that ends with a zero byte.
    let text = unsafe { CStr::from_ptr(wanzoche_version()) };
    text.to_str().unwrap_or("")
}
