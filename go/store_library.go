package wanzoche

// #include <stdlib.h>
// #include <wanzoche_store.h>
import "C"

import (
	"runtime"
	"sync"
	"unsafe"
)

// The codes of a store's answers, as in wanzoche_store.h.
const (
	codeNotYours         = C.WANZOCHE_NOT_YOURS
	codeLate             = C.WANZOCHE_LATE
	codeOwed             = C.WANZOCHE_OWED
	codeSystem           = C.WANZOCHE_SYSTEM
	codeInUse            = C.WANZOCHE_IN_USE
	codeOtherDeclaration = C.WANZOCHE_OTHER_DECLARATION
	codeNotAStore        = C.WANZOCHE_NOT_A_STORE
	codeCorrupt          = C.WANZOCHE_CORRUPT
	codeUnsynced         = C.WANZOCHE_UNSYNCED
	codeForked           = C.WANZOCHE_FORKED
	codeAlive            = C.WANZOCHE_ALIVE
	codeRecovered        = C.WANZOCHE_RECOVERED
	codeCounted          = C.WANZOCHE_COUNTED
	codeCalled           = C.WANZOCHE_CALLED
	codeSynced           = C.WANZOCHE_SYNCED
	codeLost             = C.WANZOCHE_LOST
)

// record is an operation by steps. Only the library looks at what is in it, and it stays where it is while it waits or is live.
type record C.wanzoche_store_record

// rings are what one who listens has heard.
type rings C.uint32_t

// How a step goes on that isn't admitted: it doesn't wait, or another goroutine listens for it.
const (
	tries   = C.WANZOCHE_TRY
	listens = C.WANZOCHE_LISTEN
)

// piece is for how many milliseconds a step waits for its turn before it looks what else there is.
const piece = 45

// storeHandle is an opening of the library. All calls may come from any thread, but none may come when close has begun.
type storeHandle struct {
	opened *C.wanzoche_store
	syncs  bool // whether answers wait for the disk
	disk   sync.Mutex
}

// open opens a store. A negative patience is endless, and one of 0 the usual.
func (h *storeHandle) open(file, text string, o StoreOptions, patience, limit int64) answer {
	name := C.CString(file)
	defer C.free(unsafe.Pointer(name))
	lies, length := bytesOf(text)
	message := make([]byte, C.WANZOCHE_STORE_MESSAGE)
	to, size := bufferOf(message)
	options := C.wanzoche_store_options{
		no_sync: C.bool(o.NoSync), keep_lost: C.bool(o.KeepLost), is_strict: C.bool(o.Patience < 0),
		patience: C.int64_t(patience), room: C.uint32_t(o.Room),
	}
	h.syncs = !o.NoSync
	given := answerOf(C.wanzoche_store_open(&h.opened, name, lies, length, &options, C.int64_t(limit), to, size))
	given.words = messageOf(message)
	return given
}

func (h *storeHandle) close(limit int64) answer {
	return answerOf(C.wanzoche_store_close(h.opened, C.int64_t(limit)))
}

// told is what a call answers, with the library's words for a failure, which it has for the thread of the call.
func (h *storeHandle) told(call func() C.wanzoche_answer) answer {
	runtime.LockOSThread()
	defer runtime.UnlockOSThread()
	given := answerOf(call())
	switch given.code {
	case codeSystem, codeCorrupt, codeNotAStore, codeUnsynced:
		given.words = h.message()
	}
	return given
}

// newRecord is memory of the library's, which is given back by free; nil if there is none.
func newRecord() *record { return (*record)(C.calloc(1, C.sizeof_wanzoche_store_record)) }

func (r *record) free() { C.free(unsafe.Pointer(r)) }

// waits says whether it stands among those that wait.
func (r *record) waits() bool { return bool(r.is_waiting) }

func (r *record) at() *C.wanzoche_store_record { return (*C.wanzoche_store_record)(r) }

// begin is the first step, which comes again behind each wait. A goroutine is no thread, so nobody is known by what it begins. The limit,
// in milliseconds, is that of the wait for its turn.
func (h *storeHandle) begin(operation, priority, waits uint32, r *record, limit int64) answer {
	return h.told(func() C.wanzoche_answer {
		return C.wanzoche_store_begin(h.opened, C.uint32_t(operation), C.uint32_t(priority), C.WANZOCHE_NO_CALLER, C.uint32_t(waits),
			r.at(), C.int64_t(limit))
	})
}

// end is the last step: it ends the operation, or the wait. Only the first has a limit.
func (h *storeHandle) end(r *record, limit int64) answer {
	return h.told(func() C.wanzoche_answer { return C.wanzoche_store_end(h.opened, r.at(), C.int64_t(limit)) })
}

// synced is the answer to a step when its line is on the disk. One goroutine at a time waits for that, and then all lines are there.
func (h *storeHandle) synced(given answer, r *record) answer {
	if !h.syncs {
		return given
	}
	h.disk.Lock()
	defer h.disk.Unlock()
	synced := h.told(func() C.wanzoche_answer { return C.wanzoche_store_sync(h.opened, r.at()) })
	if synced.code != codeSynced {
		return synced
	}
	return given
}

// listen sleeps until one of these may ask again, whose place is the answer's number; until it is rung, or so many milliseconds.
func (h *storeHandle) listen(records []*record, heard *rings, limit int64) answer {
	var first **C.wanzoche_store_record
	if len(records) > 0 {
		first = (**C.wanzoche_store_record)(unsafe.Pointer(&records[0]))
	}
	return answerOf(C.wanzoche_store_listen(h.opened, first, C.size_t(len(records)), (*C.uint32_t)(heard), C.int64_t(limit)))
}

// ring ends the sleep of one who listens, or its next one.
func (h *storeHandle) ring() { C.wanzoche_store_ring(h.opened) }

func (h *storeHandle) use(token uint64, verb uint32, number uint64) answer {
	return h.told(func() C.wanzoche_answer {
		return C.wanzoche_store_use(h.opened, C.uint64_t(token), C.uint32_t(verb), C.uint64_t(number), 0)
	})
}

func (h *storeHandle) canStart(operation uint32) answer {
	return h.told(func() C.wanzoche_answer { return C.wanzoche_store_can_start(h.opened, C.uint32_t(operation), 0) })
}

func (h *storeHandle) waiting(operation uint32) answer {
	return answerOf(C.wanzoche_store_waiting(h.opened, C.uint32_t(operation)))
}

func (h *storeHandle) recover(worker uint32, evenAlive bool) answer {
	return h.told(func() C.wanzoche_answer {
		return C.wanzoche_store_recover(h.opened, C.uint32_t(worker), C.bool(evenAlive), 0)
	})
}

func (h *storeHandle) rotate() answer {
	return h.told(func() C.wanzoche_answer { return C.wanzoche_store_rotate(h.opened, 0) })
}

func (h *storeHandle) audit() answer {
	return h.told(func() C.wanzoche_answer { return C.wanzoche_store_audit(h.opened, 0) })
}

func (h *storeHandle) worker() uint32 { return uint32(C.wanzoche_store_worker(h.opened)) }

func (h *storeHandle) report(to []byte) answer {
	at, size := bufferOf(to)
	return h.told(func() C.wanzoche_answer { return C.wanzoche_store_report(h.opened, at, size, 0) })
}

func (h *storeHandle) journal(to []byte) answer {
	at, size := bufferOf(to)
	return h.told(func() C.wanzoche_answer { return C.wanzoche_store_journal(h.opened, at, size, 0) })
}

// message is why the last call of this thread failed that failed.
func (h *storeHandle) message() string {
	message := make([]byte, C.WANZOCHE_STORE_MESSAGE)
	to, size := bufferOf(message)
	C.wanzoche_store_message(h.opened, to, size)
	return messageOf(message)
}
