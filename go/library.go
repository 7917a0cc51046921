package wanzoche

// #cgo pkg-config: wanzoche
// #include <stdlib.h>
// #include <wanzoche.h>
import "C"

import "unsafe"

// The codes of answers that callers meet, as in wanzoche.h.
const (
	codeClosed         = C.WANZOCHE_CLOSED
	codeStarted        = C.WANZOCHE_STARTED
	codeBlocked        = C.WANZOCHE_BLOCKED
	codeUsed           = C.WANZOCHE_USED
	codeNotOffered     = C.WANZOCHE_NOT_OFFERED
	codeEmpty          = C.WANZOCHE_EMPTY
	codeFull           = C.WANZOCHE_FULL
	codeOverflow       = C.WANZOCHE_OVERFLOW
	codeFinished       = C.WANZOCHE_FINISHED
	codeStale          = C.WANZOCHE_STALE
	codeNoRoom         = C.WANZOCHE_NO_ROOM
	codeCanStart       = C.WANZOCHE_CAN_START
	codeRotated        = C.WANZOCHE_ROTATED
	codeWritten        = C.WANZOCHE_WRITTEN
	codeTooSmall       = C.WANZOCHE_TOO_SMALL
	codeOpened         = C.WANZOCHE_OPENED
	codeBadRoom        = C.WANZOCHE_BAD_ROOM
	codeOutOfMemory    = C.WANZOCHE_OUT_OF_MEMORY
	codeSound          = C.WANZOCHE_SOUND
	codeWrongLine      = C.WANZOCHE_WRONG_LINE
	codeJournalTooLong = C.WANZOCHE_JOURNAL_TOO_LONG
	codeUndeclaredLine = C.WANZOCHE_UNDECLARED_LINE
	codeNoJournal      = C.WANZOCHE_NO_JOURNAL
	codeTooLong        = C.WANZOCHE_TOO_LONG
	codeTooMany        = C.WANZOCHE_TOO_MANY
	codeAllDone        = C.WANZOCHE_ALL_DONE
	codeStalls         = C.WANZOCHE_STALLS
	codeRefused        = C.WANZOCHE_REFUSED
	codeUndecided      = C.WANZOCHE_UNDECIDED
	codeScriptTooLong  = C.WANZOCHE_SCRIPT_TOO_LONG
	codeScriptTooMany  = C.WANZOCHE_SCRIPT_TOO_MANY
	codeWithheld       = C.WANZOCHE_WITHHELD
	codeNext           = C.WANZOCHE_NEXT
	codeNobody         = C.WANZOCHE_NOBODY
)

// The verbs of a use.
const (
	verbPut  = C.WANZOCHE_PUT
	verbTake = C.WANZOCHE_TAKE
	verbLook = C.WANZOCHE_LOOK
	verbAdd  = C.WANZOCHE_ADD
)

// MostLines is the most lines that a journal may have room for.
const MostLines = C.WANZOCHE_MOST_LINES

// answer is what a call of the library says.
type answer struct {
	code   uint32
	number uint64
	words  string // of a store: the library's for a failure
}

// activation is an operation in progress, by the numbers of the library.
type activation struct {
	token     uint64
	worker    uint32
	operation uint32
}

// standing is one who waits, or asks, as the library takes it: what a wanzoche_waiter is.
type standing struct {
	operation, priority uint32
	arrived, shutAt     uint64
}

// These have no length that is negative, since both are laid out alike.
type (
	_ [unsafe.Sizeof(standing{}) - C.sizeof_wanzoche_waiter]byte
	_ [C.sizeof_wanzoche_waiter - unsafe.Sizeof(standing{})]byte
	_ [unsafe.Offsetof(standing{}.shutAt) - unsafe.Offsetof(C.wanzoche_waiter{}.shut_at)]byte
	_ [unsafe.Offsetof(C.wanzoche_waiter{}.shut_at) - unsafe.Offsetof(standing{}.shutAt)]byte
)

// handle is a system of the library. Its calls need an order: a lock of the caller.
type handle struct {
	system C.wanzoche
}

func answerOf(given C.wanzoche_answer) answer {
	return answer{code: uint32(given.code), number: uint64(given.number)}
}

// bytesOf is where a text of Go lies, for a call that doesn't keep it; nil if it is empty.
func bytesOf(text string) (*C.char, C.size_t) {
	if text == "" {
		return nil, 0
	}
	lies := []byte(text)
	return (*C.char)(unsafe.Pointer(&lies[0])), C.size_t(len(lies))
}

// bufferOf is where the library may write.
func bufferOf(buffer []byte) (*C.char, C.size_t) {
	if len(buffer) == 0 {
		return nil, 0
	}
	return (*C.char)(unsafe.Pointer(&buffer[0])), C.size_t(len(buffer))
}

// messageOf is the text in a buffer, up to its zero byte.
func messageOf(buffer []byte) string {
	for at, each := range buffer {
		if each == 0 {
			return string(buffer[:at])
		}
	}
	return string(buffer)
}

// wordsOf is a code in words.
func wordsOf(code uint32) string {
	return C.GoString(C.wanzoche_words(C.uint32_t(code)))
}

func (h *handle) open(text string, room uint32, journal bool) (answer, string) {
	lies, length := bytesOf(text)
	message := make([]byte, C.WANZOCHE_MESSAGE)
	to, size := bufferOf(message)
	var given C.wanzoche_answer
	if journal {
		given = C.wanzoche_open(&h.system, lies, length, C.uint32_t(room), to, size)
	} else {
		given = C.wanzoche_open_without_journal(&h.system, lies, length, C.uint32_t(room), to, size)
	}
	return answerOf(given), messageOf(message)
}

func (h *handle) close() { C.wanzoche_close(&h.system) }

func (h *handle) start(worker, operation uint32) answer {
	return answerOf(C.wanzoche_start(&h.system, C.uint32_t(worker), C.uint32_t(operation)))
}

func (h *handle) use(worker uint32, token uint64, verb uint32, number uint64) answer {
	return answerOf(C.wanzoche_use(&h.system, C.uint32_t(worker), C.uint64_t(token), C.uint32_t(verb), C.uint64_t(number)))
}

func (h *handle) finish(worker uint32, token uint64) answer {
	return answerOf(C.wanzoche_finish(&h.system, C.uint32_t(worker), C.uint64_t(token)))
}

func (h *handle) canStart(operation uint32) answer {
	return answerOf(C.wanzoche_can_start(&h.system, C.uint32_t(operation)))
}

// placesOf is where those who wait lie; nil if there are none.
func placesOf(waiting []standing) (*C.wanzoche_waiter, C.size_t) {
	if len(waiting) == 0 {
		return nil, 0
	}
	return (*C.wanzoche_waiter)(unsafe.Pointer(&waiting[0])), C.size_t(len(waiting))
}

// numbersOf is where these operations lie; nil if there are none.
func numbersOf(operations []uint32) (*C.uint32_t, C.size_t) {
	if len(operations) == 0 {
		return nil, 0
	}
	return (*C.uint32_t)(unsafe.Pointer(&operations[0])), C.size_t(len(operations))
}

// mayStart says whether a start may go, behind those who wait and come before it.
func (h *handle) mayStart(asks standing, waiting []standing, running []uint32) answer {
	places, waiters := placesOf(waiting)
	numbers, count := numbersOf(running)
	return answerOf(C.wanzoche_may_start(&h.system, C.uint32_t(asks.operation), C.uint32_t(asks.priority), C.uint64_t(asks.arrived),
		places, waiters, numbers, count))
}

// next says who comes next of those who wait.
func (h *handle) next(waiting []standing, running []uint32) answer {
	places, waiters := placesOf(waiting)
	numbers, count := numbersOf(running)
	return answerOf(C.wanzoche_next(&h.system, places, waiters, numbers, count))
}

func (h *handle) lines() int { return int(C.wanzoche_lines(&h.system)) }

func (h *handle) rotate() answer { return answerOf(C.wanzoche_rotate(&h.system)) }

// live lists what is in progress, in the order of the starts.
func (h *handle) live() []activation {
	count := C.wanzoche_live(&h.system)
	if count == 0 {
		return nil
	}
	list := make([]C.wanzoche_activation, count)
	C.wanzoche_list_live(&h.system, &list[0], count)
	all := make([]activation, count)
	for n, each := range list {
		all[n] = activation{uint64(each.number), uint32(each.worker), uint32(each.operation)}
	}
	return all
}

// written is a text whose length the library tells first. `write` is one of its calls.
func written(write func(to *C.char, size C.size_t) C.wanzoche_answer) (string, answer) {
	given := answerOf(write(nil, 0))
	if given.code != codeTooSmall {
		return "", given
	}
	buffer := make([]byte, given.number+1)
	given = answerOf(write(bufferOf(buffer)))
	if given.code != codeWritten {
		return "", given
	}
	return string(buffer[:given.number]), given
}

func (h *handle) report() (string, answer) {
	return written(func(to *C.char, size C.size_t) C.wanzoche_answer { return C.wanzoche_report(&h.system, to, size) })
}

func (h *handle) journal() (string, answer) {
	return written(func(to *C.char, size C.size_t) C.wanzoche_answer { return C.wanzoche_journal(&h.system, to, size) })
}

func (h *handle) declaration() (string, answer) {
	return written(func(to *C.char, size C.size_t) C.wanzoche_answer { return C.wanzoche_declaration(&h.system, to, size) })
}

// explain says in words why a text isn't a declaration; nothing if it is one.
func explain(text string) string {
	lies, length := bytesOf(text)
	said, _ := written(func(to *C.char, size C.size_t) C.wanzoche_answer { return C.wanzoche_explain(lies, length, to, size) })
	return said
}

func auditText(declaration, journal string, room uint32) (answer, string) {
	lies, length := bytesOf(declaration)
	lines, many := bytesOf(journal)
	message := make([]byte, C.WANZOCHE_MESSAGE)
	to, size := bufferOf(message)
	return answerOf(C.wanzoche_audit(lies, length, C.uint32_t(room), lines, many, to, size)), messageOf(message)
}

// exploreText searches all schedules. It gives the answer, the journal of one that goes wrong, and the message.
func exploreText(declaration, script string, most uint32) (answer, string, string) {
	lies, length := bytesOf(declaration)
	steps, many := bytesOf(script)
	message := make([]byte, C.WANZOCHE_STANDINGS)
	to, size := bufferOf(message)
	given := answerOf(C.wanzoche_explore(lies, length, steps, many, C.uint32_t(most), nil, 0, to, size))
	if given.code != codeTooSmall {
		return given, "", messageOf(message)
	}
	journal := make([]byte, given.number+1)
	at, room := bufferOf(journal)
	given = answerOf(C.wanzoche_explore(lies, length, steps, many, C.uint32_t(most), at, room, to, size))
	if given.code != codeStalls && given.code != codeRefused {
		return given, "", messageOf(message)
	}
	return given, string(journal[:given.number]), messageOf(message)
}
