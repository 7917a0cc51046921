package wanzoche

import (
	"context"
	"log"
	"runtime"
	"sync"
	"time"
)

// StoreEntry is an operation in progress at a store. It stays so until it is left. Any goroutine may leave it.
//
// Leave it with `defer`. One that is dropped instead is told of on the standard log when the garbage collector finds it; it stays in
// progress until the store is closed, since nobody can say whether its body has ended.
type StoreEntry struct {
	store     *Store
	record    record
	token     uint64
	operation uint32
	lock      sync.Mutex
	left      bool
	due       bool // whether a goroutine leaves it again and again
}

// begun is the entry when it has begun.
func (e *StoreEntry) begun(token uint64) *StoreEntry {
	e.token = token
	runtime.SetFinalizer(e, (*StoreEntry).dropped)
	return e
}

// dropped tells of an entry that nobody can leave any more.
func (e *StoreEntry) dropped() {
	if !e.store.gate.isClosed() {
		log.Printf("wanzoche: %s was dropped without Leave, and stays in progress", e.store.declared.operations[e.operation])
	}
}

// Leave ends the operation. It waits for its turn for no longer than 45 milliseconds; then whoever has the next turn finishes it, which is
// no error.
//
// After ErrSystem, as on a full disk, ErrLate and ErrOutOfMemory it is still in progress. Nothing is lost: it is left again in the
// background until it is over, and another Leave tells whether it is. Else the error is ErrLeft the second time, ErrNotInProgress if
// others have finished it, ErrClosed if the store was closed meanwhile, which ended it, ErrCorrupt or ErrUnsynced.
func (e *StoreEntry) Leave() error {
	e.lock.Lock()
	defer e.lock.Unlock()
	if e.left {
		return ErrLeft
	}
	given := e.leave()
	if given.code == codeFinished || given.code == codeOwed {
		return nil
	}
	if isDue(given) && !e.due {
		e.due = true
		go e.leaveUntilOver()
	}
	return storeErrorOf(given)
}

// isDue says whether an operation is in progress still, and nobody else will finish it.
func isDue(given answer) bool {
	return given.code == codeLate || given.code == codeSystem || given.code == codeOutOfMemory
}

// leave leaves it once. Under its lock.
func (e *StoreEntry) leave() answer {
	given := answer{code: codeClosed}
	if e.store.gate.begin() {
		given = e.store.handle.end(&e.record, piece)
		if given.code == codeFinished {
			given = e.store.handle.synced(given, &e.record)
		}
		e.store.gate.end()
	}
	if !isDue(given) {
		e.left = true
		runtime.SetFinalizer(e, nil)
	}
	return given
}

func (e *StoreEntry) leaveUntilOver() {
	for over := false; !over; {
		time.Sleep(leaveAgain)
		e.lock.Lock()
		over = e.left || !isDue(e.leave())
		e.lock.Unlock()
	}
}

// Use uses the device of the resource, as that of an Entry. The error is ErrNotOffered, ErrEmpty, ErrFull, ErrOverflow, ErrLeft,
// ErrNotInProgress, ErrNoRoom, or as of Store.Report.
func (e *StoreEntry) Use(ctx context.Context, verb Verb, number uint64) (uint64, error) {
	e.lock.Lock()
	defer e.lock.Unlock()
	if e.left {
		return 0, ErrLeft
	}
	given, err := e.store.in(ctx, func() answer { return e.store.handle.use(e.token, uint32(verb), number) })
	if err != nil {
		return 0, err
	}
	if given.code != codeUsed {
		return 0, storeErrorOf(given)
	}
	return given.number, nil
}

// Token is the number of this activation, which rises with every start over all processes: for what refuses late writers.
func (e *StoreEntry) Token() uint64 { return e.token }
