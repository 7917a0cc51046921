package wanzoche

import (
	"log"
	"runtime"
)

// Entry is an operation in progress. It stays so until it is left. Any goroutine may leave it.
//
// Leave it with `defer`. One that is dropped instead is told of on the standard log when the garbage collector finds it; it stays in
// progress, since nobody can say whether its body has ended.
type Entry struct {
	paths             *Paths
	token             uint64
	worker, operation uint32
	left              bool  // this and the next under the lock of the paths
	waits             int32 // how many wait, or ask, who hold it
}

// Verb is what is done to the number, queue or total that a resource declares.
type Verb uint32

// The verbs. A cell has Put and Look, a tally Look and Add, a queue Put, Take and Look.
const (
	Put  Verb = verbPut
	Take Verb = verbTake
	Look Verb = verbLook
	Add  Verb = verbAdd
)

// begun is the entry of an operation that has been started. Under the lock.
func (p *Paths) begun(token uint64, worker, operation uint32, name string) *Entry {
	if name != "" {
		p.names[token] = name
	}
	e := &Entry{paths: p, token: token, worker: worker, operation: operation}
	p.running.begins(e)
	runtime.SetFinalizer(e, (*Entry).dropped)
	return e
}

// dropped tells of an entry that nobody can leave any more. Nothing is withheld in order to wait for its end.
func (e *Entry) dropped() {
	e.paths.lock.Lock()
	defer e.paths.lock.Unlock()
	if e.paths.closed {
		return
	}
	who := e.paths.workerOf(activation{e.token, e.worker, e.operation})
	log.Printf("wanzoche: %s by %s was dropped without Leave, and stays in progress", e.paths.declared.operations[e.operation], who)
	e.paths.running.ends(e)
	if w := e.paths.alarm.waiter; w != nil {
		w.asksAgain()
	}
}

// Leave ends the operation, and begins what others wait for, as far as the paths admit it. The error is ErrLeft the second time, and
// ErrClosed if the paths were closed meanwhile, which ended it.
func (e *Entry) Leave() error {
	p := e.paths
	p.lock.Lock()
	defer p.lock.Unlock()
	if e.left {
		return ErrLeft
	}
	if err := e.end(); err != nil {
		return err
	}
	p.admit()
	return nil
}

// end ends the operation, and begins nothing. Under the lock.
func (e *Entry) end() error {
	p := e.paths
	p.running.ends(e)
	runtime.SetFinalizer(e, nil)
	if p.closed {
		return ErrClosed
	}
	delete(p.names, e.token)
	if given := p.handle.finish(e.worker, e.token); given.code != codeFinished {
		return errorOf(given.code)
	}
	return nil
}

// Use uses the device of the resource. The number is what Put puts and Add adds. A cell answers with the number before, a tally with the
// total, a queue with what was taken or looked at, and with how many it has behind a Put. The error is ErrNotOffered, ErrEmpty, ErrFull,
// ErrOverflow, ErrLeft, ErrNoRoom, ErrOutOfMemory or ErrClosed.
func (e *Entry) Use(verb Verb, number uint64) (uint64, error) {
	p := e.paths
	p.lock.Lock()
	defer p.lock.Unlock()
	if p.closed {
		return 0, ErrClosed
	}
	if e.left {
		return 0, ErrLeft
	}
	given := p.handle.use(e.worker, e.token, uint32(verb), number)
	if given.code == codeNoRoom && p.handle.lines() > 0 {
		if given = p.giveLines(); given.code == codeRotated {
			given = p.handle.use(e.worker, e.token, uint32(verb), number)
		}
	}
	if given.code != codeUsed {
		return 0, errorOf(given.code)
	}
	return given.number, nil
}

// Token is the number of this activation, which rises with every start: for what refuses late writers.
func (e *Entry) Token() uint64 { return e.token }
