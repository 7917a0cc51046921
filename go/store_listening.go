package wanzoche

import (
	"context"
	"sync"
)

// storeWaiter is an entry that has to wait, for which one goroutine of its opening makes all steps.
type storeWaiter struct {
	operation, priority uint32
	record              *record       // the library's memory
	place               int           // among those that are listened for, or nowhere
	over                chan struct{} // closed when the goroutine has told what came of it
	lock                sync.Mutex    // held in each step
	given               answer        // of the last step that had a turn
	told                bool          // no step comes any more
}

const (
	nowhere = -1
	idle    = 1000 // so many milliseconds the goroutine stays for the next who waits
	atOnce  = 32   // so many it begins before it looks whether one that waits may ask again
)

// listener begins the entries of an opening that have to wait, and listens for all that do: one goroutine, which holds a thread of the
// system, as long as there are any.
type listener struct {
	handle *storeHandle
	gate   *gate
	lock   sync.Mutex
	begins []*storeWaiter // that are new
	ends   []*storeWaiter // that were given up
	runs   bool
	sleeps bool // so that it is rung
	closed bool
	called
}

// called is what the goroutine alone looks at.
type called struct {
	asks    []*storeWaiter // that don't wait yet
	waits   []*storeWaiter
	records []*record // theirs, in the same order
	heard   rings
	isIdle  bool // nothing came for so long
	broken  bool // each call answers the same from now on, so that nobody is called any more
}

// enter begins an operation that has to wait, until it has begun, something is wrong, the store is closed, or the context is over. Then the
// answer is that of the last step that had a turn, the first of which was made before. The first by which it stands in order is made here,
// so that it stands where it came.
func (l *listener) enter(ctx context.Context, first answer, operation, priority uint32, to *record) answer {
	w := &storeWaiter{operation: operation, priority: priority, record: newRecord(), place: nowhere, given: first, over: make(chan struct{})}
	if w.record == nil {
		return answer{code: codeOutOfMemory}
	}
	if !l.beginFirst(w) {
		*to = *w.record
		w.record.free()
		return w.given
	}
	select {
	case <-w.over:
	case <-ctx.Done():
		if l.stop(w) {
			return w.given
		}
	}
	*to = *w.record
	w.record.free()
	return w.given
}

// beginFirst makes the first step, without a wait for its turn. If it has to wait, it is handed to the goroutine.
func (l *listener) beginFirst(w *storeWaiter) bool {
	given := l.handle.begin(w.operation, w.priority, listens, w.record, 0)
	if given.code != codeLate {
		w.given = given
	}
	if !mayWait(given) || l.add(w) {
		return mayWait(given)
	}
	l.handle.end(w.record, 0)
	w.given = answer{code: codeClosed}
	return false
}

// mayWait says whether a step is to be made again.
func mayWait(given answer) bool {
	return given.code == codeBlocked || given.code == codeWithheld || given.code == codeLate
}

// add hands one to the goroutine. False if the store is closed.
func (l *listener) add(w *storeWaiter) bool {
	l.lock.Lock()
	defer l.lock.Unlock()
	if l.closed {
		return false
	}
	l.begins = append(l.begins, w)
	if !l.runs {
		l.runs = true
		l.gate.beginAgain()
		go l.run()
	}
	l.wake()
	return true
}

// stop ends one, which waits for nobody else's turn, unless it is told. Its memory is given back when nobody listens for it.
func (l *listener) stop(w *storeWaiter) bool {
	w.lock.Lock()
	defer w.lock.Unlock()
	if w.told {
		return false
	}
	w.told = true
	l.handle.end(w.record, 0)
	l.lock.Lock()
	defer l.lock.Unlock()
	if !l.runs {
		w.record.free()
		return true
	}
	l.ends = append(l.ends, w)
	l.wake()
	return true
}

// close ends all.
func (l *listener) close() {
	l.lock.Lock()
	defer l.lock.Unlock()
	l.closed = true
	l.wake()
}

// wake wakes the goroutine, under the lock.
func (l *listener) wake() {
	if l.sleeps {
		l.sleeps = false
		l.handle.ring()
	}
}

func (l *listener) run() {
	defer l.gate.end()
	for l.goesOn() {
		l.beginSome()
		l.listen()
	}
}

// goesOn takes what there is to do. False if the goroutine has ended for all others.
func (l *listener) goesOn() bool {
	l.lock.Lock()
	l.sleeps = false
	begins, ends, closed := l.begins, l.ends, l.closed
	l.begins, l.ends = nil, nil
	left := closed || l.isIdle && len(begins)+len(ends)+len(l.asks)+len(l.waits) == 0
	l.runs = !left
	l.lock.Unlock()
	l.sort(begins)
	for _, w := range ends {
		l.take(w)
		w.record.free()
	}
	if closed {
		l.endAll()
	}
	return !left
}

// sort takes new ones, which wait, or were late.
func (l *listener) sort(begins []*storeWaiter) {
	for _, w := range begins {
		w.lock.Lock()
		if !w.told {
			l.again(w)
		}
		w.lock.Unlock()
	}
}

// endAll tells all that the store is closed.
func (l *listener) endAll() {
	for _, w := range append(l.asks, l.waits...) {
		w.lock.Lock()
		if !w.told {
			l.handle.end(w.record, 0)
			w.tell(answer{code: codeClosed})
		}
		w.lock.Unlock()
	}
}

// tell says what came of it. Under its lock.
func (w *storeWaiter) tell(given answer) {
	w.given, w.told = given, true
	close(w.over)
}

// beginSome begins some that don't wait yet, until one of these has no turn.
func (l *listener) beginSome() {
	for n, hasTurn := 0, true; n < atOnce && len(l.asks) > 0 && hasTurn; n++ {
		w := l.asks[0]
		l.asks = l.asks[1:]
		hasTurn = l.begin(w)
	}
}

// begin makes the next step of one. False if it had no turn.
func (l *listener) begin(w *storeWaiter) bool {
	w.lock.Lock()
	defer w.lock.Unlock()
	if w.told {
		return true
	}
	given := l.handle.begin(w.operation, w.priority, listens, w.record, piece)
	switch given.code {
	case codeBlocked, codeWithheld:
		w.given = given
		l.wait(w)
	case codeLate:
		l.again(w)
	default:
		l.broken = l.broken || given.code == codeCorrupt || given.code == codeUnsynced
		w.tell(given)
	}
	return given.code != codeLate
}

// again has one that was late ask again: when it is called, which it is, or as a new one.
func (l *listener) again(w *storeWaiter) {
	if w.record.waits() {
		l.wait(w)
	} else {
		l.asks = append(l.asks, w)
	}
}

// wait has it listened for one.
func (l *listener) wait(w *storeWaiter) {
	w.place = len(l.waits)
	l.waits, l.records = append(l.waits, w), append(l.records, w.record)
}

// take takes one out of those that are listened for, if it is there.
func (l *listener) take(w *storeWaiter) {
	last := len(l.waits) - 1
	if w.place == nowhere {
		return
	}
	l.waits[w.place], l.records[w.place] = l.waits[last], l.records[last]
	l.waits[w.place].place = w.place
	w.place = nowhere
	l.waits, l.records = l.waits[:last], l.records[:last]
}

// listen sleeps until one that waits may ask again, and has it ask; or until there is something else to do.
func (l *listener) listen() {
	limit := l.limit()
	given := l.handle.listen(l.records, &l.heard, limit)
	l.isIdle = given.code == codeLate && limit > 0
	if given.code == codeCalled {
		w := l.waits[given.number]
		l.take(w)
		l.begin(w)
	}
	if l.broken {
		l.askAll()
	}
}

// askAll has all that wait ask: each is told what is wrong.
func (l *listener) askAll() {
	for n := len(l.waits); n > 0; n-- {
		w := l.waits[n-1]
		l.take(w)
		l.begin(w)
	}
}

// limit is how long it may sleep. Who hands something over rings from now on.
func (l *listener) limit() int64 {
	l.lock.Lock()
	defer l.lock.Unlock()
	l.sleeps = len(l.asks)+len(l.begins)+len(l.ends) == 0 && !l.closed
	if l.sleeps {
		return idle
	}
	return 0
}
