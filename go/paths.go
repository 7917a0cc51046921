package wanzoche

import (
	"context"
	"runtime"
	"strconv"
	"sync"
	"time"
)

// DefaultRoom is the room of paths that are opened without saying one.
const DefaultRoom = 65536

// Options say how paths are opened. The zero value is the usual way.
type Options struct {
	// Room is how many lines the journal takes before a new one is begun, each of 144 bytes; 0 is DefaultRoom. Without a journal it is one
	// more than may be in progress at once, each of 32 bytes.
	Room uint32
	// NoJournal keeps no lines. Then there is none for Journal, and Log must be nil.
	NoJournal bool
	// Log gets the lines when a new journal is begun. It is called under the lock: it is quick, and calls nothing of these paths. If it
	// panics, the lines stay, the operation that needed the room doesn't begin, and the panic goes on in the goroutine that called.
	Log func(lines string)
	// Patience is how long one waits before starts that stand in its way are withheld for it. 0 is DefaultPatience, a negative one is
	// NoPatience, and with EndlessPatience no start is ever withheld.
	Patience time.Duration
}

// Paths are the paths of a declaration, for any number of goroutines. They must not be copied.
type Paths struct {
	lock     sync.Mutex
	handle   handle
	declared declared
	log      func(lines string)
	clock    clock
	line     line
	running  running
	alarm    alarm
	workers  uint32
	names    map[uint64]string // of those in progress whose context has one, by their tokens
	closed   bool
}

// Op is an operation of some paths or a store, looked up once.
type Op struct {
	paths  *Paths
	store  *Store
	number uint32
}

// Open opens paths in the usual way. The error is a *DeclarationError or ErrOutOfMemory.
func Open(declaration string) (*Paths, error) { return Options{}.Open(declaration) }

// Open opens paths. All memory of the library is taken now. The error is a *DeclarationError, ErrBadRoom, ErrOutOfMemory, or ErrNoJournal
// if there is a log but no journal.
func (o Options) Open(declaration string) (*Paths, error) {
	if o.NoJournal && o.Log != nil {
		return nil, ErrNoJournal
	}
	if o.Room == 0 {
		o.Room = DefaultRoom
	}
	p := &Paths{log: o.Log, names: map[uint64]string{}, clock: wallClock, line: line{patience: patienceOf(o.Patience)}}
	given, message := p.handle.open(declaration, o.Room, !o.NoJournal)
	if given.code != codeOpened {
		return nil, refusalOf(declaration, given, message)
	}
	runtime.SetFinalizer(p, (*Paths).Close)
	text, given := p.handle.declaration()
	if given.code != codeWritten {
		return nil, errorOf(given.code)
	}
	p.declared = readDeclared(text)
	p.running.counts = make([]int, len(p.declared.operations))
	if given = p.handle.mayStart(standing{}, nil, nil); given.code == codeOutOfMemory { // which takes memory the first time
		return nil, ErrOutOfMemory
	}
	return p, nil
}

// Close ends what is in progress, and releases whoever waits with ErrClosed, as each later call has it. A second Close does nothing.
func (p *Paths) Close() {
	p.lock.Lock()
	defer p.lock.Unlock()
	p.closed = true
	p.handle.close()
	p.refuseAll(ErrClosed)
}

// Op looks an operation up. Keep it. The error is ErrUnknownOperation, and its words list those that are declared.
func (p *Paths) Op(name string) (Op, error) {
	number, err := p.declared.number(name)
	if err != nil {
		return Op{}, err
	}
	return Op{paths: p, number: number}, nil
}

// Enter begins an operation when the paths admit it and it isn't withheld for one who waits, and waits until then, but no longer than the
// context lasts. The context also says who enters: by WithName, WithPriority and WithEntry. Keep the entry, and leave it. The error is
// ErrClosed, ErrForeignOperation, ErrNoRoom, ErrOutOfMemory, or, where the context was over before the operation could begin, a *Blocked
// whose cause is the context's. Where the context was over before the call, it is the context's own. A goroutine that waits holds no thread
// of the system, and is woken when its operation has begun.
func (p *Paths) Enter(ctx context.Context, op Op) (*Entry, error) {
	if err := ctx.Err(); err != nil {
		return nil, err
	}
	e, w, err := p.begin(op, callerOf(ctx), true)
	if w == nil {
		return e, err
	}
	for {
		select {
		case word := <-w.told:
			return word.entry, word.err
		case <-w.again:
			p.goOn(w)
		case <-ctx.Done():
			return p.withdrawn(ctx, w)
		}
	}
}

// TryEnter begins an operation if the paths admit it now and it isn't withheld for one who waits. The context says who enters, and isn't
// waited for. Else the error is ErrBlocked; Why says more. The others are those of Enter.
func (p *Paths) TryEnter(ctx context.Context, op Op) (*Entry, error) {
	e, _, err := p.begin(op, callerOf(ctx), false)
	return e, err
}

// Do runs a function within an operation, which ends when it returns, or panics. The function enters others with the context that it gets,
// which says that it holds the entry, as by WithEntry. The error is that of Enter, or the function's.
func (p *Paths) Do(ctx context.Context, op Op, body func(ctx context.Context, e *Entry) error) error {
	e, err := p.Enter(ctx, op)
	if err != nil {
		return err
	}
	defer e.Leave()
	return body(WithEntry(ctx, e), e)
}

// begin makes a start. If it is blocked or withheld, and waits, a waiter stands in the line instead.
func (p *Paths) begin(op Op, c caller, waits bool) (*Entry, *waiter, error) {
	p.lock.Lock()
	defer p.lock.Unlock()
	if err := p.refuses(op); err != nil {
		return nil, nil, err
	}
	p.workers++
	beside := p.line.length > 0 && p.withholds()
	given := p.ask(p.workers, op.number, c, beside)
	if given.code == codeStarted {
		e := p.begun(given.number, p.workers, op.number, c.name)
		if beside {
			p.admitBehind(e)
		}
		return e, nil, nil
	}
	if waits && (given.code == codeBlocked || given.code == codeWithheld) {
		return nil, p.wait(&waiter{operation: op.number, worker: p.workers, caller: c}, given), nil
	}
	return nil, nil, errorOf(given.code)
}

// admitBehind admits whom a start has let in. Under the lock.
func (p *Paths) admitBehind(e *Entry) {
	p.admitOr(func() { e.end() })
}

// wait has one wait whose start was answered so. What it holds doesn't run meanwhile, so others may come next. Under the lock.
func (p *Paths) wait(w *waiter, given answer) *waiter {
	w.told, w.again, w.arrived = make(chan told, 1), make(chan struct{}, 1), p.clock.now()
	p.line.join(w)
	p.running.rest(p, w.caller.holds)
	if p.withholds() && (given.code == codeWithheld || w.caller.holds != nil) {
		p.admitOr(func() { p.forget(w) })
	}
	return w
}

// leave takes a waiter out of the line. False if it was told something already. Under the lock.
func (p *Paths) leave(w *waiter) bool {
	if !p.line.leave(w) {
		return false
	}
	p.running.resume(p, w.caller.holds)
	return true
}

// forget takes a waiter out of the line whose goroutine won't come to know what it is told. Under the lock.
func (p *Paths) forget(w *waiter) {
	if p.leave(w) {
		return
	}
	if word := <-w.told; word.entry != nil {
		word.entry.end()
	}
}

// goOn admits who comes next, in the goroutine of one who waits.
func (p *Paths) goOn(w *waiter) {
	p.lock.Lock()
	defer p.lock.Unlock()
	p.alarm.set(p.clock, 0, 0, nil)
	p.admitOr(func() { p.forget(w) })
}

// refuses says why a call for an operation isn't served. Under the lock.
func (p *Paths) refuses(op Op) error {
	if p.closed {
		return ErrClosed
	}
	if op.paths != p {
		return ErrForeignOperation
	}
	return nil
}

// start makes a start, in an empty journal if the room is used up. Under the lock.
func (p *Paths) start(worker, operation uint32) answer {
	given := p.handle.start(worker, operation)
	if given.code == codeNoRoom && p.handle.lines() > 0 {
		if given = p.giveLines(); given.code == codeRotated {
			given = p.handle.start(worker, operation)
		}
	}
	return given
}

// giveLines hands the lines to the log, and rotates. Under the lock.
func (p *Paths) giveLines() answer {
	if p.log != nil {
		text, given := p.handle.journal()
		if given.code != codeWritten {
			return given
		}
		p.log(text)
	}
	return p.handle.rotate()
}

// withdrawn takes a waiter out of the line whose context is over, and lets those behind it go on. If its operation has begun just then, or
// may begin, it is entered.
func (p *Paths) withdrawn(ctx context.Context, w *waiter) (*Entry, error) {
	p.lock.Lock()
	defer p.lock.Unlock()
	p.admitOr(func() { p.forget(w) })
	if w.queue == nil {
		word := <-w.told
		return word.entry, word.err
	}
	now := p.clock.now()
	p.line.lineUp(now)
	blocked := p.hindrance(w.operation, p.mayGoOn(w), now)
	p.leave(w)
	p.admit()
	if blocked == nil {
		return nil, ctx.Err()
	}
	blocked.cause = ctx.Err()
	return nil, blocked
}

// admitOne begins what a waiter waits for, and tells it, also if the log panics.
func (p *Paths) admitOne(w *waiter) {
	p.leave(w)
	word := told{err: ErrNoRoom}
	defer func() { w.told <- word }()
	if given := p.start(w.worker, w.operation); given.code == codeStarted {
		word = told{entry: p.begun(given.number, w.worker, w.operation, w.caller.name)}
	} else {
		word = told{err: errorOf(given.code)}
	}
}

// refuseAll tells all who wait why there is no entry. Under the lock.
func (p *Paths) refuseAll(err error) {
	for p.line.length > 0 {
		w := p.line.queues[0].first
		p.leave(w)
		w.told <- told{err: err}
	}
	p.alarm.set(p.clock, 0, 0, nil)
}

// Why says what would keep one from beginning an operation now who holds nothing and has priority 0: a path, or one who waits; nil if
// nothing would. The error is ErrClosed, ErrForeignOperation or ErrOutOfMemory.
func (p *Paths) Why(op Op) (*Blocked, error) {
	p.lock.Lock()
	defer p.lock.Unlock()
	if err := p.refuses(op); err != nil {
		return nil, err
	}
	now := p.clock.now()
	return p.hindrance(op.number, p.mayStart(op.number, caller{}, now), now), nil
}

// hindrance is what keeps an operation from beginning, as the library has answered; nil if nothing does. The line is lined up. Under the
// lock.
func (p *Paths) hindrance(operation uint32, given answer, now time.Duration) *Blocked {
	switch given.code {
	case codeBlocked:
		return p.blockage(operation, given.number)
	case codeWithheld:
		ahead := p.seen(p.line.queues[given.number].first, now)
		return &Blocked{Operation: p.declared.operations[operation], Path: -1, Behind: &ahead}
	}
	return nil
}

// seen is what is told of one who waits. Under the lock.
func (p *Paths) seen(w *waiter, now time.Duration) Waiter {
	return Waiter{p.declared.operations[w.operation], p.called(w.caller.name, w.worker), w.caller.priority, now - w.arrived}
}

// blockage is what a path says of an operation that it forbids. Under the lock.
func (p *Paths) blockage(operation uint32, number uint64) *Blocked {
	path := p.declared.paths[number]
	blocked := &Blocked{Operation: p.declared.operations[operation], Path: int(number), Resource: path.resource, Text: path.text}
	of := map[uint32]bool{}
	for _, each := range path.operations {
		of[each] = true
		if p.handle.canStart(each).code == codeCanStart {
			blocked.MayBegin = append(blocked.MayBegin, p.declared.operations[each])
		}
	}
	for _, each := range p.handle.live() {
		if of[each.operation] {
			blocked.InProgress = append(blocked.InProgress, Activity{p.declared.operations[each.operation], p.workerOf(each), each.token})
		}
	}
	return blocked
}

// workerOf is the name of who runs an operation in progress. Under the lock.
func (p *Paths) workerOf(a activation) string {
	return p.called(p.names[a.token], a.worker)
}

func (p *Paths) called(name string, worker uint32) string {
	if name != "" {
		return name
	}
	return "worker " + strconv.FormatUint(uint64(worker), 10)
}

// Waiting is how many goroutines wait for an operation; 0 of closed paths and of an operation of others.
func (p *Paths) Waiting(op Op) int {
	p.lock.Lock()
	defer p.lock.Unlock()
	if p.refuses(op) != nil {
		return 0
	}
	return p.line.waiting(op.number)
}

// Waiters lists who waits, in order: who stands before others goes on before them, unless the paths forbid it, and they don't stand in its
// way. Nobody waits at closed paths.
func (p *Paths) Waiters() []Waiter {
	p.lock.Lock()
	defer p.lock.Unlock()
	var all []Waiter
	now := p.clock.now()
	for _, w := range p.line.all() {
		all = append(all, p.seen(w, now))
	}
	return all
}

// Report says what can begin, which path forbids what, what is in progress, and whether all is over, in lines for programs. The error is
// ErrClosed or ErrOutOfMemory.
func (p *Paths) Report() (string, error) {
	p.lock.Lock()
	defer p.lock.Unlock()
	return textOf(p.handle.report())
}

// Journal is the lines that the log hasn't got yet. The error is ErrClosed, ErrNoJournal or ErrOutOfMemory.
func (p *Paths) Journal() (string, error) {
	p.lock.Lock()
	defer p.lock.Unlock()
	return textOf(p.handle.journal())
}

// Rotate hands the lines to the log, and begins a new journal. The error is ErrClosed or ErrOutOfMemory.
func (p *Paths) Rotate() error {
	p.lock.Lock()
	defer p.lock.Unlock()
	if given := p.giveLines(); given.code != codeRotated {
		return errorOf(given.code)
	}
	return nil
}

func textOf(text string, given answer) (string, error) {
	if given.code != codeWritten {
		return "", errorOf(given.code)
	}
	return text, nil
}

// Audit audits a journal under the declaration of these paths, as the function Audit.
func (p *Paths) Audit(journal string) (Verdict, error) { return Audit(p.declared.text, journal) }

// Declaration is the declaration as the library prints it, in a line.
func (p *Paths) Declaration() string { return p.declared.text }
