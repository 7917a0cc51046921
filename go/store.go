package wanzoche

import (
	"context"
	"errors"
	"math"
	"runtime"
	"time"
)

// StoreOptions say how a store is opened. The zero value is the usual way.
type StoreOptions struct {
	// NoSync has no answer wait for the disk. What processes that die had answered is known all the same, but after a loss of power the last
	// lines may be missing.
	NoSync bool
	// KeepLost keeps what dead processes have in progress until Recover. Else whoever finds it in the way finishes it. Give all processes the
	// same.
	KeepLost bool
	// Patience is how long one waits before starts that stand in its way are withheld for it, as in Options, in milliseconds, of which a part
	// is one.
	Patience time.Duration
	// Room is how many lines a file gets before the next is begun; 0 is MostLines. It counts where the journal is made.
	Room uint32
}

// Store is paths that the processes of a machine share, over a file, for any number of goroutines. Only on Linux, and on a disk of the
// machine. docs/store.md says what lies in the folder, and what holds when a process dies.
//
// It is a type of its own, and not Paths, since what can go wrong is another: the disk may be full, another process may have the file or
// be stopped. So each call that waits for its turn at the file has a context. Where that is over while the call waits, it returns the
// context's error within 60 milliseconds, whoever is stopped or dies, but for what the disk takes.
type Store struct {
	handle   *storeHandle
	declared declared
	gate     *gate
	listener *listener
	latest   latest
}

const (
	openAgain  = 100 * time.Millisecond
	leaveAgain = 50 * time.Millisecond
)

// OpenStore opens the store whose journal is a file, which is made if there is none, for paths of this declaration. It reads the whole
// journal while others go on. The error is a *DeclarationError, ErrBadRoom, ErrInUse, ErrOtherDeclaration, ErrNotAStore, ErrCorrupt,
// ErrSystem, ErrOutOfMemory, or the context's.
func OpenStore(ctx context.Context, declaration, file string, options StoreOptions) (*Store, error) {
	if err := ctx.Err(); err != nil {
		return nil, err
	}
	s := &Store{gate: newGate(), handle: new(storeHandle)}
	s.listener = &listener{handle: s.handle, gate: s.gate}
	if err := s.declare(declaration); err != nil {
		return nil, err
	}
	came := make(chan error, 1)
	go func() { came <- s.open(ctx, declaration, file, options) }()
	select {
	case err := <-came:
		return s.orNone(err)
	case <-ctx.Done():
	}
	select {
	case err := <-came:
		return s.orNone(err)
	case <-time.After(openAgain):
		go func() { // what is opened too late is closed
			if <-came == nil {
				s.handle.close(0)
			}
		}()
		return nil, ctx.Err()
	}
}

// orNone is the store, if it was opened. One that nobody has any more is closed.
func (s *Store) orNone(err error) (*Store, error) {
	if err != nil {
		return nil, err
	}
	runtime.SetFinalizer(s, func(s *Store) { go s.Close() })
	return s, nil
}

// declare reads the names of the declaration, as the library prints it.
func (s *Store) declare(declaration string) error {
	var h handle
	given, message := h.open(declaration, 1, false)
	if given.code != codeOpened {
		return refusalOf(declaration, given, message)
	}
	defer h.close()
	text, given := h.declaration()
	if given.code != codeWritten {
		return errorOf(given.code)
	}
	s.declared = readDeclared(text)
	return nil
}

// open opens it until the context is over.
func (s *Store) open(ctx context.Context, declaration, file string, options StoreOptions) error {
	limit := int64(-1)
	if end, ok := ctx.Deadline(); ok {
		limit = milliseconds(time.Until(end))
	}
	patience := milliseconds(options.Patience)
	if options.Patience == EndlessPatience {
		patience = -1
	}
	given := s.handle.open(file, declaration, options, patience, limit)
	if given.code == codeLate && ctx.Err() == nil {
		<-ctx.Done() // the deadline, which is about to come
	}
	if given.code == codeLate {
		return ctx.Err()
	}
	if given.code != codeOpened {
		return openingError(declaration, given)
	}
	return nil
}

// milliseconds counts those of a time, of which a part is one; 0 if it is over.
func milliseconds(time time.Duration) int64 {
	if time <= 0 {
		return 0
	}
	return int64(math.Ceil(float64(time) / 1e6))
}

// in makes a call that tries for 45 milliseconds to get a turn, again and again until the context is over.
func (s *Store) in(ctx context.Context, call func() answer) (answer, error) {
	if !s.gate.begin() {
		return answer{}, ErrClosed
	}
	defer s.gate.end()
	for {
		if err := ctx.Err(); err != nil {
			return answer{}, err
		}
		if given := call(); given.code != codeLate {
			return given, nil
		}
		if s.gate.isClosed() {
			return answer{}, ErrClosed
		}
	}
}

// Close ends the opening: what it has in progress is finished, whoever waits gets ErrClosed, and so does each later call. The error says
// that not all could be finished or synced in time; others finish what is left. A second Close does nothing.
func (s *Store) Close() error {
	if !s.gate.close(s.listener.close) {
		return nil
	}
	runtime.SetFinalizer(s, nil)
	if given := s.handle.close(0); given.code != codeClosed {
		return storeErrorOf(given)
	}
	return nil
}

// Op looks an operation up. Keep it. The error is ErrUnknownOperation, and its words list those that are declared.
func (s *Store) Op(name string) (Op, error) {
	number, err := s.declared.number(name)
	if err != nil {
		return Op{}, err
	}
	return Op{store: s, number: number}, nil
}

// Enter begins an operation when the paths admit it and it isn't withheld for one who waits, in whatever process, and waits until then,
// but no longer than the context lasts. Of the context only WithPriority counts. Keep the entry, and leave it.
//
// Where the context was over before the operation could begin, the error is a *Blocked whose cause is the context's, or the context's own
// if no turn was to be had. Else it is ErrClosed, ErrForeignOperation, ErrNoRoom, ErrSystem, ErrCorrupt, ErrUnsynced or ErrOutOfMemory:
// nothing was started, only after ErrUnsynced nobody can say what is on the disk.
//
// Goroutines that wait are parked: one thread of the system waits for all of a store. Of all processes 1,024 wait in order, and others ask
// again and again.
func (s *Store) Enter(ctx context.Context, op Op) (*StoreEntry, error) {
	if op.store != s {
		return nil, ErrForeignOperation
	}
	if !s.gate.begin() {
		return nil, ErrClosed
	}
	defer s.gate.end()
	if err := ctx.Err(); err != nil {
		return nil, err
	}
	e, priority := &StoreEntry{store: s, operation: op.number}, callerOf(ctx).priority
	given := s.handle.begin(op.number, priority, tries, &e.record, 0)
	if mayWait(given) {
		given = s.listener.enter(ctx, given, op.number, priority, &e.record)
	}
	if given.code == codeStarted {
		given = s.handle.synced(given, &e.record)
	}
	switch given.code {
	case codeStarted:
		return e.begun(given.number), nil
	case codeBlocked, codeWithheld:
		return nil, s.tooLate(ctx, op, given)
	case codeLate:
		return nil, ctx.Err()
	}
	return nil, storeErrorOf(given)
}

// TryEnter begins an operation if the paths admit it now and it isn't withheld for one who waits. Else the error is ErrBlocked; Why says
// more. The others are those of Enter. The context says for how long it may wait for its turn at the file.
func (s *Store) TryEnter(ctx context.Context, op Op) (*StoreEntry, error) {
	if op.store != s {
		return nil, ErrForeignOperation
	}
	e, priority := &StoreEntry{store: s, operation: op.number}, callerOf(ctx).priority
	given, err := s.in(ctx, func() answer {
		given := s.handle.begin(op.number, priority, tries, &e.record, piece)
		if given.code != codeStarted {
			return given
		}
		return s.handle.synced(given, &e.record)
	})
	if err != nil {
		return nil, err
	}
	if given.code != codeStarted {
		return nil, storeErrorOf(given)
	}
	return e.begun(given.number), nil
}

// Do runs a function within an operation, which ends when it returns, or panics. The error is that of Enter, or the function's, or, if
// that has none, that of Leave.
func (s *Store) Do(ctx context.Context, op Op, body func(ctx context.Context, e *StoreEntry) error) (err error) {
	e, err := s.Enter(ctx, op)
	if err != nil {
		return err
	}
	defer func() {
		if left := e.Leave(); err == nil && !errors.Is(left, ErrLeft) {
			err = left
		}
	}()
	return body(ctx, e)
}
