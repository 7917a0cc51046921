package wanzoche

import (
	"errors"
	"fmt"
	"strings"
	"syscall"
)

// What can be wrong at a store, beside what can be wrong with paths.
var (
	// ErrLate: no turn at the file was to be had in time, since a process that has one is stopped. Nothing has changed.
	ErrLate = errors.New("wanzoche: no turn at the store was to be had in time")
	// ErrSystem: the system refuses something, as on a full disk. It is a *StoreError, and its errno by errors.Is, as syscall.ENOSPC.
	ErrSystem = errors.New("wanzoche: the system refuses what the store asks of it")
	// ErrInUse: others have the file open who don't share it: a program that has it to itself, or processes of an older Python package.
	ErrInUse = errors.New("wanzoche: the store's file is in use by others")
	// ErrOtherDeclaration: the store was made with another declaration.
	ErrOtherDeclaration = errors.New("wanzoche: the store is of another declaration")
	// ErrNotAStore: what lies there isn't a store, or is incomplete.
	ErrNotAStore = errors.New("wanzoche: this isn't a store, or it is incomplete")
	// ErrCorrupt: a line of the journal isn't owed by those before it. Each later call of this opening says so, too.
	ErrCorrupt = errors.New("wanzoche: a line of the store's journal isn't owed")
	// ErrUnsynced: a sync failed, so nobody can say what of the last lines is on the disk. Each later call of this opening says so, too: close
	// it, and open the store again.
	ErrUnsynced = errors.New("wanzoche: a sync of the store failed")
	// ErrForked: the store was opened before a fork of which this is the child.
	ErrForked = errors.New("wanzoche: the store belongs to the process that opened it")
	// ErrAlive: the opening isn't dead.
	ErrAlive = errors.New("wanzoche: the opening is alive")
	// ErrNotInProgress: others have finished the operation, by RecoverEvenAlive.
	ErrNotInProgress = errors.New("wanzoche: the operation isn't in progress any more")
)

// kinds are the errors of a store's codes.
var kinds = map[uint32]error{
	codeLate: ErrLate, codeSystem: ErrSystem, codeInUse: ErrInUse, codeOtherDeclaration: ErrOtherDeclaration, codeNotAStore: ErrNotAStore,
	codeCorrupt: ErrCorrupt, codeUnsynced: ErrUnsynced, codeForked: ErrForked, codeAlive: ErrAlive, codeStale: ErrNotInProgress,
	codeLost:     ErrNotInProgress,
	codeNotYours: ErrNotInProgress,
}

// StoreError says what went wrong at a store in the library's words. By errors.Is it is the error of this package that says which kind it
// is, as ErrNotAStore, and the system's, as syscall.ENOSPC, if there is one.
type StoreError struct {
	Words string
	Line  uint64 // of ErrCorrupt: the line, from 1; 0 if none is meant
	kind  error
	errno syscall.Errno
}

func (e *StoreError) Error() string {
	if e.Words == "" && e.errno != 0 {
		return e.kind.Error() + ": " + e.errno.Error()
	}
	if e.Words == "" {
		return e.kind.Error()
	}
	return "wanzoche: " + e.Words
}

// Is holds for the error that says which kind it is.
func (e *StoreError) Is(target error) bool { return target == e.kind }

// Unwrap is the error of the system, if there is one.
func (e *StoreError) Unwrap() error {
	if e.errno == 0 {
		return nil
	}
	return e.errno
}

// storeErrorOf is the error of a store's answer.
func storeErrorOf(given answer) error {
	kind, ok := kinds[given.code]
	if !ok {
		return errorOf(given.code)
	}
	e := &StoreError{Words: given.words, kind: kind}
	switch given.code {
	case codeSystem, codeUnsynced:
		e.errno = syscall.Errno(given.number)
	case codeCorrupt:
		e.Line = given.number
	case codeInUse, codeOtherDeclaration, codeNotAStore:
	default:
		return kind
	}
	return e
}

// openingError is why a store wasn't opened.
func openingError(declaration string, given answer) error {
	if given.code >= codeTooLong && given.code <= codeTooMany {
		return declarationError(declaration, given)
	}
	return storeErrorOf(given)
}

// hindrance is what keeps an operation from beginning, as the library has answered, and what else a report says of it, if there is one.
func (s *Store) hindrance(operation uint32, given answer, report string) *Blocked {
	blocked := &Blocked{Operation: s.declared.operations[operation], Path: -1, unseen: true}
	if given.code == codeWithheld {
		blocked.Behind = &Waiter{Operation: s.declared.operations[given.number]}
		return blocked
	}
	path := s.declared.paths[given.number]
	blocked.Path, blocked.Resource, blocked.Text = int(given.number), path.resource, path.text
	of := map[string]bool{}
	for _, each := range path.operations {
		of[s.declared.operations[each]] = true
	}
	for _, line := range strings.Split(report, "\n") {
		blocked.see(strings.Fields(line), of)
	}
	return blocked
}

// see takes what a line of a report says of these operations.
func (b *Blocked) see(words []string, of map[string]bool) {
	switch {
	case len(words) == 4 && words[0] == "live" && of[words[3]]:
		var token uint64
		fmt.Sscan(words[1], &token)
		b.InProgress = append(b.InProgress, Activity{words[3], "process " + words[2], token})
	case len(words) > 0 && words[0] == "startable":
		b.unseen = false
		for _, name := range words[1:] {
			if of[name] {
				b.MayBegin = append(b.MayBegin, name)
			}
		}
	}
}
