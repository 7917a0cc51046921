package wanzoche

import (
	"errors"
	"fmt"
	"strings"
	"time"
)

// What can be wrong. Each error of this package is one of these, by errors.Is, or a *DeclarationError or *TextError, by errors.As. After an
// error nothing was started, and no device has changed.
var (
	// ErrBlocked: a path forbids the operation, or it is withheld for one who waits, now or when the context was over. Enter wraps it in a
	// *Blocked.
	ErrBlocked = errors.New("wanzoche: a path forbids the operation, or it is withheld for one who waits")
	// ErrClosed: the paths are closed, or were closed while the call waited.
	ErrClosed = errors.New("wanzoche: the paths are closed")
	// ErrUnknownOperation: no operation has this name.
	ErrUnknownOperation = errors.New("wanzoche: no operation has this name")
	// ErrForeignOperation: the operation was looked up in other paths.
	ErrForeignOperation = errors.New("wanzoche: an operation of other paths")
	// ErrLeft: the entry was left already.
	ErrLeft = errors.New("wanzoche: the entry was left already")
	// ErrNoRoom: as much is in progress as there is room for, or 4,294,967,295 operations were started.
	ErrNoRoom = errors.New("wanzoche: there is no room for more in progress")
	// ErrBadRoom: the room isn't 1 to MostLines.
	ErrBadRoom = errors.New("wanzoche: the room is 1 to 1,048,576")
	// ErrNoJournal: the paths keep no lines.
	ErrNoJournal = errors.New("wanzoche: the paths keep no journal")
	// ErrNotOffered: the device doesn't offer this verb.
	ErrNotOffered = errors.New("wanzoche: the device doesn't offer this")
	// ErrEmpty: the queue is empty.
	ErrEmpty = errors.New("wanzoche: the queue is empty")
	// ErrFull: the queue is full.
	ErrFull = errors.New("wanzoche: the queue is full")
	// ErrOverflow: the total would be above 2^64 - 1.
	ErrOverflow = errors.New("wanzoche: the total would be above 2^64 - 1")
	// ErrOutOfMemory: the C library got no memory.
	ErrOutOfMemory = errors.New("wanzoche: out of memory")
)

// errorOf is the error of a code that isn't a success.
func errorOf(code uint32) error {
	switch code {
	case codeClosed:
		return ErrClosed
	case codeBlocked, codeWithheld:
		return ErrBlocked
	case codeStale:
		return ErrLeft
	case codeNoRoom:
		return ErrNoRoom
	case codeBadRoom:
		return ErrBadRoom
	case codeNoJournal:
		return ErrNoJournal
	case codeNotOffered:
		return ErrNotOffered
	case codeEmpty:
		return ErrEmpty
	case codeFull:
		return ErrFull
	case codeOverflow:
		return ErrOverflow
	case codeOutOfMemory:
		return ErrOutOfMemory
	}
	return fmt.Errorf("wanzoche: the library answered `%s`", wordsOf(code))
}

// Activity is an operation in progress.
type Activity struct {
	Operation string
	Worker    string // the name that WithName gave, or `worker 3`; at a store the opening, as `process 3`
	Token     uint64
}

// Waiter is somebody who waits.
type Waiter struct {
	Operation string
	Worker    string // the name that WithName gave, or `worker 3`; at a store this and the next two are empty
	Priority  uint32
	Waited    time.Duration
}

// Blocked says what keeps an operation from beginning: the first path of the declaration that forbids it, or, if none does, who waits for
// whom it is withheld. It is an error, whose cause is that of the context that is over, or ErrBlocked.
type Blocked struct {
	Operation  string     // what can't begin
	Behind     *Waiter    // for whom it is withheld; nil if a path forbids it
	Path       int        // the path's number, from 0 in the order of the text; -1 if none forbids it
	Resource   string     // whose path it is
	Text       string     // what stands in the path, as `deposit ; remove`
	InProgress []Activity // what of the path is in progress, in the order of the starts
	MayBegin   []string   // the operations of the path that no path forbids now
	cause      error
	unseen     bool // whether nobody knows what is in progress, or since when Behind waits: at a store
}

// Error says it in words: `remove is blocked: path 0 of slot: deposit ; remove; in progress: deposit by worker 3`, or
// `query is withheld: behind backup by worker 3, which has waited 2.1s`.
func (b *Blocked) Error() string {
	said := b.words()
	if b.cause != nil {
		said = b.cause.Error() + ": " + said
	}
	return said
}

func (b *Blocked) words() string {
	if w := b.Behind; w != nil && b.unseen {
		return fmt.Sprintf("%s is withheld: behind %s, which waits", b.Operation, w.Operation)
	}
	if b.unseen {
		return fmt.Sprintf("%s is blocked: path %d of %s: %s", b.Operation, b.Path, b.Resource, b.Text)
	}
	if w := b.Behind; w != nil {
		waited := w.Waited.Round(time.Millisecond)
		return fmt.Sprintf("%s is withheld: behind %s by %s, which has waited %s", b.Operation, w.Operation, w.Worker, waited)
	}
	running := "nothing of it; may begin next: " + orNothing(b.MayBegin)
	if len(b.InProgress) > 0 {
		all := make([]string, len(b.InProgress))
		for n, each := range b.InProgress {
			all[n] = each.Operation + " by " + each.Worker
		}
		running = strings.Join(all, ", ")
	}
	return fmt.Sprintf("%s is blocked: path %d of %s: %s; in progress: %s", b.Operation, b.Path, b.Resource, b.Text, running)
}

// Is holds for ErrBlocked. What the context said is found by Unwrap.
func (b *Blocked) Is(target error) bool { return target == ErrBlocked }

// Unwrap is context.Canceled or context.DeadlineExceeded if a context was over, and else nil.
func (b *Blocked) Unwrap() error { return b.cause }

func orNothing(names []string) string {
	if len(names) == 0 {
		return "nothing"
	}
	return strings.Join(names, ", ")
}

// unknownOperation says which operations there are.
type unknownOperation struct{ words string }

func (u *unknownOperation) Error() string        { return u.words }
func (u *unknownOperation) Is(target error) bool { return target == ErrUnknownOperation }

// DeclarationError says why a text isn't a declaration.
type DeclarationError struct {
	Fault        string // in words, as `undeclared`
	Line, Column int    // where, in bytes, both from 1
	Words        string // the line with a mark below the place, what could stand there, and the nearest name
}

func (d *DeclarationError) Error() string {
	return fmt.Sprintf("wanzoche: %s in line %d, column %d%s", d.Fault, d.Line, d.Column, d.Words)
}

// declarationError is the error of a text, whose fault stands at this byte.
func declarationError(text string, given answer) error {
	at := given.number
	if at > uint64(len(text)) {
		at = uint64(len(text))
	}
	before := text[:at]
	words := strings.TrimRight(explain(text), "\n")
	if begin := strings.Index(words, ": "); begin >= 0 {
		words = words[begin:]
	}
	return &DeclarationError{
		Fault:  wordsOf(given.code),
		Line:   1 + strings.Count(before, "\n"),
		Column: len(before) - strings.LastIndex(before, "\n"),
		Words:  words,
	}
}

// TextError says why a text isn't a journal or a script: `journal: bad line 3`, where lines count from 0.
type TextError struct {
	Words string
	Line  uint64 // from 0
}

func (t *TextError) Error() string { return "wanzoche: " + t.Words }

// refusalOf is the error of a call that takes a declaration and another text.
func refusalOf(declaration string, given answer, message string) error {
	switch {
	case given.code >= codeTooLong && given.code <= codeTooMany:
		return declarationError(declaration, given)
	case given.code >= codeJournalTooLong && given.code <= codeUndeclaredLine,
		given.code >= codeScriptTooLong && given.code <= codeScriptTooMany:
		return &TextError{message, given.number}
	}
	return errorOf(given.code)
}
