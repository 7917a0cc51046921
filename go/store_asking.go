package wanzoche

import (
	"context"
	"strings"
	"sync"
	"time"
)

// Why says which path would keep an operation from beginning now; nil if none would. Whether it would be withheld only an entry says. What
// dead processes have in progress is finished first, unless it is kept. The error is ErrForeignOperation, or as of Report.
func (s *Store) Why(ctx context.Context, op Op) (*Blocked, error) {
	if op.store != s {
		return nil, ErrForeignOperation
	}
	given, err := s.in(ctx, func() answer { return s.handle.canStart(op.number) })
	if err != nil || given.code == codeCanStart {
		return nil, err
	}
	if given.code != codeBlocked {
		return nil, storeErrorOf(given)
	}
	report, err := s.Report(ctx)
	if err != nil {
		return nil, err
	}
	return s.hindrance(op.number, given, report), nil
}

// latest is the last report for those that were too late, so that many of them at once take one turn.
type latest struct {
	lock   sync.Mutex
	report string
	made   time.Time
}

// isNew is for how long it counts.
const isNew = 5 * time.Millisecond

// tooLate is what kept an operation out until the context was over. What is in progress is looked at for as long as one turn takes.
func (s *Store) tooLate(ctx context.Context, op Op, given answer) error {
	report := ""
	if given.code == codeBlocked && s.gate.begin() {
		report = s.latest.of(s.handle)
		s.gate.end()
	}
	blocked := s.hindrance(op.number, given, report)
	blocked.cause = ctx.Err()
	return blocked
}

// of is a new report, or one that another has just got; empty if no turn was to be had.
func (l *latest) of(h *storeHandle) string {
	l.lock.Lock()
	defer l.lock.Unlock()
	if time.Since(l.made) > isNew {
		report, given := grown(h.report)
		if given.code != codeWritten {
			report = ""
		}
		l.report, l.made = report, time.Now()
	}
	return l.report
}

// Waiting is how many threads, tasks and goroutines wait for an operation, in all processes; of an operation of others, and when the store
// is closed, it is 0.
func (s *Store) Waiting(op Op) int {
	if op.store != s || !s.gate.begin() {
		return 0
	}
	defer s.gate.end()
	given := s.handle.waiting(op.number)
	if given.code != codeCounted {
		return 0
	}
	return int(given.number)
}

// Report says what can begin, which path forbids what, and what is in progress, in lines for programs; and behind it there is a line `lost
// A W NAME` for each operation of a dead opening, `waiting NAME N` for each operation for which somebody waits, and `process W PID` for
// each opening that has something in progress. The error is the context's, ErrSystem, ErrCorrupt, ErrUnsynced, ErrOutOfMemory or
// ErrClosed.
func (s *Store) Report(ctx context.Context) (string, error) { return s.text(ctx, s.handle.report) }

// Journal is all lines so far, also those that were moved away. Others go on meanwhile. The error is as of Report.
func (s *Store) Journal(ctx context.Context) (string, error) { return s.text(ctx, s.handle.journal) }

// Audit reads all lines of the journal again, each of which has to be owed by those before it. A line that isn't is the verdict, counted
// from 0 in its file, without its head. The error is as of Report.
func (s *Store) Audit(ctx context.Context) (Verdict, error) {
	given, err := s.in(ctx, s.handle.audit)
	switch {
	case err != nil:
		return Verdict{}, err
	case given.code == codeSound:
		return Verdict{Sound: true}, nil
	case given.code == codeCorrupt && given.number > 1: // from 1, with the head
		return Verdict{WrongLine: given.number - 2}, nil
	}
	return Verdict{}, storeErrorOf(given)
}

// Rotate moves the file of the journal away, to FILE.1, FILE.2 and so on, and begins the next. The store does so by itself when its room
// is used up. The error is as of Report, and nothing was moved then.
func (s *Store) Rotate(ctx context.Context) error {
	_, err := s.counted(ctx, codeRotated, s.handle.rotate)
	return err
}

// Recover finishes what a dead opening has in progress, of a store that keeps it, and says how much that was. Its number stands in the
// report, behind `lost A`. The error is ErrAlive if it isn't dead, or as of Report.
func (s *Store) Recover(ctx context.Context, worker uint32) (int, error) {
	return s.counted(ctx, codeRecovered, func() answer { return s.handle.recover(worker, false) })
}

// RecoverEvenAlive does the same, also with an opening that is alive: its entries say ErrNotInProgress then. Only right if what the
// operations guard refuses late writers by their token.
func (s *Store) RecoverEvenAlive(ctx context.Context, worker uint32) (int, error) {
	return s.counted(ctx, codeRecovered, func() answer { return s.handle.recover(worker, true) })
}

// Worker is who this opening is in the journal and in reports: a number that is never given again. 0 when it is closed.
func (s *Store) Worker() uint32 {
	if !s.gate.begin() {
		return 0
	}
	defer s.gate.end()
	return s.handle.worker()
}

// Declaration is the declaration as the library prints it, in a line.
func (s *Store) Declaration() string { return s.declared.text }

func (s *Store) counted(ctx context.Context, wanted uint32, call func() answer) (int, error) {
	given, err := s.in(ctx, call)
	if err != nil {
		return 0, err
	}
	if given.code != wanted {
		return 0, storeErrorOf(given)
	}
	return int(given.number), nil
}

func (s *Store) text(ctx context.Context, write func(to []byte) answer) (string, error) {
	text := ""
	given, err := s.in(ctx, func() (given answer) {
		text, given = grown(write)
		return given
	})
	if err != nil {
		return "", err
	}
	if given.code != codeWritten {
		return "", storeErrorOf(given)
	}
	return text, nil
}

// grown is a text that may grow between two calls.
func grown(write func(to []byte) answer) (string, answer) {
	var buffer []byte
	for {
		given := write(buffer)
		if given.code != codeTooSmall {
			return strings.TrimRight(string(buffer), "\x00"), given
		}
		buffer = make([]byte, given.number+4096)
	}
}
