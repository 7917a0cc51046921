package wanzoche

import (
	"context"
	"errors"
	"strings"
	"sync"
	"testing"
	"time"
)

// A context that is over ends a wait, in whatever step it is, and nothing has begun.
func TestContextsAtAStore(t *testing.T) {
	file := storeFile(t)
	s := openedStore(t, file, quick)
	read, write := storeOp(t, s, "read"), storeOp(t, s, "write")
	over, cancel := context.WithCancel(background)
	cancel()
	for _, call := range callsOf(s, read) {
		if err := call(over); err != context.Canceled {
			t.Error(err)
		}
	}
	if _, err := OpenStore(over, book, file, quick); err != context.Canceled {
		t.Error(err)
	}
	writing := enteredStore(t, s, "write")
	waits, cancel := context.WithCancel(background)
	came := entersStore(s, waits, read)
	until(t, "it waits", func() bool { return s.Waiting(read) == 1 })
	cancel()
	err := (<-came).err
	wants(t, err, context.Canceled)
	wants(t, err, ErrBlocked)
	var blocked *Blocked
	wanted := "context canceled: read is blocked: path 0 of book: { read } , write; in progress: write by process 1"
	if !errors.As(err, &blocked) || err.Error() != wanted || s.Waiting(read) != 0 {
		t.Error(err)
	}
	if late := isLate(t, s, write); late.Path != 0 || !errors.Is(late, ErrBlocked) {
		t.Error(late)
	}
	leavesStore(t, writing)
	if journal, _ := s.Journal(background); strings.Count(journal, "\n") != 2 {
		t.Error(journal)
	}
}

// isLate is what keeps an operation out until a time is over. It begins anew with a longer one where that was over before the call.
func isLate(t testing.TB, s *Store, op Op) *Blocked {
	t.Helper()
	for time := time.Millisecond; ; time *= 2 {
		ctx, cancel := context.WithTimeout(background, time)
		_, err := s.Enter(ctx, op)
		cancel()
		wants(t, err, context.DeadlineExceeded)
		var late *Blocked
		if err == nil || errors.As(err, &late) {
			return late
		}
	}
}

// callsOf are all calls that may wait for a turn.
func callsOf(s *Store, op Op) []func(ctx context.Context) error {
	return []func(ctx context.Context) error{
		func(ctx context.Context) error { _, err := s.Enter(ctx, op); return err },
		func(ctx context.Context) error { _, err := s.TryEnter(ctx, op); return err },
		func(ctx context.Context) error { _, err := s.Why(ctx, op); return err },
		func(ctx context.Context) error { _, err := s.Report(ctx); return err },
		func(ctx context.Context) error { _, err := s.Journal(ctx); return err },
		func(ctx context.Context) error { _, err := s.Audit(ctx); return err },
		func(ctx context.Context) error { _, err := s.Recover(ctx, 99); return err },
		func(ctx context.Context) error { return s.Rotate(ctx) },
	}
}

// While another has the turn and doesn't give it, a context ends each call, Leave leaves its end to others, and goroutines go on.
func TestBesideOneThatIsStopped(t *testing.T) {
	file := storeFile(t)
	s, other := openedStore(t, file, quick), openedStore(t, file, quick)
	read := storeOp(t, s, "read")
	reading := enteredStore(t, s, "read")
	page := pageOf(t, file)
	page.stop(other.Worker())
	var all sync.WaitGroup
	for _, call := range append(callsOf(s, read),
		func(ctx context.Context) error { _, err := reading.Use(ctx, Look, 0); return err },
		func(ctx context.Context) error { _, err := OpenStore(ctx, book, file, quick); return err }) {
		ctx, cancel := context.WithTimeout(background, 20*time.Millisecond)
		all.Add(1)
		go func(call func(context.Context) error) {
			defer all.Done()
			defer cancel()
			if err := call(ctx); err != context.DeadlineExceeded {
				t.Error(err)
			}
		}(call)
	}
	all.Wait()
	leavesStore(t, reading)
	page.goOn()
	if err := s.Do(background, storeOp(t, s, "write"), func(context.Context, *StoreEntry) error { return nil }); err != nil {
		t.Error(err)
	}
	if journal, _ := s.Journal(background); strings.Count(journal, " finish ") != 2 || !isIdle(t, s) {
		t.Error(journal)
	}
}

// Where nobody can even be told of an end, Leave says so, and it comes by itself later.
func TestBesideOneThatIsStoppedWithoutASlot(t *testing.T) {
	file := storeFile(t)
	s, other := openedStore(t, file, quick), openedStore(t, file, quick)
	reading := enteredStore(t, s, "read")
	page := pageOf(t, file)
	page.takeSlots(other.Worker()<<3 | 1)
	page.stop(other.Worker())
	wants(t, reading.Leave(), ErrLate)
	wants(t, reading.Leave(), ErrLate)
	page.goOn()
	page.takeSlots(0)
	until(t, "it is over", func() bool { return isIdle(t, other) })
	until(t, "it is left", func() bool { return errors.Is(reading.Leave(), ErrLeft) })
}

// Who is cancelled passes the turn on, also where it comes at the same time.
func TestCancelledAtAStoreLosesNoTurn(t *testing.T) {
	s := openedStore(t, storeFile(t), quick)
	write := storeOp(t, s, "write")
	for n := 0; n < 200; n++ {
		ctx, cancel := context.WithCancel(background)
		reading := enteredStore(t, s, "read")
		first := entersStore(s, ctx, write)
		until(t, "the first waits", func() bool { return s.Waiting(write) == 1 })
		second := entersStore(s, background, write)
		until(t, "both wait", func() bool { return s.Waiting(write) == 2 })
		go cancel()
		leavesStore(t, reading)
		if word := <-first; word.err == nil {
			leavesStore(t, word.entry)
		} else {
			wants(t, word.err, context.Canceled)
		}
		word := <-second
		if word.err != nil {
			t.Fatal(word.err)
		}
		leavesStore(t, word.entry)
	}
	if verdict, err := s.Audit(background); !verdict.Sound || err != nil {
		t.Error(verdict, err)
	}
}

func TestOrderAtAStore(t *testing.T) {
	file := storeFile(t)
	strict := StoreOptions{NoSync: true, Patience: NoPatience}
	s, other := openedStore(t, file, strict), openedStore(t, file, strict)
	write := storeOp(t, s, "write")
	reading := enteredStore(t, s, "read")
	came := entersStore(s, WithPriority(background, 7), write)
	until(t, "it waits", func() bool { return s.Waiting(write) == 1 })
	if pageOf(t, file).priority(0) != 7 { // what it does there the library's own tests show
		t.Error("it has another priority")
	}
	_, err := other.TryEnter(background, storeOp(t, other, "read"))
	wants(t, err, ErrBlocked)
	behind := other.hindrance(0, answer{code: codeWithheld, number: 1}, "")
	if behind.Error() != "read is withheld: behind write, which waits" || behind.Behind.Operation != "write" {
		t.Error(behind)
	}
	leavesStore(t, reading)
	word := <-came
	if word.err != nil || word.entry.Token() != 1 {
		t.Fatal(word)
	}
	leavesStore(t, word.entry)
}
