package wanzoche

import (
	"context"
	"errors"
	"io/fs"
	"os"
	"path/filepath"
	"strings"
	"sync"
	"sync/atomic"
	"syscall"
	"testing"
)

var quick = StoreOptions{NoSync: true}

// storeFile is a file in a folder that goes with the test, in memory where that is a folder: nothing here is about the disk's time.
func storeFile(t testing.TB) string {
	t.Helper()
	folder, err := os.MkdirTemp("/dev/shm", "wanzoche-go-")
	if err != nil {
		return filepath.Join(t.TempDir(), "book.log")
	}
	t.Cleanup(func() { os.RemoveAll(folder) })
	return filepath.Join(folder, "book.log")
}

// openedStore is a store of the book, closed at the end of the test.
func openedStore(t testing.TB, file string, options StoreOptions) *Store {
	t.Helper()
	s, err := OpenStore(background, book, file, options)
	if err != nil {
		t.Fatal(err)
	}
	t.Cleanup(func() { s.Close() })
	return s
}

func storeOp(t testing.TB, s *Store, name string) Op {
	t.Helper()
	found, err := s.Op(name)
	if err != nil {
		t.Fatal(err)
	}
	return found
}

// enteredStore is an operation that nothing forbids.
func enteredStore(t testing.TB, s *Store, name string) *StoreEntry {
	t.Helper()
	e, err := s.TryEnter(background, storeOp(t, s, name))
	if err != nil {
		t.Fatal(err)
	}
	return e
}

func leavesStore(t testing.TB, e *StoreEntry) {
	t.Helper()
	if err := e.Leave(); err != nil {
		t.Fatal(err)
	}
}

func reportOf(t testing.TB, s *Store) string {
	t.Helper()
	report, err := s.Report(background)
	if err != nil {
		t.Fatal(err)
	}
	return report
}

func isIdle(t testing.TB, s *Store) bool { return !strings.Contains(reportOf(t, s), "live") }

// toldOfStore is what an entry of a goroutine came to.
type toldOfStore struct {
	entry *StoreEntry
	err   error
}

// entersStore begins an operation in a goroutine, and hands over what came of it.
func entersStore(s *Store, ctx context.Context, op Op) <-chan toldOfStore {
	came := make(chan toldOfStore, 1)
	go func() {
		e, err := s.Enter(ctx, op)
		came <- toldOfStore{e, err}
	}()
	return came
}

func TestStore(t *testing.T) {
	s := openedStore(t, storeFile(t), StoreOptions{})
	read, write := storeOp(t, s, "read"), storeOp(t, s, "write")
	one, two := enteredStore(t, s, "read"), enteredStore(t, s, "read")
	spelled := "resource book cell operation read, write path { read }, write end end\n"
	if s.Worker() != 1 || one.Token() != 0 || two.Token() != 1 || s.Declaration() != spelled {
		t.Error(s.Worker(), one.Token(), two.Token(), s.Declaration())
	}
	_, err := s.TryEnter(background, write)
	wants(t, err, ErrBlocked)
	why, err := s.Why(background, write)
	wanted := "write is blocked: path 0 of book: { read } , write; in progress: read by process 1, read by process 1"
	if err != nil || why.Error() != wanted || why.InProgress[1].Token != 1 || !errors.Is(why, ErrBlocked) {
		t.Error(why, err)
	}
	if why, err = s.Why(background, read); why != nil || err != nil {
		t.Error(why, err)
	}
	if !strings.Contains(reportOf(t, s), "blocked write 0\nlive 0 1 read\nlive 1 1 read\nfrozen no\nprocess 1 ") {
		t.Error(reportOf(t, s))
	}
	for n, use := range []struct {
		verb   Verb
		number uint64
		answer uint64
		err    error
	}{{Put, 7, 0, nil}, {Look, 0, 7, nil}, {Take, 0, 0, ErrNotOffered}, {Add, 1, 0, ErrNotOffered}} {
		if answer, err := one.Use(background, use.verb, use.number); answer != use.answer || !errors.Is(err, use.err) {
			t.Errorf("use %d: %d, %v", n, answer, err)
		}
	}
	leavesStore(t, one)
	wants(t, one.Leave(), ErrLeft)
	_, err = one.Use(background, Look, 0)
	wants(t, err, ErrLeft)
	leavesStore(t, two)
	if verdict, err := s.Audit(background); !verdict.Sound || err != nil || !isIdle(t, s) {
		t.Error(verdict, err)
	}
	if err := s.Close(); err != nil || s.Close() != nil {
		t.Error(err)
	}
}

func TestStoreThatIsClosed(t *testing.T) {
	file := storeFile(t)
	s, other := openedStore(t, file, quick), openedStore(t, file, quick)
	read, write := storeOp(t, s, "read"), storeOp(t, s, "write")
	inside := enteredStore(t, s, "read")
	came := entersStore(s, background, write)
	until(t, "it waits", func() bool { return other.Waiting(storeOp(t, other, "write")) == 1 })
	if err := s.Close(); err != nil {
		t.Error(err)
	}
	wants(t, (<-came).err, ErrClosed)
	wants(t, inside.Leave(), ErrClosed)
	_, err := s.Enter(background, read)
	wants(t, err, ErrClosed)
	_, err = s.TryEnter(background, read)
	wants(t, err, ErrClosed)
	_, err = s.Why(background, read)
	wants(t, err, ErrClosed)
	_, err = s.Report(background)
	wants(t, err, ErrClosed)
	wants(t, s.Rotate(background), ErrClosed)
	if s.Waiting(read) != 0 || s.Worker() != 0 {
		t.Error("it counts")
	}
	leavesStore(t, enteredStore(t, other, "write"))
}

func TestTwoOpenings(t *testing.T) {
	file := storeFile(t)
	one, other, paths := openedStore(t, file, quick), openedStore(t, file, quick), opened(t, book, Options{})
	for _, foreign := range []Op{storeOp(t, other, "read"), op(t, paths, "read"), {}} {
		_, err := one.Enter(background, foreign)
		wants(t, err, ErrForeignOperation)
		_, err = one.TryEnter(background, foreign)
		wants(t, err, ErrForeignOperation)
		_, err = one.Why(background, foreign)
		wants(t, err, ErrForeignOperation)
	}
	_, err := paths.TryEnter(background, storeOp(t, one, "read"))
	wants(t, err, ErrForeignOperation)
	_, err = one.Op("reed")
	wants(t, err, ErrUnknownOperation)
	reading := enteredStore(t, one, "read")
	_, err = other.TryEnter(background, storeOp(t, other, "write"))
	wants(t, err, ErrBlocked)
	came := entersStore(other, background, storeOp(t, other, "write"))
	until(t, "it waits", func() bool { return one.Waiting(storeOp(t, one, "write")) == 1 })
	leavesStore(t, reading)
	word := <-came
	if word.err != nil || word.entry.Token() != 1 {
		t.Fatal(word)
	}
	leavesStore(t, word.entry)
	journal, err := one.Journal(background)
	if err != nil || journal != "1 start read: started 0\n1 finish 0: finished\n2 start write: started 1\n2 finish 1: finished\n" {
		t.Error(journal, err)
	}
}

func TestDoAtAStore(t *testing.T) {
	s, failed := openedStore(t, storeFile(t), quick), errors.New("failed")
	write := storeOp(t, s, "write")
	wants(t, s.Do(background, write, func(context.Context, *StoreEntry) error { return failed }), failed)
	wants(t, s.Do(background, write, func(_ context.Context, e *StoreEntry) error { return e.Leave() }), nil)
	func() {
		defer func() {
			if recover() == nil {
				t.Error("the panic is swallowed")
			}
		}()
		_ = s.Do(background, write, func(context.Context, *StoreEntry) error { panic("in the body") })
	}()
	if !isIdle(t, s) {
		t.Error("it is in progress")
	}
}

func TestRotationAndRooms(t *testing.T) {
	file := storeFile(t)
	s := openedStore(t, file, StoreOptions{NoSync: true, Room: 7})
	for n := 0; n < 20; n++ {
		leavesStore(t, enteredStore(t, s, "read"))
	}
	if err := s.Rotate(background); err != nil {
		t.Error(err)
	}
	journal, err := s.Journal(background)
	if _, missing := os.Stat(file + ".5"); missing != nil || strings.Count(journal, "\n") != 40 {
		t.Error(missing, journal, err)
	}
	_, err = OpenStore(background, book, file+"2", StoreOptions{Room: MostLines + 1})
	wants(t, err, ErrBadRoom)
}

func TestWhatIsNoStore(t *testing.T) {
	file := storeFile(t)
	var fault *DeclarationError
	_, err := OpenStore(background, "resource book cell operation read path reed end end", file, quick)
	if !errors.As(err, &fault) || fault.Fault != "undeclared" {
		t.Error(err)
	}
	s := openedStore(t, file, quick)
	_, err = OpenStore(background, "resource book cell operation read, write path read , write end end", file, quick)
	wants(t, err, ErrOtherDeclaration)
	if !strings.Contains(err.Error(), "`read, write end end`") {
		t.Error(err)
	}
	leavesStore(t, enteredStore(t, s, "read"))
	text, _ := os.ReadFile(file)
	_ = os.WriteFile(file, []byte(strings.Replace(string(text), "finish 0", "finish 1", 1)), 0o600)
	if verdict, err := s.Audit(background); verdict.Sound || verdict.WrongLine != 1 || err != nil {
		t.Error(verdict, err)
	}
	s.Close()
	_, err = OpenStore(background, book, file, quick)
	wants(t, err, ErrCorrupt)
	var corrupt *StoreError
	if !errors.As(err, &corrupt) || corrupt.Line != 3 || !strings.Contains(err.Error(), "book.log") {
		t.Error(err)
	}
	_ = os.WriteFile(file+"2", []byte("some text\n"), 0o600)
	_, err = OpenStore(background, book, file+"2", quick)
	wants(t, err, ErrNotAStore)
	_, err = OpenStore(background, book, "/no folder/book.log", quick)
	wants(t, err, ErrSystem)
	wants(t, err, syscall.ENOENT)
	wants(t, err, fs.ErrNotExist)
}

func TestEachCodeOfAStoreHasItsError(t *testing.T) {
	for code := uint32(codeLate); code <= codeCounted; code++ {
		err := storeErrorOf(answer{code: code, number: uint64(syscall.EIO)})
		_, ok := kinds[code]
		isNone := code == codeOwed || code == codeRecovered || code == codeCounted
		if ok == isNone || strings.Contains(err.Error(), "answered") == ok {
			t.Error(code, err)
		}
	}
	wants(t, storeErrorOf(answer{code: codeNotYours}), ErrNotInProgress)
	wants(t, storeErrorOf(answer{code: codeNoRoom}), ErrNoRoom)
	err := storeErrorOf(answer{code: codeUnsynced, number: uint64(syscall.EIO)})
	wants(t, err, ErrUnsynced)
	wants(t, err, syscall.EIO)
	if err.Error() != "wanzoche: a sync of the store failed: input/output error" {
		t.Error(err)
	}
}

// Goroutines of two openings, which exclude each other.
func TestManyGoroutinesAtAStore(t *testing.T) {
	file := storeFile(t)
	one, other := openedStore(t, file, quick), openedStore(t, file, quick)
	var inside, overlaps int32
	var all sync.WaitGroup
	for n := 0; n < 40; n++ {
		s := one
		if n%2 == 0 {
			s = other
		}
		all.Add(1)
		go func() {
			defer all.Done()
			for k := 0; k < 25; k++ {
				err := s.Do(background, storeOp(t, s, "write"), func(context.Context, *StoreEntry) error {
					if atomic.AddInt32(&inside, 1) != 1 {
						atomic.AddInt32(&overlaps, 1)
					}
					atomic.AddInt32(&inside, -1)
					return nil
				})
				if err != nil {
					t.Error(err)
				}
			}
		}()
	}
	all.Wait()
	if verdict, err := one.Audit(background); !verdict.Sound || err != nil || overlaps != 0 || !isIdle(t, one) {
		t.Error(verdict, err, overlaps)
	}
}
