package wanzoche

import (
	"context"
	"math/rand"
	"os"
	"runtime"
	"strings"
	"testing"
	"time"
)

const (
	many        = 1000
	mostThreads = many / 2 // threads that the runtime begins for short calls of the library, where the machine has much else to do
)

// threads is how many the system knows of this process.
func threads(t testing.TB) int {
	t.Helper()
	all, err := os.ReadDir("/proc/self/task")
	if err != nil {
		t.Fatal(err)
	}
	return len(all)
}

// Goroutines that wait, are cancelled and begin take one thread of the system together, and not one each; also where the store is synced.
func TestManyWaitOnOneThread(t *testing.T) {
	for _, options := range []StoreOptions{quick, {}} {
		file := storeFile(t)
		s, other := openedStore(t, file, options), openedStore(t, file, options)
		read, writing, before := storeOp(t, s, "read"), enteredStore(t, other, "write"), threads(t)
		waits, cancel := context.WithCancel(background)
		var cancelled, came []<-chan toldOfStore
		for n := 0; n < many/2; n++ {
			cancelled, came = append(cancelled, entersStore(s, waits, read)), append(came, entersStore(s, background, read))
		}
		until(t, "all wait", func() bool { return s.Waiting(read) == many })
		if more := threads(t) - before; more > mostThreads {
			t.Errorf("%d threads for %d that wait", more, many)
		}
		cancel()
		for _, each := range cancelled {
			wants(t, (<-each).err, context.Canceled)
		}
		if waiting := s.Waiting(read); waiting != many/2 {
			t.Error(waiting)
		}
		leavesStore(t, writing)
		var entries []*StoreEntry
		for _, each := range came {
			entries = append(entries, (<-each).entry)
		}
		if more := threads(t) - before; more > mostThreads {
			t.Errorf("%d threads for %d that are in", more, many/2)
		}
		for _, entry := range entries {
			leavesStore(t, entry)
		}
	}
}

// A close ends all waits with its error, and who comes behind it gets the same.
func TestCloseEndsAllWaits(t *testing.T) {
	file := storeFile(t)
	s, other := openedStore(t, file, quick), openedStore(t, file, quick)
	read, writing := storeOp(t, s, "read"), enteredStore(t, other, "write")
	var came []<-chan toldOfStore
	for n := 0; n < 100; n++ {
		came = append(came, entersStore(s, background, read))
	}
	until(t, "all wait", func() bool { return other.Waiting(storeOp(t, other, "read")) == 100 })
	if err := s.Close(); err != nil {
		t.Error(err)
	}
	for _, each := range append(came, entersStore(s, background, read)) {
		wants(t, (<-each).err, ErrClosed)
	}
	if waiting := other.Waiting(storeOp(t, other, "read")); waiting != 0 {
		t.Error(waiting)
	}
	leavesStore(t, writing)
}

// A store that is broken tells all that wait.
func TestABrokenStoreEndsAllWaits(t *testing.T) {
	file := storeFile(t)
	s := openedStore(t, file, quick)
	write := storeOp(t, s, "write")
	_ = enteredStore(t, s, "read")
	var came []<-chan toldOfStore
	for n := 0; n < 50; n++ {
		came = append(came, entersStore(s, background, write))
	}
	until(t, "all wait", func() bool { return s.Waiting(write) == 50 })
	if err := os.WriteFile(file, nil, 0o600); err != nil {
		t.Fatal(err)
	}
	for _, each := range came {
		wants(t, (<-each).err, ErrCorrupt)
	}
	if s.Waiting(write) != 0 {
		t.Error(s.Waiting(write))
	}
}

// Contexts that end at any point, before one waits, while it waits, as it is called, and when it has begun, leave nobody waiting, and
// nothing in progress that no caller has.
func TestCancelledAtAnyPoint(t *testing.T) {
	file := storeFile(t)
	s, other := openedStore(t, file, quick), openedStore(t, file, quick)
	names, begun := []string{"read", "read", "write"}, 0
	for n := 0; n < 300; n++ {
		writing := enteredStore(t, other, "write")
		ctx, cancel := context.WithCancel(background)
		var came []<-chan toldOfStore
		for each := 0; each < 8; each++ {
			came = append(came, entersStore(s, ctx, storeOp(t, s, names[each%3])))
		}
		for yields := rand.Intn(40); yields > 0; yields-- {
			runtime.Gosched()
		}
		go cancel()
		for yields := rand.Intn(40); yields > 0; yields-- {
			runtime.Gosched()
		}
		leavesStore(t, writing)
		for _, each := range came {
			if word := <-each; word.err == nil {
				begun++
				leavesStore(t, word.entry)
			} else {
				wants(t, word.err, context.Canceled)
			}
		}
		if report := reportOf(t, other); strings.Contains(report, "live") || strings.Contains(report, "waiting") {
			t.Fatal(report)
		}
	}
	journal, err := s.Journal(background)
	if err != nil || strings.Count(journal, "\n") != 2*begun+600 {
		t.Error(begun, err)
	}
}

// What is late asks again, and its context ends it, while another has the turn and doesn't give it.
func TestLateOnesAskAgain(t *testing.T) {
	file := storeFile(t)
	s, other := openedStore(t, file, quick), openedStore(t, file, quick)
	page := pageOf(t, file)
	page.stop(other.Worker())
	read := storeOp(t, s, "read")
	ctx, cancel := context.WithTimeout(background, 20*time.Millisecond)
	defer cancel()
	came := entersStore(s, background, read)
	for n := 0; n < 3; n++ {
		if _, err := s.Enter(ctx, read); err != context.DeadlineExceeded {
			t.Error(err)
		}
	}
	page.goOn()
	word := <-came
	if word.err != nil {
		t.Fatal(word.err)
	}
	leavesStore(t, word.entry)
}
