package wanzoche

import (
	"context"
	"errors"
	"log"
	"os"
	"runtime"
	"runtime/pprof"
	"strconv"
	"strings"
	"sync"
	"testing"
	"time"
)

// lockedBuffer is a text that several goroutines write and read.
type lockedBuffer struct {
	lock sync.Mutex
	text strings.Builder
}

func (b *lockedBuffer) Write(given []byte) (int, error) {
	b.lock.Lock()
	defer b.lock.Unlock()
	return b.text.Write(given)
}

func (b *lockedBuffer) String() string {
	b.lock.Lock()
	defer b.lock.Unlock()
	return b.text.String()
}

// waits begins an operation in a goroutine, and hands over what came of it.
func waits(p *Paths, ctx context.Context, op Op) <-chan told {
	came := make(chan told, 1)
	go func() {
		e, err := p.Enter(ctx, op)
		came <- told{e, err}
	}()
	return came
}

func TestLeaveBeginsWhatOthersWaitFor(t *testing.T) {
	p := opened(t, book, Options{})
	read, writing := op(t, p, "read"), entered(t, p, "write")
	var came []<-chan told
	for n := 0; n < 6; n++ {
		came = append(came, waits(p, background, read))
	}
	until(t, "six wait", func() bool { return p.Waiting(read) == 6 })
	leaves(t, writing)
	for _, each := range came { // none of them leaves before all are in
		word := <-each
		if word.err != nil {
			t.Fatal(word.err)
		}
		defer leaves(t, word.entry)
	}
}

func TestContextThatIsOverBeginsNothing(t *testing.T) {
	p := opened(t, slot, Options{})
	over, cancel := context.WithCancel(background)
	cancel()
	_, err := p.Enter(over, op(t, p, "deposit"))
	if err != context.Canceled {
		t.Error(err)
	}
	if journal, _ := p.Journal(); journal != "" {
		t.Error(journal)
	}
}

func TestDeadline(t *testing.T) {
	p := opened(t, slot, Options{})
	remove := op(t, p, "remove")
	begun := time.Now()
	limit, cancel := context.WithTimeout(background, 30*time.Millisecond)
	defer cancel()
	_, err := p.Enter(limit, remove)
	wants(t, err, context.DeadlineExceeded)
	wants(t, err, ErrBlocked)
	var blocked *Blocked
	if !errors.As(err, &blocked) || time.Since(begun) < 30*time.Millisecond || p.Waiting(remove) != 0 {
		t.Error(err)
	}
	wanted := "context deadline exceeded: remove is blocked: path 0 of slot: deposit ; remove; " +
		"in progress: nothing of it; may begin next: deposit"
	if err.Error() != wanted {
		t.Error(err)
	}
}

func TestCancelledWaiterStartsNothingAndLosesNoTurn(t *testing.T) {
	p := opened(t, slot, Options{Room: MostLines})
	remove := op(t, p, "remove")
	for n := 0; n < 300; n++ {
		ctx, cancel := context.WithCancel(background)
		first := waits(p, ctx, remove)
		until(t, "the first waits", func() bool { return p.Waiting(remove) == 1 })
		second := waits(p, background, remove)
		until(t, "both wait", func() bool { return p.Waiting(remove) == 2 })
		depositing := entered(t, p, "deposit")
		go cancel()
		leaves(t, depositing)
		word := <-first
		if word.err == nil { // it had its turn, so the second needs another deposit
			leaves(t, word.entry)
			leaves(t, entered(t, p, "deposit"))
		} else {
			wants(t, word.err, context.Canceled)
		}
		word = <-second
		if word.err != nil {
			t.Fatal(word.err)
		}
		leaves(t, word.entry)
	}
	journal, _ := p.Journal()
	isSound(t, p, journal)
}

func TestCloseReleasesWhoWaits(t *testing.T) {
	p := opened(t, slot, Options{})
	remove, inside := op(t, p, "remove"), entered(t, p, "deposit")
	var came []<-chan told
	for n := 0; n < 5; n++ {
		came = append(came, waits(p, background, remove))
	}
	until(t, "five wait", func() bool { return p.Waiting(remove) == 5 })
	p.Close()
	for _, each := range came {
		wants(t, (<-each).err, ErrClosed)
	}
	wants(t, inside.Leave(), ErrClosed)
}

func TestPanicOfTheLogIsToldToWhoWaits(t *testing.T) {
	panics := false
	p := opened(t, slot, Options{Room: 4, Log: func(string) {
		if panics {
			panic("the log")
		}
	}})
	remove, depositing := op(t, p, "remove"), entered(t, p, "deposit")
	came := waits(p, background, remove)
	until(t, "it waits", func() bool { return p.Waiting(remove) == 1 })
	panics = true
	func() {
		defer func() { recover() }()
		depositing.Leave()
		t.Error("the panic is swallowed")
	}()
	wants(t, (<-came).err, ErrNoRoom)
	panics = false
	leaves(t, entered(t, p, "remove"))
}

// Goroutines that wait park, and hold no threads.
func TestWaitingHoldsNoThreads(t *testing.T) {
	const many = 5000
	p := opened(t, book, Options{NoJournal: true, Room: 2 * many})
	read, writing := op(t, p, "read"), entered(t, p, "write")
	came := make([]<-chan told, many)
	for n := range came {
		came[n] = waits(p, background, read)
	}
	until(t, "all wait", func() bool { return p.Waiting(read) == many })
	if threads := pprof.Lookup("threadcreate").Count(); threads > many/4 { // a call of C that is held up takes one meanwhile
		t.Errorf("%d threads for %d goroutines that wait", threads, many)
	}
	leaves(t, writing)
	for _, each := range came {
		word := <-each
		if word.err != nil {
			t.Fatal(word.err)
		}
		leaves(t, word.entry)
	}
}

// An entry that nobody has any more is told of, and stays in progress; one that was left, or whose paths are closed, isn't told of.
func TestDroppedEntryIsTold(t *testing.T) {
	var said lockedBuffer
	defer log.SetOutput(log.Writer())
	log.SetOutput(&said)
	p, closed := opened(t, book, Options{}), opened(t, book, Options{})
	func() {
		leaves(t, entered(t, p, "read"))
		entered(t, closed, "write")
		closed.Close()
		if _, err := p.Enter(WithName(background, "billing"), op(t, p, "write")); err != nil {
			t.Fatal(err)
		}
	}()
	until(t, "it is told", func() bool {
		runtime.GC()
		return strings.Contains(said.String(), "wanzoche: write by billing was dropped without Leave, and stays in progress")
	})
	_, err := p.TryEnter(background, op(t, p, "read"))
	wants(t, err, ErrBlocked)
	if strings.Count(said.String(), "dropped") != 1 {
		t.Error(said.String())
	}
}

// addressSpace is how many bytes of it the process has.
func addressSpace(t *testing.T) int {
	t.Helper()
	said, err := os.ReadFile("/proc/self/statm")
	if err != nil {
		t.Fatal(err)
	}
	pages, err := strconv.Atoi(strings.Fields(string(said))[0])
	if err != nil {
		t.Fatal(err)
	}
	return pages * os.Getpagesize()
}

// Paths that nobody has any more give their memory back. Each of these has 151 million bytes, which nobody has touched.
func TestDroppedPathsAreClosed(t *testing.T) {
	before := addressSpace(t)
	all := make([]*Paths, 10)
	for n := range all {
		p, err := Options{Room: MostLines}.Open(book)
		if err != nil {
			t.Fatal(err)
		}
		all[n] = p
	}
	if addressSpace(t) < before+1000000000 {
		t.Fatal("these have less memory than they say")
	}
	runtime.KeepAlive(all)
	until(t, "they are closed", func() bool {
		runtime.GC()
		return addressSpace(t) < before+500000000
	})
}
