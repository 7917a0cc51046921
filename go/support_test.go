package wanzoche

import (
	"context"
	"errors"
	"runtime"
	"testing"
	"time"
)

const (
	slot = "resource slot cell operation deposit, remove path deposit ; remove end end"
	book = "resource book cell operation read, write path { read } , write end end"
)

// opened is the paths of a declaration, closed at the end of the test.
func opened(t testing.TB, declaration string, options Options) *Paths {
	t.Helper()
	p, err := options.Open(declaration)
	if err != nil {
		t.Fatal(err)
	}
	t.Cleanup(p.Close)
	return p
}

// op is an operation that is declared.
func op(t testing.TB, p *Paths, name string) Op {
	t.Helper()
	found, err := p.Op(name)
	if err != nil {
		t.Fatal(err)
	}
	return found
}

// entered is an operation that nothing forbids.
func entered(t testing.TB, p *Paths, name string) *Entry {
	t.Helper()
	return enteredBy(t, p, background, name)
}

// enteredBy is the same for one of whom a context says more.
func enteredBy(t testing.TB, p *Paths, ctx context.Context, name string) *Entry {
	t.Helper()
	e, err := p.TryEnter(ctx, op(t, p, name))
	if err != nil {
		t.Fatal(err)
	}
	return e
}

func leaves(t testing.TB, e *Entry) {
	t.Helper()
	if err := e.Leave(); err != nil {
		t.Fatal(err)
	}
}

// wants fails unless the error is this one.
func wants(t testing.TB, err, wanted error) {
	t.Helper()
	if !errors.Is(err, wanted) {
		t.Errorf("%v, and %v is wanted", err, wanted)
	}
}

// isSound fails unless the paths' journal keeps to them.
func isSound(t testing.TB, p *Paths, journal string) {
	t.Helper()
	verdict, err := p.Audit(journal)
	if err != nil || !verdict.Sound {
		t.Errorf("the journal: %+v, %v", verdict, err)
	}
}

// until waits for what other goroutines do, for at most ten minutes.
func until(t testing.TB, what string, is func() bool) {
	t.Helper()
	for end := time.Now().Add(10 * time.Minute); !is(); runtime.Gosched() {
		if time.Now().After(end) {
			t.Fatalf("after ten minutes still not: %s", what)
		}
	}
}

var background = context.Background()
