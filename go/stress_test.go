package wanzoche

import (
	"context"
	"errors"
	"math/rand"
	"runtime"
	"strings"
	"sync"
	"sync/atomic"
	"testing"
	"time"
)

// witness sees what runs, and knows nothing of paths.
type witness struct {
	t                   *testing.T
	queries, maintained int32
}

func (w *witness) query() {
	if now := atomic.AddInt32(&w.queries, 1); now > 3 || atomic.LoadInt32(&w.maintained) != 0 {
		w.t.Errorf("%d queries at once, or beside maintenance", now)
	}
	runtime.Gosched()
	atomic.AddInt32(&w.queries, -1)
}

func (w *witness) maintain() {
	if now := atomic.AddInt32(&w.maintained, 1); now != 1 || atomic.LoadInt32(&w.queries) != 0 {
		w.t.Errorf("%d maintain at once, or beside queries", now)
	}
	runtime.Gosched()
	atomic.AddInt32(&w.maintained, -1)
}

// contextOf is one that lasts, is cancelled at some moment, or has a limit.
func contextOf(random *rand.Rand) (context.Context, context.CancelFunc) {
	switch random.Intn(3) {
	case 0:
		return background, func() {}
	case 1:
		ctx, cancel := context.WithCancel(background)
		turns := random.Intn(50)
		go func() {
			for n := 0; n < turns; n++ {
				runtime.Gosched()
			}
			cancel()
		}()
		return ctx, cancel
	}
	return context.WithTimeout(WithName(background, "in haste"), time.Duration(random.Intn(2000))*time.Microsecond)
}

// works takes turns in the pool. Some entries are left by another goroutine.
func works(w *witness, p *Paths, random *rand.Rand, turns int) {
	query, maintain := op(w.t, p, "query"), op(w.t, p, "maintain")
	for n := 0; n < turns; n++ {
		ctx, cancel := contextOf(random)
		what, body := query, w.query
		if random.Intn(5) == 0 {
			what, body = maintain, w.maintain
		}
		e, err := p.Enter(ctx, what)
		cancel()
		if err != nil {
			if !errors.Is(err, context.Canceled) && !errors.Is(err, context.DeadlineExceeded) {
				w.t.Error(err)
			}
			continue
		}
		body()
		if random.Intn(8) == 0 {
			go e.Leave()
		} else if err := e.Leave(); err != nil {
			w.t.Error(err)
		}
	}
}

func TestThousandsOfGoroutinesThatCancelAtRandom(t *testing.T) {
	const workers, turns = 2000, 10
	var lines strings.Builder
	p := opened(t, "resource pool cell operation query, maintain path { query : 3 } , maintain end end",
		Options{Log: func(given string) { lines.WriteString(given) }})
	w := &witness{t: t}
	var all sync.WaitGroup
	for n := 0; n < workers; n++ {
		all.Add(1)
		go func(seed int64) {
			defer all.Done()
			works(w, p, rand.New(rand.NewSource(seed)), turns)
		}(int64(n))
	}
	all.Wait()
	idle := "startable query maintain\nfrozen no\n"
	until(t, "all is left", func() bool {
		report, err := p.Report()
		return err == nil && report == idle
	})
	if p.line.length != 0 || len(p.names) != 0 {
		t.Error(p.line.length, len(p.names))
	}
	if err := p.Rotate(); err != nil {
		t.Fatal(err)
	}
	isSound(t, p, lines.String())
}
