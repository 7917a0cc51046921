// A pool with three connections, in which up to three goroutines query at once, or one maintains. The pool has no lock and no condition of
// its own: the rule is the text declaration.
package main

import (
	"context"
	"errors"
	"fmt"
	"log"
	"sync"
	"sync/atomic"
	"time"

	"wanzoche"
)

const declaration = `
	resource pool cell
	operation query, maintain
	path { query : 3 } , maintain end
	end
`

type pool struct {
	paths           *wanzoche.Paths
	query, maintain wanzoche.Op
	answers         int32
}

func openPool() (*pool, error) {
	paths, err := wanzoche.Open(declaration)
	if err != nil {
		return nil, err
	}
	query, err := paths.Op("query")
	if err != nil {
		return nil, err
	}
	maintain, err := paths.Op("maintain")
	if err != nil {
		return nil, err
	}
	return &pool{paths: paths, query: query, maintain: maintain}, nil
}

// ask queries the pool, as soon as the paths admit it and the context lasts.
func (p *pool) ask(ctx context.Context) error {
	connection, err := p.paths.Enter(ctx, p.query)
	if err != nil {
		return err
	}
	defer connection.Leave()
	atomic.AddInt32(&p.answers, 1)
	return nil
}

// maintainAlone maintains the pool, and shows that a query can't come in meanwhile.
func (p *pool) maintainAlone(ctx context.Context) error {
	return p.paths.Do(wanzoche.WithName(ctx, "maintenance"), p.maintain, func(ctx context.Context, _ *wanzoche.Entry) error {
		soon, cancel := context.WithTimeout(ctx, 300*time.Millisecond)
		defer cancel()
		if err := p.ask(soon); errors.Is(err, context.DeadlineExceeded) {
			fmt.Println(err)
		}
		return nil
	})
}

func main() {
	p, err := openPool()
	if err != nil {
		log.Fatal(err)
	}
	defer p.paths.Close()
	var all sync.WaitGroup
	for n := 0; n < 40; n++ {
		all.Add(1)
		go func() {
			defer all.Done()
			if err := p.ask(context.Background()); err != nil {
				log.Print(err)
			}
		}()
	}
	all.Wait()
	if err := p.maintainAlone(context.Background()); err != nil {
		log.Print(err)
	}
	journal, err := p.paths.Journal()
	if err != nil {
		log.Print(err)
	}
	verdict, err := p.paths.Audit(journal)
	fmt.Printf("%d answers, journal sound: %t, %v\n", p.answers, verdict.Sound, err)
}
