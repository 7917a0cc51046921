// A worker for c/tests/store_together, which kills it: c/tests/store_worker.c says what it is called with, and what the witness is.
package main

import (
	"context"
	"errors"
	"fmt"
	"math/rand"
	"os"
	"path/filepath"
	"strings"
	"sync"
	"syscall"
	"time"

	"wanzoche"
)

const (
	book      = "resource book cell operation read, write path { read } , write end end"
	above     = 200
	violation = 3
	workers   = 2
)

// looker is one of the goroutines, with its parts of the witness.
type looker struct {
	number  int
	folder  string
	below   int
	entries *os.File
	blind   bool
}

func must(err error) {
	if err != nil {
		panic(err)
	}
}

func open(folder, name string) int {
	file, err := syscall.Open(filepath.Join(folder, name), syscall.O_RDWR|syscall.O_CREAT|syscall.O_CLOEXEC, 0o600)
	must(err)
	return file
}

// locks says whether it has the lock now, or waits for it.
func locks(file, how int) bool {
	for {
		err := syscall.Flock(file, how)
		if err == syscall.EWOULDBLOCK {
			return false
		}
		if err != syscall.EINTR {
			must(err)
			return true
		}
	}
}

// lookOn locks both, or ends the process.
func (l looker) lookOn(how int) {
	one, other := locks(l.below, how|syscall.LOCK_NB), locks(above+l.number, how|syscall.LOCK_NB)
	if !one && !other || l.blind && !(one && other) {
		fmt.Println("tests/worker: the witness saw an overlap")
		os.Exit(violation)
	}
	if !one { // of one that is about to be gone
		locks(l.below, how)
	}
	if !other {
		locks(above+l.number, how)
	}
}

func (l looker) isIn(writes bool) {
	how := syscall.LOCK_SH
	if writes {
		how = syscall.LOCK_EX
	}
	l.lookOn(how)
	_, err := l.entries.WriteString("g")
	must(err)
	locks(l.below, syscall.LOCK_UN)
	locks(above+l.number, syscall.LOCK_UN)
}

func (l looker) works(s *wanzoche.Store) {
	chance := rand.New(rand.NewSource(int64(os.Getpid()*workers + l.number)))
	for {
		if _, err := os.Stat(filepath.Join(l.folder, "end")); err == nil {
			return
		}
		writes, time := chance.Intn(3) == 0, time.Duration(1+chance.Intn(30))*time.Millisecond
		if l.blind {
			l.isIn(writes)
		} else {
			l.enters(s, writes, time)
		}
	}
}

// enters is in for a moment, if it gets in within this time.
func (l looker) enters(s *wanzoche.Store, writes bool, time time.Duration) {
	name := "read"
	if writes {
		name = "write"
	}
	op, err := s.Op(name)
	must(err)
	ctx, cancel := context.WithTimeout(context.Background(), time)
	defer cancel()
	err = s.Do(ctx, op, func(context.Context, *wanzoche.StoreEntry) error {
		l.isIn(writes)
		return nil
	})
	if !errors.Is(err, context.DeadlineExceeded) {
		must(err)
	}
}

func check(file string) {
	s := opened(file)
	report, err := s.Report(context.Background())
	must(err)
	verdict, err := s.Audit(context.Background())
	must(err)
	if strings.Contains(report, "live") || strings.Contains(report, "waiting") || !verdict.Sound {
		os.Exit(1)
	}
	must(s.Close())
}

func opened(file string) *wanzoche.Store {
	options := wanzoche.StoreOptions{NoSync: os.Getenv("STORE_IS_SYNCED") == ""}
	s, err := wanzoche.OpenStore(context.Background(), book, file, options)
	must(err)
	return s
}

func main() {
	file, folder, blind := os.Args[1], os.Args[2], len(os.Args) > 3
	if blind && os.Args[3] == "check" {
		check(file)
		return
	}
	entries, err := os.OpenFile(filepath.Join(folder, "entries"), os.O_WRONLY|os.O_APPEND|os.O_CREATE, 0o600)
	must(err)
	lookers := make([]looker, workers)
	for n := range lookers {
		lookers[n] = looker{n, folder, open(folder, "below"), entries, blind}
	}
	var s *wanzoche.Store
	if !blind {
		s = opened(file)
	}
	var all sync.WaitGroup
	for n, l := range lookers {
		must(syscall.Dup3(open(folder, "above"), above+n, syscall.O_CLOEXEC))
		all.Add(1)
		go func(l looker) {
			defer all.Done()
			l.works(s)
		}(l)
	}
	all.Wait()
	if !blind {
		must(s.Close())
	}
}
