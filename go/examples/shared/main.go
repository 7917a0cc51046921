// Two programs that share paths over a file: services that query, at most three at once in all processes together, and a backup that runs
// alone.
//
//	shared FILE query     makes a hundred queries
//	shared FILE backup    makes one backup
//	shared                begins four of the first and one of the second, over a file of its own
package main

import (
	"context"
	"errors"
	"fmt"
	"log"
	"os"
	"os/exec"
	"os/signal"
	"path/filepath"
	"syscall"
	"time"

	"wanzoche"
)

const declaration = `
	resource pool cell
	operation query, backup
	path { query : 3 } , backup end
	end
`

// open opens the store. A pool of connections goes down with the machine, so nobody waits for the disk.
func open(ctx context.Context, file string) (*wanzoche.Store, error) {
	return wanzoche.OpenStore(ctx, declaration, file, wanzoche.StoreOptions{NoSync: true})
}

// query queries. One that comes too late says so, and goes on.
func query(ctx context.Context, pool *wanzoche.Store) error {
	query, err := pool.Op("query")
	if err != nil {
		return err
	}
	for n := 0; n < 100; n++ {
		soon, cancel := context.WithTimeout(ctx, 500*time.Millisecond)
		err := pool.Do(soon, query, func(context.Context, *wanzoche.StoreEntry) error {
			time.Sleep(100 * time.Microsecond)
			return nil
		})
		cancel()
		if errors.Is(err, context.DeadlineExceeded) {
			log.Print("later: ", err)
		} else if err != nil {
			return err
		}
	}
	return nil
}

func backup(ctx context.Context, pool *wanzoche.Store) error {
	backup, err := pool.Op("backup")
	if err != nil {
		return err
	}
	alone, err := pool.Enter(ctx, backup)
	if err != nil {
		return err
	}
	fmt.Println("a backup: nobody queries")
	return alone.Leave()
}

// run runs one of the programs, until it is interrupted.
func run(file string, program func(context.Context, *wanzoche.Store) error) error {
	signal.Ignore(syscall.SIGXFSZ) // a file that has reached its limit is an error, and doesn't end the program
	ctx, stop := signal.NotifyContext(context.Background(), os.Interrupt, syscall.SIGTERM)
	defer stop()
	pool, err := open(ctx, file)
	if err != nil {
		return err
	}
	if err := program(ctx, pool); err != nil {
		pool.Close()
		return err
	}
	return pool.Close()
}

// both runs both programs at once. A backup that has waited for 5 milliseconds isn't passed by queries that come then.
func both() error {
	folder, err := os.MkdirTemp("", "shared-")
	if err != nil {
		return err
	}
	defer os.RemoveAll(folder)
	file := filepath.Join(folder, "pool.log")
	var begun []*exec.Cmd
	for _, what := range []string{"query", "query", "backup", "query", "query"} {
		program := exec.Command(os.Args[0], file, what)
		program.Stdout, program.Stderr = os.Stdout, os.Stderr
		if err := program.Start(); err != nil {
			return err
		}
		begun = append(begun, program)
	}
	for _, program := range begun {
		if err := program.Wait(); err != nil {
			return err
		}
	}
	return run(file, func(ctx context.Context, pool *wanzoche.Store) error {
		verdict, err := pool.Audit(ctx)
		fmt.Printf("all queries made, journal sound: %t\n", verdict.Sound)
		return err
	})
}

func main() {
	var err error
	switch {
	case len(os.Args) == 1:
		err = both()
	case len(os.Args) == 3 && os.Args[2] == "query":
		err = run(os.Args[1], query)
	case len(os.Args) == 3 && os.Args[2] == "backup":
		err = run(os.Args[1], backup)
	default:
		err = errors.New("shared FILE query, or shared FILE backup")
	}
	if err != nil {
		log.Fatal(err)
	}
}
