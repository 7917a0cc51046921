package wanzoche

import (
	"context"
	"errors"
	"strings"
	"testing"
)

func TestOpenings(t *testing.T) {
	p := opened(t, slot, Options{})
	if p.Declaration() != "resource slot cell operation deposit, remove path deposit; remove end end\n" {
		t.Error(p.Declaration())
	}
	_, err := Open("resource slot cell\noperation deposit, remove\npath deposit ; remoove end\nend\n")
	var fault *DeclarationError
	if !errors.As(err, &fault) || fault.Fault != "undeclared" || fault.Line != 3 || fault.Column != 16 {
		t.Fatal(err)
	}
	wanted := "wanzoche: undeclared in line 3, column 16: this isn't an operation of the path's resource\npath deposit ; remoove end\n" +
		"               ^^^^^^^\nexpected an operation that the resource declares\nnearest name: remove"
	if err.Error() != wanted {
		t.Error(err)
	}
	_, err = Open("")
	if !errors.As(err, &fault) || fault.Line != 1 || fault.Column != 1 {
		t.Error(err)
	}
	_, err = Options{Room: MostLines + 1}.Open(slot)
	wants(t, err, ErrBadRoom)
	_, err = Options{NoJournal: true, Log: func(string) {}}.Open(slot)
	wants(t, err, ErrNoJournal)
}

func TestNames(t *testing.T) {
	p, other := opened(t, slot, Options{}), opened(t, slot, Options{})
	_, err := p.Op("remoove")
	wants(t, err, ErrUnknownOperation)
	if err.Error() != `wanzoche: no operation "remoove" is declared; there are deposit, remove` {
		t.Error(err)
	}
	for _, foreign := range []Op{op(t, other, "deposit"), {}} {
		_, err = p.Enter(background, foreign)
		wants(t, err, ErrForeignOperation)
		_, err = p.TryEnter(background, foreign)
		wants(t, err, ErrForeignOperation)
		_, err = p.Why(foreign)
		wants(t, err, ErrForeignOperation)
	}
}

func TestEntryEndsOnce(t *testing.T) {
	p := opened(t, book, Options{})
	writing := entered(t, p, "write")
	_, err := p.TryEnter(background, op(t, p, "read"))
	wants(t, err, ErrBlocked)
	leaves(t, writing)
	wants(t, writing.Leave(), ErrLeft)
	_, err = writing.Use(Look, 0)
	wants(t, err, ErrLeft)
	reading := entered(t, p, "read")
	if reading.Token() != 1 {
		t.Error(reading.Token())
	}
	leaves(t, reading)
	journal, err := p.Journal()
	if err != nil || strings.Count(journal, "\n") != 5 {
		t.Error(journal, err)
	}
	isSound(t, p, journal)
}

func TestDoEndsWhateverTheBodyDoes(t *testing.T) {
	p := opened(t, book, Options{})
	write, failed := op(t, p, "write"), errors.New("failed")
	wants(t, p.Do(background, write, func(context.Context, *Entry) error { return failed }), failed)
	func() {
		defer func() {
			if recover() == nil {
				t.Error("the panic is swallowed")
			}
		}()
		_ = p.Do(background, write, func(context.Context, *Entry) error { panic("in the body") })
	}()
	leaves(t, entered(t, p, "write"))
	p.Close()
	wants(t, p.Do(background, write, func(context.Context, *Entry) error { return nil }), ErrClosed)
}

func TestDevices(t *testing.T) {
	p := opened(t, "resource c cell operation a path a end end resource q queue 1 operation b path b end end "+
		"resource t tally operation d path d end end", Options{Room: 20})
	cell, queue, tally := entered(t, p, "a"), entered(t, p, "b"), entered(t, p, "d")
	uses := []struct {
		entry  *Entry
		verb   Verb
		number uint64
		answer uint64
		err    error
	}{
		{cell, Put, 7, 0, nil}, {cell, Look, 0, 7, nil}, {cell, Add, 1, 0, ErrNotOffered},
		{queue, Put, 5, 1, nil}, {queue, Put, 6, 0, ErrFull}, {queue, Look, 0, 5, nil}, {queue, Take, 0, 5, nil}, {queue, Take, 0, 0, ErrEmpty},
		{tally, Add, 3, 3, nil}, {tally, Look, 0, 3, nil}, {tally, Add, 1<<64 - 1, 0, ErrOverflow},
		{cell, Look, 0, 7, nil}, {cell, Look, 0, 7, nil}, {cell, Look, 0, 7, nil}, {cell, Look, 0, 7, nil}, {cell, Look, 0, 7, nil},
	}
	for n, use := range uses {
		answer, err := use.entry.Use(use.verb, use.number)
		if answer != use.answer || !errors.Is(err, use.err) {
			t.Errorf("use %d: %d, %v", n, answer, err)
		}
	}
	p.Close()
	_, err := cell.Use(Look, 0)
	wants(t, err, ErrClosed)
}

func TestWhyInWords(t *testing.T) {
	p := opened(t, "resource r cell operation a, b, c path { a : 2 } , b end path c end end", Options{})
	if why, err := p.Why(op(t, p, "a")); why != nil || err != nil {
		t.Error(why, err)
	}
	named, err := p.Enter(WithName(background, "billing"), op(t, p, "a"))
	if err != nil {
		t.Fatal(err)
	}
	other := entered(t, p, "a")
	defer leaves(t, entered(t, p, "c"))
	why, err := p.Why(op(t, p, "b"))
	if err != nil || why.Error() != "b is blocked: path 0 of r: { a : 2 } , b; in progress: a by billing, a by worker 2" {
		t.Error(why, err)
	}
	if len(why.InProgress) != 2 || why.InProgress[1].Token != other.Token() || why.Unwrap() != nil || !errors.Is(why, ErrBlocked) {
		t.Errorf("%+v", why)
	}
	leaves(t, named)
	leaves(t, other)
	q := opened(t, slot, Options{})
	why, _ = q.Why(op(t, q, "remove"))
	if why.Error() != "remove is blocked: path 0 of slot: deposit ; remove; in progress: nothing of it; may begin next: deposit" {
		t.Error(why)
	}
}

func TestClosedPaths(t *testing.T) {
	p := opened(t, slot, Options{})
	deposit, inside := op(t, p, "deposit"), entered(t, p, "deposit")
	p.Close()
	p.Close()
	wants(t, inside.Leave(), ErrClosed)
	wants(t, inside.Leave(), ErrLeft)
	_, err := p.Enter(background, deposit)
	wants(t, err, ErrClosed)
	_, err = p.TryEnter(background, deposit)
	wants(t, err, ErrClosed)
	_, err = p.Why(deposit)
	wants(t, err, ErrClosed)
	_, err = p.Report()
	wants(t, err, ErrClosed)
	_, err = p.Journal()
	wants(t, err, ErrClosed)
	wants(t, p.Rotate(), ErrClosed)
	if p.Waiting(deposit) != 0 {
		t.Error("somebody waits")
	}
}

func TestLogGetsEachLine(t *testing.T) {
	var log strings.Builder
	p := opened(t, slot, Options{Room: 5, Log: func(lines string) { log.WriteString(lines) }})
	names := []string{"deposit", "remove"}
	for n := 0; n < 200; n++ {
		e := entered(t, p, names[n%2])
		if _, err := e.Use(Look, 0); err != nil {
			t.Fatal(err)
		}
		leaves(t, e)
	}
	if err := p.Rotate(); err != nil {
		t.Fatal(err)
	}
	if strings.Count(log.String(), "\n") != 600 {
		t.Error(log.String())
	}
	isSound(t, p, log.String())
}

func TestLogThatPanicsLosesNothing(t *testing.T) {
	var log strings.Builder
	panics := true
	p := opened(t, slot, Options{Room: 2, Log: func(lines string) {
		if panics {
			panic("the log")
		}
		log.WriteString(lines)
	}})
	leaves(t, entered(t, p, "deposit"))
	func() {
		defer func() { recover() }()
		entered(t, p, "remove")
		t.Error("the panic is swallowed")
	}()
	panics = false
	leaves(t, entered(t, p, "remove"))
	if err := p.Rotate(); err != nil || strings.Count(log.String(), "\n") != 4 {
		t.Error(log.String(), err)
	}
	isSound(t, p, log.String())
}

func TestWithoutJournal(t *testing.T) {
	p := opened(t, book, Options{Room: 2, NoJournal: true})
	reading := entered(t, p, "read")
	_, err := p.TryEnter(background, op(t, p, "read"))
	wants(t, err, ErrNoRoom)
	leaves(t, reading)
	_, err = p.Journal()
	wants(t, err, ErrNoJournal)
	if report, err := p.Report(); err != nil || report != "startable read write\nfrozen no\n" {
		t.Error(report, err)
	}
}

func TestAudit(t *testing.T) {
	verdict, err := Audit(slot, "1 start deposit: started 0\n2 start remove: started 1\n")
	if err != nil || verdict.Sound || verdict.WrongLine != 1 {
		t.Error(verdict, err)
	}
	var text *TextError
	if _, err = Audit(slot, "hm\n"); !errors.As(err, &text) || err.Error() != "wanzoche: journal: bad line 0" {
		t.Error(err)
	}
	var fault *DeclarationError
	if _, err = Audit("resource", ""); !errors.As(err, &fault) || fault.Column != 9 {
		t.Error(err)
	}
}

func TestExplore(t *testing.T) {
	const locks = "resource a cell operation left path left end end resource b cell operation right path right end end"
	const crosswise = "process kant\nenter left\nenter right\nleave\nleave\nend\nprocess hume\nenter right\nenter left\nleave\nleave\nend\n"
	found, err := Explore(locks, crosswise, 1000)
	if err != nil || found.Outcome != Stalls || found.Processes != "kant: stalled right\nhume: stalled left\n" {
		t.Error(found, err)
	}
	if !strings.HasSuffix(found.Journal, "\n0 start right: blocked 1\n1 start left: blocked 0\n") {
		t.Error(found.Journal)
	}
	found, err = Explore(locks, "process kant\nenter left\nleave\nend\n", 1000)
	if err != nil || found.Outcome != AllDone || found.States == 0 || found.Journal != "" {
		t.Error(found, err)
	}
	if found, err = Explore(locks, crosswise, 1); err != nil || found.Outcome != Undecided || found.Outcome.String() != "undecided" {
		t.Error(found, err)
	}
	var text *TextError
	if _, err = Explore(locks, "hm\n", 9); !errors.As(err, &text) || text.Line != 0 {
		t.Error(err)
	}
}
