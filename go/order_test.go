package wanzoche

import (
	"context"
	"errors"
	"reflect"
	"strings"
	"sync"
	"testing"
	"time"
)

// hand is a clock that goes on when a test says so.
type hand struct {
	lock  sync.Mutex
	time  time.Duration
	calls map[*call]bool
}

type call struct {
	at   time.Duration
	what func()
}

// handed is the paths of a declaration whose clock is a hand that stands.
func handed(t testing.TB, declaration string, patience time.Duration) (*Paths, *hand) {
	t.Helper()
	h := &hand{time: time.Hour, calls: map[*call]bool{}}
	p := opened(t, declaration, Options{Patience: patience})
	p.clock = clock{h.now, h.call}
	return p, h
}

func (h *hand) now() time.Duration {
	h.lock.Lock()
	defer h.lock.Unlock()
	return h.time
}

func (h *hand) call(after time.Duration, what func()) func() {
	h.lock.Lock()
	defer h.lock.Unlock()
	c := &call{h.time + after, what}
	h.calls[c] = true
	return func() {
		h.lock.Lock()
		defer h.lock.Unlock()
		delete(h.calls, c)
	}
}

// goesOn moves the hand, and calls what is due.
func (h *hand) goesOn(by time.Duration) {
	h.lock.Lock()
	h.time += by
	var due []func()
	for c := range h.calls {
		if c.at <= h.time {
			due = append(due, c.what)
			delete(h.calls, c)
		}
	}
	h.lock.Unlock()
	for _, what := range due {
		what()
	}
}

// set is how many calls are to come.
func (h *hand) set() int {
	h.lock.Lock()
	defer h.lock.Unlock()
	return len(h.calls)
}

// stands begins an operation in a goroutine, which is seen to wait.
func stands(t testing.TB, p *Paths, ctx context.Context, name string) <-chan told {
	t.Helper()
	before := len(p.Waiters())
	came := waits(p, ctx, op(t, p, name))
	until(t, name+" waits", func() bool { return len(p.Waiters()) == before+1 })
	return came
}

// comes is the entry of one who waited. That a call is over in which it was let in is enough: nothing else is waited for.
func comes(t testing.TB, came <-chan told) *Entry {
	t.Helper()
	word := <-came
	if word.err != nil {
		t.Fatal(word.err)
	}
	return word.entry
}

// waiting fails unless these wait, in this order.
func waiting(t testing.TB, p *Paths, names ...string) {
	t.Helper()
	var found []string
	for _, w := range p.Waiters() {
		found = append(found, w.Operation)
	}
	if !reflect.DeepEqual(found, names) {
		t.Fatalf("%v wait, and not %v", found, names)
	}
}

// shut fails unless an operation is withheld for one who waits for another.
func shut(t testing.TB, p *Paths, name, behind string) {
	t.Helper()
	why, err := p.Why(op(t, p, name))
	if err != nil || why == nil || why.Behind == nil || why.Behind.Operation != behind || why.Path != -1 {
		t.Fatalf("%s isn't behind %s: %v, %v", name, behind, why, err)
	}
	_, err = p.TryEnter(background, op(t, p, name))
	wants(t, err, ErrBlocked)
}

func TestReaderStandsBehindAWriterThatWaits(t *testing.T) {
	p, _ := handed(t, book, NoPatience)
	reading := entered(t, p, "read")
	writer := stands(t, p, background, "write")
	shut(t, p, "read", "write")
	reader := stands(t, p, background, "read")
	leaves(t, reading)
	waiting(t, p, "read")
	writing := comes(t, writer)
	leaves(t, writing)
	waiting(t, p)
	leaves(t, comes(t, reader))
}

func TestEndlessPatienceWithholdsNothing(t *testing.T) {
	p, h := handed(t, book, EndlessPatience)
	reading := entered(t, p, "read")
	writer := stands(t, p, background, "write")
	h.goesOn(1000 * time.Hour)
	if why, err := p.Why(op(t, p, "read")); why != nil || err != nil {
		t.Error(why, err)
	}
	leaves(t, entered(t, p, "read"))
	leaves(t, reading)
	leaves(t, comes(t, writer))
	if h.set() != 0 {
		t.Error("an alarm is set")
	}
}

func TestNothingIsWithheldBeforePatienceEnds(t *testing.T) {
	p, h := handed(t, book, 0)
	reading := entered(t, p, "read")
	writer := stands(t, p, background, "write")
	h.goesOn(DefaultPatience - 1)
	leaves(t, entered(t, p, "read"))
	h.goesOn(1)
	shut(t, p, "read", "write")
	leaves(t, reading)
	leaves(t, comes(t, writer))
}

// One that holds a read, and asks for another operation while a writer waits for that read to end.
func TestNestedReaderDoesntStall(t *testing.T) {
	p, _ := handed(t, book, NoPatience)
	read := op(t, p, "read")
	var writer <-chan told
	err := p.Do(background, read, func(ctx context.Context, outer *Entry) error {
		writer = stands(t, p, background, "write")
		shut(t, p, "read", "write")
		inner, err := p.TryEnter(ctx, read)
		if err != nil {
			return err
		}
		leaves(t, inner)
		return p.Do(ctx, read, func(context.Context, *Entry) error { return nil })
	})
	if err != nil {
		t.Error(err)
	}
	leaves(t, comes(t, writer))
}

const desk = "resource book cell operation read, write path { read } , write end end resource desk cell operation sit path sit end end"

// What one holds who begins to wait doesn't run any more, so others may go past whom it keeps out.
func TestWhoBeginsToWaitLetsOthersPass(t *testing.T) {
	p, _ := handed(t, desk, NoPatience)
	sitting, reading := entered(t, p, "sit"), entered(t, p, "read")
	writer := stands(t, p, background, "write")
	reader := stands(t, p, background, "read")
	sitter := waits(p, WithEntry(background, reading), op(t, p, "sit"))
	second := comes(t, reader)
	waiting(t, p, "write", "sit")
	leaves(t, sitting)
	leaves(t, comes(t, sitter))
	shut(t, p, "read", "write") // both reads run again
	leaves(t, reading)
	leaves(t, second)
	leaves(t, comes(t, writer))
}

// An entry runs again when nobody waits any more who holds it.
func TestEntryIsHeldByAllWhoSaySo(t *testing.T) {
	p, _ := handed(t, desk, NoPatience)
	sitting, reading := entered(t, p, "sit"), entered(t, p, "read")
	writer := stands(t, p, background, "write")
	ctx := WithEntry(WithEntry(background, reading), reading)
	first, second := stands(t, p, ctx, "sit"), stands(t, p, ctx, "sit")
	leaves(t, sitting)
	sitting = comes(t, first)
	leaves(t, entered(t, p, "read")) // the second waits yet
	leaves(t, sitting)
	leaves(t, comes(t, second))
	shut(t, p, "read", "write")
	leaves(t, reading)
	leaves(t, comes(t, writer))
}

func TestWhoGivesUpLetsOthersPass(t *testing.T) {
	p, h := handed(t, book, NoPatience)
	reading := entered(t, p, "read")
	ctx, cancel := context.WithCancel(background)
	writer := stands(t, p, ctx, "write")
	reader := stands(t, p, background, "read")
	if h.set() != 1 {
		t.Error("no alarm is set")
	}
	cancel()
	wants(t, (<-writer).err, context.Canceled)
	leaves(t, comes(t, reader))
	leaves(t, reading)
	if h.set() != 0 {
		t.Error("an alarm is set, and nobody waits")
	}
}

// The start of one may take away what others were withheld for.
func TestStartLetsOthersPass(t *testing.T) {
	p, _ := handed(t, "resource r cell operation x, y, z, q path (x ; z) , y end path { q } , y end end", NoPatience)
	first := entered(t, p, "q")
	y := stands(t, p, background, "y")
	q := stands(t, p, background, "q")
	shut(t, p, "x", "y")
	x := enteredBy(t, p, WithPriority(background, 1), "x") // y can't follow any more, before z
	waiting(t, p, "y")
	for _, each := range []*Entry{comes(t, q), first, x} {
		leaves(t, each)
	}
	leaves(t, entered(t, p, "z"))
	leaves(t, comes(t, y))
}

// One who waits for what another has to make way for withholds nothing from that one.
func TestRemoverThatWaitsFirstDoesntKeepOutDeposits(t *testing.T) {
	p, _ := handed(t, slot, NoPatience)
	remover := stands(t, p, background, "remove")
	second := stands(t, p, background, "remove")
	leaves(t, entered(t, p, "deposit"))
	waiting(t, p, "remove")
	leaves(t, comes(t, remover))
	leaves(t, entered(t, p, "deposit"))
	leaves(t, comes(t, second))
}

func TestBufferRunsInOrder(t *testing.T) {
	p, _ := handed(t, "resource b cell operation deposit, remove path { deposit ; remove : 2 } end path deposit end path remove end end",
		NoPatience)
	depositing := entered(t, p, "deposit")
	first := stands(t, p, background, "deposit")
	second := stands(t, p, background, "deposit")
	remover := stands(t, p, background, "remove")
	leaves(t, depositing)
	leaves(t, comes(t, first)) // the buffer is full
	leaves(t, comes(t, remover))
	leaves(t, comes(t, second))
	leaves(t, entered(t, p, "remove"))
	leaves(t, entered(t, p, "remove"))
	waiting(t, p)
}

func TestPriorities(t *testing.T) {
	p, _ := handed(t, book, NoPatience)
	reading := entered(t, p, "read")
	plain := stands(t, p, WithName(background, "plain"), "write")
	urgent := stands(t, p, WithName(WithPriority(background, 7), "urgent"), "write")
	later := stands(t, p, WithPriority(background, 7), "read")
	if found := p.Waiters(); found[0].Worker != "urgent" || found[0].Priority != 7 || found[2].Worker != "plain" {
		t.Error(found)
	}
	leaves(t, enteredBy(t, p, WithPriority(background, 8), "read")) // stands before them all
	leaves(t, reading)
	leaves(t, comes(t, urgent))
	waiting(t, p, "write")
	leaves(t, comes(t, later))
	leaves(t, comes(t, plain))
}

// A reader waits for another goroutine that reads, and a writer comes between. Nothing says so, until the door opens.
func TestDoorOpensForWhoCameMeanwhile(t *testing.T) {
	p, h := handed(t, book, 0)
	reading := entered(t, p, "read")
	writer := stands(t, p, background, "write")
	h.goesOn(DefaultPatience)
	second := stands(t, p, background, "read")
	h.goesOn(most - 1)
	waiting(t, p, "write", "read")
	h.goesOn(1)
	leaves(t, comes(t, second))
	h.goesOn(1)
	shut(t, p, "read", "write") // the door is shut again
	third := stands(t, p, background, "read")
	h.goesOn(most)
	leaves(t, comes(t, third))
	leaves(t, reading)
	leaves(t, comes(t, writer))
	if h.set() != 0 {
		t.Error("an alarm is set, and nobody waits")
	}
}

// One who was blocked, and then is withheld, comes in when the door opens, though it has asked nothing since.
func TestDoorOpensForWhoWasBlockedBefore(t *testing.T) {
	p, h := handed(t, "resource b cell operation read, write, list path { read , list } , write end path list end end", 0)
	reading, listing := entered(t, p, "read"), entered(t, p, "list")
	writer := stands(t, p, background, "write")
	h.goesOn(DefaultPatience)
	lister := stands(t, p, background, "list")
	leaves(t, listing)
	waiting(t, p, "write", "list")
	h.goesOn(most)
	leaves(t, comes(t, lister))
	leaves(t, reading)
	leaves(t, comes(t, writer))
}

func TestDeadlineOfAStartThatIsWithheld(t *testing.T) {
	p, h := handed(t, book, NoPatience)
	reading := entered(t, p, "read")
	writer := stands(t, p, WithName(background, "backup"), "write")
	ctx, cancel := context.WithCancel(background)
	reader := stands(t, p, ctx, "read")
	h.goesOn(142 * time.Millisecond)
	cancel()
	err := (<-reader).err
	wants(t, err, context.Canceled)
	wants(t, err, ErrBlocked)
	var blocked *Blocked
	if !errors.As(err, &blocked) || blocked.Behind == nil || blocked.Behind.Waited != 142*time.Millisecond {
		t.Fatal(err)
	}
	if err.Error() != "context canceled: read is withheld: behind write by backup, which has waited 142ms" {
		t.Error(err)
	}
	leaves(t, reading)
	leaves(t, comes(t, writer))
}

func TestCloseReleasesWhoIsShutOut(t *testing.T) {
	p, h := handed(t, book, NoPatience)
	entered(t, p, "read")
	writer, reader := stands(t, p, background, "write"), stands(t, p, background, "read")
	if h.set() != 1 {
		t.Error("no alarm is set")
	}
	p.Close()
	wants(t, (<-writer).err, ErrClosed)
	wants(t, (<-reader).err, ErrClosed)
	if h.set() != 0 || p.Waiters() != nil {
		t.Error("somebody waits yet")
	}
}

// A log that panics where a start lets another one in ends what its caller won't come to know.
func TestPanicOfTheLogLosesNoEntry(t *testing.T) {
	panics := false
	p := opened(t, "resource r cell operation x, y, z, q path (x ; z) , y end path { q } , y end end",
		Options{Room: 8, Patience: NoPatience, Log: func(string) {
			if panics {
				panic("the log")
			}
		}})
	first := entered(t, p, "q")
	y := stands(t, p, background, "y")
	q := stands(t, p, background, "q")
	for n := 0; n < 2; n++ { // now there is room for a start, and not for one behind it
		if _, err := first.Use(Look, 0); err != nil {
			t.Fatal(err)
		}
	}
	panics = true
	func() {
		defer func() { recover() }()
		p.TryEnter(WithPriority(background, 1), op(t, p, "x"))
		t.Error("the panic is swallowed")
	}()
	panics = false
	wants(t, (<-q).err, ErrNoRoom)
	report, err := p.Report()
	if err != nil || strings.Contains(report, " x\n") {
		t.Error(report, err)
	}
	leaves(t, entered(t, p, "z"))
	leaves(t, first)
	leaves(t, comes(t, y))
}
