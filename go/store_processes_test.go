package wanzoche

import (
	"encoding/binary"
	"io"
	"log"
	"os"
	"os/exec"
	"os/signal"
	"runtime"
	"strings"
	"syscall"
	"testing"
)

// page is the file beside a store's journal, with the numbers that processes share.
type page struct {
	t    testing.TB
	file *os.File
}

func pageOf(t testing.TB, file string) page {
	t.Helper()
	opened, err := os.OpenFile(file+".shared", os.O_RDWR, 0)
	if err != nil {
		t.Fatal(err)
	}
	t.Cleanup(func() { opened.Close() })
	return page{t, opened}
}

func (p page) set(at int64, word uint32) {
	if _, err := p.file.WriteAt(binary.LittleEndian.AppendUint32(nil, word), at); err != nil {
		p.t.Fatal(err)
	}
}

// stop has an opening have the turn and not give it, as if its process were stopped.
func (p page) stop(worker uint32) { p.set(64, worker) }

// priority is that of who waits at a place.
func (p page) priority(slot int64) uint32 { return p.get(4096 + 64*slot + 40) }

// goOn has it give the turn. What others have left to it stays.
func (p page) goOn() {
	p.set(64, p.get(64)>>30<<30)
}

func (p page) get(at int64) uint32 {
	word := make([]byte, 4)
	if _, err := p.file.ReadAt(word, at); err != nil {
		p.t.Fatal(err)
	}
	return binary.LittleEndian.Uint32(word)
}

// takeSlots writes this into all places of those who wait.
func (p page) takeSlots(word uint32) {
	for slot := int64(0); slot < 1024; slot++ {
		p.set(4096+64*slot, word)
	}
}

// TestMain runs the tests, or what one of them has begun this program for, as long as that one lives.
func TestMain(m *testing.M) {
	if os.Getenv("STORE_DOES") != "" {
		go func() {
			_, _ = io.Copy(io.Discard, os.Stdin)
			os.Exit(9)
		}()
	}
	switch os.Getenv("STORE_DOES") {
	case "writes":
		writesForLong(os.Getenv("STORE_FILE"))
	case "fills":
		os.Exit(fills(os.Getenv("STORE_FILE")))
	default:
		os.Exit(m.Run())
	}
}

// process is this program again, which does something with a file.
func process(t testing.TB, does, file string) *exec.Cmd {
	t.Helper()
	command := exec.Command(os.Args[0])
	command.Env = append(os.Environ(), "STORE_DOES="+does, "STORE_FILE="+file)
	command.Stderr = os.Stderr
	lives, err := command.StdinPipe()
	if err == nil {
		err = command.Start()
	}
	if err != nil {
		t.Fatal(err)
	}
	t.Cleanup(func() { lives.Close() })
	return command
}

// writesForLong writes until it is killed.
func writesForLong(file string) {
	s, err := OpenStore(background, book, file, StoreOptions{NoSync: true, KeepLost: true})
	if err != nil {
		panic(err)
	}
	write, _ := s.Op("write")
	if _, err = s.Enter(background, write); err != nil {
		panic(err)
	}
	select {}
}

func TestWhatADeadProcessHad(t *testing.T) {
	for _, keeps := range []bool{false, true} {
		file := storeFile(t)
		s := openedStore(t, file, StoreOptions{NoSync: true, KeepLost: keeps})
		read := storeOp(t, s, "read")
		dies := process(t, "writes", file)
		until(t, "it writes", func() bool { return strings.Contains(reportOf(t, s), " write\n") && !isIdle(t, s) })
		if _, err := s.Recover(background, 2); err != ErrAlive {
			t.Error(err)
		}
		_ = dies.Process.Kill()
		_ = dies.Wait()
		if keeps {
			until(t, "it is lost", func() bool { return strings.Contains(reportOf(t, s), "lost 0 2 write\n") })
			_, err := s.TryEnter(background, read)
			wants(t, err, ErrBlocked)
			if finished, err := s.Recover(background, 2); finished != 1 || err != nil {
				t.Error(finished, err)
			}
		}
		e, err := s.Enter(background, read)
		if err != nil {
			t.Fatal(err)
		}
		leavesStore(t, e)
	}
}

func TestWhatOneThatLivesHadIsTakenFromIt(t *testing.T) {
	file := storeFile(t)
	s, other := openedStore(t, file, quick), openedStore(t, file, quick)
	writing := enteredStore(t, s, "write")
	if finished, err := other.RecoverEvenAlive(background, 1); finished != 1 || err != nil {
		t.Error(finished, err)
	}
	_, err := writing.Use(background, Look, 0)
	wants(t, err, ErrNotInProgress)
	wants(t, writing.Leave(), ErrNotInProgress)
	wants(t, writing.Leave(), ErrLeft)
}

func limitFiles(bytes uint64) error {
	return syscall.Setrlimit(syscall.RLIMIT_FSIZE, &syscall.Rlimit{Cur: bytes, Max: 1<<64 - 1})
}

// fills lets the journal reach the limit of files: what was begun stays in progress, until there is room again. It says at which step it
// is wrong.
func fills(file string) int {
	signal.Ignore(syscall.SIGXFSZ)
	s, err := OpenStore(background, book, file, quick)
	if err != nil {
		return 1
	}
	read, _ := s.Op("read")
	e, err := s.Enter(background, read)
	state, failed := os.Stat(file)
	if err != nil || failed != nil || limitFiles(uint64(state.Size())) != nil {
		return 2
	}
	if _, err = s.TryEnter(background, read); !isTooBig(err) {
		return 3
	}
	if !isTooBig(e.Leave()) || !isTooBig(e.Leave()) {
		return 4
	}
	if limitFiles(1<<64-1) != nil {
		return 5
	}
	for { // it is left by itself
		if report, err := s.Report(background); err != nil || !strings.Contains(report, "live") {
			break
		}
	}
	if s.Close() != nil {
		return 6
	}
	return 0
}

func isTooBig(err error) bool {
	said, ok := err.(*StoreError)
	return ok && said.Is(ErrSystem) && said.Unwrap() == syscall.EFBIG && strings.Contains(said.Error(), "book.log")
}

func TestBesideAFullDisk(t *testing.T) {
	file := storeFile(t)
	if err := process(t, "fills", file).Wait(); err != nil {
		t.Error(err)
	}
	s := openedStore(t, file, quick)
	leavesStore(t, enteredStore(t, s, "write"))
}

// An entry that nobody has any more is told of; a store that nobody has any more is closed, and ends it.
func TestDroppedStoreIsClosed(t *testing.T) {
	var said lockedBuffer
	defer log.SetOutput(log.Writer())
	log.SetOutput(&said)
	file := storeFile(t)
	other := openedStore(t, file, quick)
	func() {
		s, err := OpenStore(background, book, file, quick)
		if err != nil {
			t.Fatal(err)
		}
		enteredStore(t, s, "write")
	}()
	until(t, "it is closed", func() bool {
		runtime.GC()
		_, err := other.Recover(background, 2)
		return err == nil
	})
	if !strings.Contains(said.String(), "wanzoche: write was dropped without Leave, and stays in progress") || !isIdle(t, other) {
		t.Error(said.String())
	}
}
