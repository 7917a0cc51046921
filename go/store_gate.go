package wanzoche

import "sync"

// gate is for the calls of a store's library: none comes when it is closed, and whoever closes it waits for those under way.
type gate struct {
	lock   sync.Mutex
	ended  *sync.Cond
	calls  int
	closed bool
}

func newGate() *gate {
	g := &gate{}
	g.ended = sync.NewCond(&g.lock)
	return g
}

// begin begins a call. False if it is closed.
func (g *gate) begin() bool {
	g.lock.Lock()
	defer g.lock.Unlock()
	if !g.closed {
		g.calls++
	}
	return !g.closed
}

func (g *gate) end() {
	g.lock.Lock()
	defer g.lock.Unlock()
	g.calls--
	if g.calls == 0 {
		g.ended.Broadcast()
	}
}

// beginAgain begins a call within another one.
func (g *gate) beginAgain() {
	g.lock.Lock()
	defer g.lock.Unlock()
	g.calls++
}

// close has no further call come, ends by `how` those that wait, and waits for all. False the second time.
func (g *gate) close(how func()) bool {
	g.lock.Lock()
	defer g.lock.Unlock()
	if g.closed {
		return false
	}
	g.closed = true
	how()
	for g.calls > 0 {
		g.ended.Wait()
	}
	return true
}

func (g *gate) isClosed() bool {
	g.lock.Lock()
	defer g.lock.Unlock()
	return g.closed
}
