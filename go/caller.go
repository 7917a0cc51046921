package wanzoche

import "context"

// caller is what a context says of who enters with it.
type caller struct {
	name     string
	priority uint32
	holds    *holding
}

// holding is an entry that a caller holds, and the others that it holds.
type holding struct {
	entry *Entry
	outer *holding
}

type callerKey struct{}

func callerOf(ctx context.Context) caller {
	c, _ := ctx.Value(callerKey{}).(caller)
	return c
}

// WithName names whoever enters with this context, for Why, Blocked, Waiters and what is told of dropped entries.
func WithName(ctx context.Context, name string) context.Context {
	c := callerOf(ctx)
	c.name = name
	return context.WithValue(ctx, callerKey{}, c)
}

// WithPriority has whoever enters with this context stand before those who wait with a lower priority. It is 0 where no context says one.
func WithPriority(ctx context.Context, priority uint32) context.Context {
	c := callerOf(ctx)
	c.priority = priority
	return context.WithValue(ctx, callerKey{}, c)
}

// WithEntry says that whoever enters with this context holds the entry, which goes on only when they have entered. So nothing is withheld
// from them for one who waits for that entry to end. Do gives its body such a context. An entry that was left counts no more.
func WithEntry(ctx context.Context, e *Entry) context.Context {
	c := callerOf(ctx)
	c.holds = &holding{e, c.holds}
	return context.WithValue(ctx, callerKey{}, c)
}

// running counts the entries in progress of those who don't wait, by their operations. Its calls need the lock of the paths.
type running struct {
	counts []int
	list   []uint32 // room for `all`
}

func (r *running) begins(e *Entry) { r.counts[e.operation]++ }

// ends says that an entry is in progress no more.
func (r *running) ends(e *Entry) {
	if e.waits == 0 {
		r.counts[e.operation]--
	}
	e.left = true
}

// rest says that one waits who holds these entries. What they have of other paths stays as it is.
func (r *running) rest(p *Paths, h *holding) {
	for ; h != nil; h = h.outer {
		if e := h.entry; e.paths == p {
			if e.waits == 0 && !e.left {
				r.counts[e.operation]--
			}
			e.waits++
		}
	}
}

// resume says that one who holds these entries waits no more.
func (r *running) resume(p *Paths, h *holding) {
	for ; h != nil; h = h.outer {
		if e := h.entry; e.paths == p {
			e.waits--
			if e.waits == 0 && !e.left {
				r.counts[e.operation]++
			}
		}
	}
}

// all lists the operations, each as often as it runs.
func (r *running) all() []uint32 {
	r.list = r.list[:0]
	for operation, count := range r.counts {
		for ; count > 0; count-- {
			r.list = append(r.list, uint32(operation))
		}
	}
	return r.list
}
