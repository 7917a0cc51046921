package wanzoche

import (
	"math"
	"sort"
	"time"
)

// DefaultPatience is the patience of paths that are opened without saying one.
const DefaultPatience = 5 * time.Millisecond

// NoPatience withholds starts at once for whoever waits: the order is strict.
const NoPatience time.Duration = -1

// EndlessPatience never withholds a start: whoever the paths admit goes on, so one who waits may wait for as long as others overlap.
const EndlessPatience time.Duration = math.MaxInt64

// most is for how long a start is withheld for one who waits: so often the door opens for those who came meanwhile.
const most = 200 * time.Millisecond

// waiter is a goroutine that waits until an operation is begun in its name.
type waiter struct {
	operation, worker uint32
	caller            caller
	told              chan told     // gets one word; it has room for that, so that nobody waits to tell
	again             chan struct{} // likewise: has it look by itself who comes next
	arrived           time.Duration // by the clock of the paths
	ticket            uint64        // rises with every arrival
	queue             *queue        // in which it stands; nil if it waits no more
	before, behind    *waiter
}

// told is what a waiter gets: an entry, or why there is none.
type told struct {
	entry *Entry
	err   error
}

// asksAgain has a waiter look by itself who comes next.
func (w *waiter) asksAgain() {
	select {
	case w.again <- struct{}{}:
	default:
	}
}

// queue is who waits for one operation with one priority, in the order of arrival.
type queue struct {
	operation, priority uint32
	first, last         *waiter
	length              int
}

func (q *queue) join(w *waiter) {
	w.queue, w.before = q, q.last
	if q.last == nil {
		q.first = w
	} else {
		q.last.behind = w
	}
	q.last = w
	q.length++
}

func (q *queue) leave(w *waiter) {
	if w.before == nil {
		q.first = w.behind
	} else {
		w.before.behind = w.behind
	}
	if w.behind == nil {
		q.last = w.before
	} else {
		w.behind.before = w.before
	}
	w.queue, w.before, w.behind = nil, nil, nil
	q.length--
}

// line is who waits, in order: by priority, and then by arrival. Its calls need the lock of the paths.
//
// The library is told of those alone who are first of their queue. Behind the first one others wait for the same: they can't begin before
// it, and whoever doesn't stand in its way doesn't stand in theirs.
type line struct {
	patience time.Duration
	queues   []*queue   // those in which somebody stands
	places   []standing // room for the heads, as the library takes them
	length   int
	tickets  uint64
}

// patienceOf is the patience that an option says.
func patienceOf(option time.Duration) time.Duration {
	if option == 0 {
		return DefaultPatience
	}
	if option < 0 {
		return 0
	}
	return option
}

// join puts a waiter behind all of its priority or a higher one.
func (l *line) join(w *waiter) {
	l.tickets++
	w.ticket = l.tickets
	l.queueOf(w.operation, w.caller.priority).join(w)
	l.length++
}

// queueOf is the queue of an operation and a priority, which is made if there is none.
func (l *line) queueOf(operation, priority uint32) *queue {
	for _, q := range l.queues {
		if q.operation == operation && q.priority == priority {
			return q
		}
	}
	q := &queue{operation: operation, priority: priority}
	l.queues = append(l.queues, q)
	return q
}

// leave takes a waiter out of the line. False if it isn't there any more, since it was told.
func (l *line) leave(w *waiter) bool {
	q := w.queue
	if q == nil {
		return false
	}
	q.leave(w)
	l.length--
	if q.length == 0 {
		l.remove(q)
	}
	return true
}

func (l *line) remove(gone *queue) {
	for at, q := range l.queues {
		if q == gone {
			l.queues = append(l.queues[:at], l.queues[at+1:]...)
			return
		}
	}
}

// isBefore says whether who came with this ticket and this priority stands before another.
func isBefore(priority uint32, ticket uint64, other *waiter) bool {
	if priority != other.caller.priority {
		return priority > other.caller.priority
	}
	return ticket < other.ticket
}

// lineUp brings the queues into the order of their heads, and gives these as the library takes them.
func (l *line) lineUp(now time.Duration) []standing {
	l.places = l.places[:0]
	for at, q := range l.queues {
		for ; at > 0 && isBefore(q.priority, q.first.ticket, l.queues[at-1].first); at-- {
			l.queues[at], l.queues[at-1] = l.queues[at-1], l.queues[at]
		}
	}
	for _, q := range l.queues {
		w := q.first
		l.places = append(l.places, standing{w.operation, q.priority, uint64(w.arrived), l.shutAt(w, now)})
	}
	return l.places
}

// isShutOut says whether there is a head before that of this place from whose door it is shut out.
func (l *line) isShutOut(place int) bool {
	for _, other := range l.places[:place] {
		if other.shutAt < l.places[place].arrived {
			return true
		}
	}
	return false
}

// ahead is how many of the queues that are lined up have a head that comes before this priority and ticket.
func (l *line) ahead(priority uint32, ticket uint64) int {
	for at, q := range l.queues {
		if isBefore(priority, ticket, q.first) {
			return at
		}
	}
	return len(l.queues)
}

// doors is how often the door of a waiter has opened by now; -1 before it shuts.
func (l *line) doors(w *waiter, now time.Duration) time.Duration {
	if age := now - w.arrived; age >= l.patience {
		return (age - l.patience) / most
	}
	return -1
}

// shutAt says whose starts are withheld for a waiter: those of all who came later than that.
func (l *line) shutAt(w *waiter, now time.Duration) uint64 {
	switch doors := l.doors(w, now); doors {
	case -1:
		return math.MaxUint64
	case 0:
		return 0
	default:
		return uint64(w.arrived + l.patience + doors*most)
	}
}

// opensAt is when the door of a waiter opens next, which has been shut.
func (l *line) opensAt(w *waiter, now time.Duration) time.Duration {
	return w.arrived + l.patience + (l.doors(w, now)+1)*most
}

// withholds says whether there is anybody for whom starts are withheld now.
func (l *line) withholds(now time.Duration) bool {
	for _, q := range l.queues {
		if l.doors(q.first, now) >= 0 {
			return true
		}
	}
	return false
}

// waiting is how many wait for an operation.
func (l *line) waiting(operation uint32) int {
	count := 0
	for _, q := range l.queues {
		if q.operation == operation {
			count += q.length
		}
	}
	return count
}

// all lists who waits, in order.
func (l *line) all() []*waiter {
	all := make([]*waiter, 0, l.length)
	for _, q := range l.queues {
		for w := q.first; w != nil; w = w.behind {
			all = append(all, w)
		}
	}
	sort.Slice(all, func(one, other int) bool { return isBefore(all[one].caller.priority, all[one].ticket, all[other]) })
	return all
}
