package wanzoche

import "time"

// clock tells the time since some moment, and calls when some time is over, unless it is stopped before.
type clock struct {
	now  func() time.Duration
	call func(after time.Duration, what func()) (stop func())
}

var origin = time.Now()

var wallClock = clock{
	now: func() time.Duration { return time.Since(origin) },
	call: func(after time.Duration, what func()) func() {
		timer := time.AfterFunc(after, what)
		return func() { timer.Stop() }
	},
}

// alarm has a waiter from whom a start is withheld ask again when the door opens that shuts it out.
type alarm struct {
	at     time.Duration
	waiter *waiter // nil if none is set
	stop   func()
}

// set sets the alarm to that time, or to none if there is no waiter.
func (a *alarm) set(c clock, now, at time.Duration, w *waiter) {
	if a.waiter == w && (w == nil || a.at == at) {
		return
	}
	if a.waiter != nil {
		a.stop()
	}
	*a = alarm{at: at, waiter: w}
	if w != nil {
		a.stop = c.call(at-now, w.asksAgain)
	}
}

// withholds says whether anybody waits for whom starts are withheld now. Under the lock.
func (p *Paths) withholds() bool { return p.line.withholds(p.clock.now()) }

// ask makes a start, unless it is withheld for one of those beside whom it is made. Under the lock.
func (p *Paths) ask(worker, operation uint32, c caller, beside bool) answer {
	if beside {
		if given := p.mayStart(operation, c, p.clock.now()); given.code != codeCanStart {
			return given
		}
	}
	return p.start(worker, operation)
}

// mayStart says what a start would come to now of one who doesn't wait. Under the lock.
func (p *Paths) mayStart(operation uint32, c caller, now time.Duration) answer {
	places := p.line.lineUp(now)
	ahead := places[:p.line.ahead(c.priority, p.line.tickets+1)]
	p.running.rest(p, c.holds)
	defer p.running.resume(p, c.holds)
	return p.handle.mayStart(standing{operation: operation, priority: c.priority, arrived: uint64(now)}, ahead, p.running.all())
}

// mayGoOn says what the start of one who waits would come to now. The line is lined up. Under the lock.
func (p *Paths) mayGoOn(w *waiter) answer {
	ahead := p.line.places[:p.line.ahead(w.caller.priority, w.ticket)]
	return p.handle.mayStart(standing{operation: w.operation, priority: w.caller.priority, arrived: uint64(w.arrived)}, ahead, p.running.all())
}

// admit begins what those wait for who come next, as long as there is one. Under the lock.
func (p *Paths) admit() {
	for p.line.length > 0 {
		now := p.clock.now()
		given := p.next(now)
		if given.code == codeNobody {
			p.watch(now)
			return
		}
		if given.code != codeNext {
			p.refuseAll(errorOf(given.code))
			return
		}
		p.admitOne(p.line.queues[given.number].first)
	}
	p.alarm.set(p.clock, 0, 0, nil)
}

// next is who comes next. Where nothing is withheld, that is the first one whose start no path forbids. Under the lock.
func (p *Paths) next(now time.Duration) answer {
	places := p.line.lineUp(now)
	if p.line.withholds(now) {
		return p.handle.next(places, p.running.all())
	}
	for place, w := range places {
		if p.handle.canStart(w.operation).code == codeCanStart {
			return answer{code: codeNext, number: uint64(place)}
		}
	}
	return answer{code: codeNobody}
}

// admitOr does the same as admit. If the log panics meanwhile, it undoes what the caller won't come to know.
func (p *Paths) admitOr(undo func()) {
	done := false
	defer func() {
		if !done {
			undo()
		}
	}()
	p.admit()
	done = true
}

// watch sets the alarm for the first of those from whom a start is withheld. The line is lined up. Under the lock.
func (p *Paths) watch(now time.Duration) {
	var first *waiter
	at := EndlessPatience
	for place, q := range p.line.queues {
		if place == 0 || !p.line.isShutOut(place) {
			continue
		}
		if given := p.mayGoOn(q.first); given.code == codeWithheld {
			if opens := p.line.opensAt(p.line.queues[given.number].first, now); opens < at {
				first, at = q.first, opens
			}
		}
	}
	p.alarm.set(p.clock, now, at, first)
}
