// Who waits, in which order, and for how long others are kept back for them. Nothing here knows of paths, promises or timers. Times are in
// whole microseconds, of one clock.
//
// Waiters stand in queues, one for each operation and priority, in the order in which they came. The library is told of those alone who are
// first of their queue: behind the first one others wait for the same, so they can't begin before it, and whoever doesn't stand in its way
// doesn't stand in theirs.

/** For so long a start is withheld for one who waits: so often its door opens for those who came meanwhile. */
const MOST = 200_000;

/** One who waits for an operation. */
export class Waiter {
  /** In which queue it stands; null before it joins and after it quits. */
  queue = null;
  arrived = 0;
  turn = 0;
  ahead = null;
  behind = null;

  constructor(operation, priority) {
    this.operation = operation;
    this.priority = priority;
  }

  /** Whether it stands in a queue. */
  get waits() {
    return this.queue !== null;
  }
}

/** Those who wait for one operation with one priority. */
class Queue {
  first = null;
  last = null;
  length = 0;

  constructor(operation, priority) {
    this.operation = operation;
    this.priority = priority;
  }

  join(waiter) {
    waiter.queue = this;
    waiter.ahead = this.last;
    if (this.last === null) this.first = waiter;
    else this.last.behind = waiter;
    this.last = waiter;
    this.length++;
  }

  quit(waiter) {
    if (waiter.ahead === null) this.first = waiter.behind;
    else waiter.ahead.behind = waiter.behind;
    if (waiter.behind === null) this.last = waiter.ahead;
    else waiter.behind.ahead = waiter.ahead;
    waiter.queue = waiter.ahead = waiter.behind = null;
    this.length--;
  }

  *[Symbol.iterator]() {
    for (let waiter = this.first; waiter !== null; waiter = waiter.behind) yield waiter;
  }
}

/** The order: higher priorities first, and then the order of coming. */
function compare(one, other) {
  return other.priority - one.priority || one.turn - other.turn;
}

/** All who wait for operations of the same paths. */
export class Waiting {
  #patience;
  #queues = [];
  #turns = 0;
  /** How many wait. */
  size = 0;

  /** Starts are withheld for one who has waited for so long: 0, or more, or Infinity for never. */
  constructor(patience) {
    this.#patience = patience;
  }

  /** The waiter joins, behind all of its priority or a higher one. */
  join(waiter, now) {
    waiter.turn = ++this.#turns;
    waiter.arrived = now;
    let queue = this.#queues.find(it => it.operation === waiter.operation && it.priority === waiter.priority);
    if (queue === undefined) this.#queues.push((queue = new Queue(waiter.operation, waiter.priority)));
    queue.join(waiter);
    this.size++;
  }

  /** The waiter waits no more. Does nothing if it doesn't wait. */
  quit(waiter) {
    if (!waiter.waits) return;
    const { queue } = waiter;
    queue.quit(waiter);
    this.size--;
    if (queue.length === 0) this.#queues.splice(this.#queues.indexOf(queue), 1);
  }

  /** Those who are first of their queues, in order. */
  get heads() {
    return this.#queues.map(it => it.first).sort(compare);
  }

  /** Those of them who come before one who waits, or before one who comes now with this priority. */
  before({ priority, turn }) {
    return this.heads.filter(it => compare(it, { priority, turn: turn || Infinity }) < 0);
  }

  /** All who wait, in order. */
  get all() {
    return this.#queues.flatMap(it => [...it]).sort(compare);
  }

  /** How many different starts are waited for. */
  get kinds() {
    return this.#queues.length;
  }

  /** How many wait for the operation. */
  count(operation) {
    return this.#queues.reduce((sum, it) => sum + (it.operation === operation ? it.length : 0), 0);
  }

  /** Any one who waits; null if nobody does. */
  any() {
    return this.#queues[0]?.first ?? null;
  }

  /** How often the door of a waiter has opened by now; -1 before it shuts. */
  #doors(waiter, now) {
    const age = now - waiter.arrived - this.#patience;
    return age < 0 ? -1 : Math.floor(age / MOST);
  }

  /** The starts of those who came later than that are withheld for this waiter; Infinity: of nobody. */
  shutAt(waiter, now) {
    const doors = this.#doors(waiter, now);
    if (doors < 0) return Infinity;
    return doors === 0 ? 0 : waiter.arrived + this.#patience + doors * MOST;
  }

  /** When the door of a waiter opens next, which has been shut. */
  opensAt(waiter, now) {
    return waiter.arrived + this.#patience + (this.#doors(waiter, now) + 1) * MOST;
  }

  /** Whether there is anybody for whom starts are withheld now. */
  withholds(now) {
    return this.#queues.some(it => this.#doors(it.first, now) >= 0);
  }
}
