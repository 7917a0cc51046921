// Who comes next: what the library says of those who wait, and when it is asked again.

import * as codes from "./codes.js";
import { clock, startTimer, stopTimer } from "./timer.js";
import { Waiting } from "./waiting.js";

const MICROSECONDS = 1000;

/** The time in whole microseconds, which isn't 0. */
function now() {
  return Math.floor(clock.now() * MICROSECONDS) + 1;
}

/** The order of those who wait at one system, and what is in progress of those who don't. */
export class Order {
  #system;
  #waiting;
  /** How often each operation is in progress of those who don't wait. */
  #running;
  #opens = Infinity;
  #door;
  #doorOpened;
  /** How many wait. */
  size = 0;

  /** Starts are withheld for one who has waited for so many milliseconds. `doorOpened` is called when one of them may be due then. */
  constructor(system, operations, patience, doorOpened) {
    this.#system = system;
    this.#waiting = new Waiting(Math.round(patience * MICROSECONDS));
    this.#running = new Array(operations).fill(0);
    this.#doorOpened = doorOpened;
  }

  // What runs

  /** An entry of this operation began, which nobody holds who waits. */
  begins(operation) {
    this.#running[operation]++;
  }

  /** An entry is in progress no more. */
  ends(record) {
    if (record.waits === 0) this.#running[record.operation]--;
    record.live = false;
  }

  /** One waits, or asks, who holds this entry. */
  rests(record) {
    if (record.waits === 0 && record.live) this.#running[record.operation]--;
    record.waits++;
  }

  /** One waits no more who holds it. */
  resumes(record) {
    record.waits--;
    if (record.waits === 0 && record.live) this.#running[record.operation]++;
  }

  // Who waits

  /** Whether there is memory to ask by for one more who waits. Throws OutOfMemory if not. */
  hasRoom() {
    this.#system.needsLists(this.#waiting.kinds + 1);
    return true;
  }

  join(waiter) {
    this.#waiting.join(waiter, now());
    this.size = this.#waiting.size;
  }

  quit(waiter) {
    this.#waiting.quit(waiter);
    this.size = this.#waiting.size;
    if (this.size === 0) this.#watchFor(Infinity);
  }

  /** Any one who waits; null if nobody does. */
  any() {
    return this.#waiting.any();
  }

  /** How many wait for the operation. */
  count(operation) {
    return this.#waiting.count(operation);
  }

  /** All who wait, in order, each with how long it has waited, in milliseconds. */
  all() {
    const time = now();
    return this.#waiting.all.map(waiter => ({ waiter, waited: (time - waiter.arrived) / MICROSECONDS }));
  }

  // Who comes next

  /** Whether anybody waits for whom starts are withheld now. */
  get withholds() {
    return this.#waiting.withholds(now());
  }

  /**
   * What the start of one who asks would come to now, or of one who waits: a code, and of WITHHELD for whom, and how long that one has
   * waited, in milliseconds. What one holds who asks doesn't run.
   */
  mayStart(operation, asker) {
    if (!this.withholds) return { code: this.#system.canStart(operation) ? codes.CAN_START : codes.BLOCKED };
    const time = now();
    const ahead = this.#waiting.before(asker);
    asker.holding.forEach(it => it.session.rests(it));
    const code = this.#ask({ operation, priority: asker.priority, arrived: asker.arrived ?? time }, ahead, time);
    asker.holding.forEach(it => it.session.resumes(it));
    if (code !== codes.WITHHELD) return { code };
    const behind = ahead[this.#system.number];
    return { code, behind, waited: (time - behind.arrived) / MICROSECONDS };
  }

  /** Who comes next; null if nobody may go on. Where no start is admitted any more, `refuse` is called. */
  next(refuse) {
    if (this.size === 0) return null;
    const time = now();
    const { heads } = this.#waiting;
    if (!this.#waiting.withholds(time)) return heads.find(it => this.#system.canStart(it.operation)) ?? null;
    const code = this.#system.next(heads, it => this.#waiting.shutAt(it, time), this.#running);
    if (code === codes.NEXT) return heads[this.#system.number];
    if (code !== codes.NOBODY) refuse();
    return null;
  }

  /** Asks again when the first door opens for one from whom a start is withheld now. */
  watch() {
    const time = now();
    const { heads } = this.#waiting;
    this.#watchFor(Math.min(...heads.map((head, place) => this.#opensFor(head, heads.slice(0, place), time))));
  }

  /** When a door opens for the first of those who wait for the same; Infinity if its start isn't withheld. */
  #opensFor(head, ahead, time) {
    if (!ahead.some(it => this.#waiting.shutAt(it, time) < head.arrived)) return Infinity;
    if (this.#ask(head, ahead, time) !== codes.WITHHELD) return Infinity;
    return this.#waiting.opensAt(ahead[this.#system.number], time);
  }

  #ask(asks, ahead, time) {
    return this.#system.mayStart(asks, ahead, it => this.#waiting.shutAt(it, time), this.#running);
  }

  #watchFor(opens) {
    if (opens === this.#opens) return;
    if (this.#door !== undefined) stopTimer(this.#door);
    this.#opens = opens;
    this.#door = opens === Infinity ? undefined : startTimer((opens - now()) / MICROSECONDS, () => this.#isOpen());
  }

  #isOpen() {
    this.#opens = Infinity;
    this.#door = undefined;
    this.#doorOpened();
  }
}
