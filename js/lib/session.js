// What stands behind paths and their entries: attempts at the system, and who waits.

import * as codes from "./codes.js";
import { Blocked, NotInProgress, OutOfRoom, Timeout, UnknownOperation, UseRefused } from "./errors.js";
import { Journal } from "./journal.js";
import { Resumed } from "./resumed.js";
import { Order } from "./order.js";
import { closed, System } from "./system.js";
import { startTimer, stopTimer } from "./timer.js";
import { readDeclaration, Report } from "./texts.js";
import { Waiter } from "./waiting.js";
import { Workers } from "./workers.js";

/** An operation in progress, or one that is over. It isn't the entry, which may be dropped while the operation is in progress. */
class Record {
  live = true;
  /** How many wait, or ask, who hold it. */
  waits = 0;

  constructor(session, operation, worker, token) {
    this.session = session;
    this.operation = operation;
    this.worker = worker;
    this.token = token;
  }

  get name() {
    return this.session.operations[this.operation];
  }
}

/** One who waits, with what its promise is settled by, and what ends the wait. */
class Caller extends Waiter {
  timer = undefined;
  stop = undefined;

  constructor(operation, worker, { asker, timeout, signal }, { made, resolve, reject }) {
    super(operation, asker.priority);
    this.worker = worker;
    this.holding = asker.holding;
    this.timeout = timeout;
    this.signal = signal;
    this.made = made;
    this.resolve = resolve;
    this.reject = reject;
  }
}

/** What is told of a path where none forbids what is withheld. */
const NO_PATH = { path: null, resource: null, text: null, inProgress: [], mayBegin: [] };

/** Sessions that nobody has any more are closed. */
const dropped = new FinalizationRegistry(system => system.close());

export class Session {
  #system;
  #journal;
  #order;
  #workers;
  #numbers;
  /** Whose operations were in progress at the end of the journal that it goes on behind. */
  #gone = new Set();
  #serves = false;
  /** The names of the operations, in the order of their numbers. */
  operations;
  /** The paths, in the order of their numbers. */
  paths;
  /** How many bytes of the journal that it goes on behind are whole lines; null if it goes on behind none. */
  resumed = null;

  /** Throws DeclarationError, JournalError, OutOfRoom, OutOfMemory, and TypeError for what is no log. */
  constructor(source, { room, log, keeps, resume, patience }) {
    this.#system = new System(source, room, keeps);
    try {
      this.#journal = new Journal(this.#system, log);
      if (resume !== null) this.#goOn(resume, room);
      const { operations, paths } = readDeclaration(this.#system.text("declaration"));
      this.operations = operations;
      this.paths = paths;
    } catch (error) {
      this.#system.close();
      throw error;
    }
    this.#numbers = new Map(this.operations.map((name, number) => [name, number]));
    this.#workers = new Workers(this.#gone);
    this.#order = new Order(this.#system, this.operations.length, patience, () => this.#serve());
    dropped.register(this, this.#system, this);
  }

  #goOn(text, room) {
    const resumed = new Resumed(this.#system, text, room);
    resumed.takeOver();
    this.#system.rotate();
    this.resumed = resumed.whole;
    this.#gone = new Set(this.report().live.map(it => it.worker));
  }

  /** Whether it wasn't closed. */
  get isOpen() {
    return this.#system.isOpen;
  }

  /** Gives all memory back. Whoever waits is refused, and what is in progress is over. */
  close() {
    this.#system.close();
    dropped.unregister(this);
    this.#refuseAll(closed);
  }

  // Operations

  /** The number of an operation. Throws UnknownOperation. */
  numberOf(operation) {
    const number = this.#numbers.get(operation);
    if (number !== undefined) return number;
    throw new UnknownOperation(`no operation '${String(operation)}' is declared; there are ${this.operations.join(", ")}`);
  }

  /** Starts an operation, if it is admitted now: its record, or null. Throws Closed, OutOfRoom, and what the log throws. */
  begin(operation, asker) {
    this.#system.needsStack(this.#order.size);
    const worker = this.#workers.take();
    let record = null;
    try {
      record = this.#order.size === 0 ? this.#start(operation, worker) : this.#ask(operation, worker, asker);
    } finally {
      if (record === null) this.#workers.give(worker);
    }
    return record;
  }

  /** Starts an operation: a promise of what `made` makes of its record, once it is admitted. */
  enter(operation, { asker, timeout, signal }, made) {
    if (signal?.aborted) throw signal.reason;
    this.#system.needsStack(this.#order.size);
    const worker = this.#workers.take();
    let record = null;
    let waits = false;
    try {
      record = this.#order.size === 0 ? this.#start(operation, worker) : this.#ask(operation, worker, asker);
      waits = record === null && timeout > 0 && this.#order.hasRoom();
    } finally {
      if (record === null && !waits) this.#workers.give(worker);
    }
    if (record !== null) return Promise.resolve(made(record));
    if (!waits) return this.#isLate(operation, { asker, timeout, signal }, made);
    return new Promise((resolve, reject) => {
      this.#wait(new Caller(operation, worker, { asker, timeout, signal }, { made, resolve, reject }));
    });
  }

  /** Throws Timeout, unless a door has opened just now. */
  #isLate(operation, limits, made) {
    const found = this.#hindrance(operation, limits.asker);
    if (found === null) return this.enter(operation, limits, made);
    throw new Timeout(found);
  }

  /** Ends an operation, and lets others begin. Throws NotInProgress and Closed. */
  end(record) {
    if (!record.live) throw this.#over(record);
    this.#system.needsStack(this.#order.size);
    const code = this.#system.finish(record.worker, record.token);
    this.#order.ends(record);
    if (code === codes.CLOSED) throw closed();
    this.#workers.give(record.worker);
    this.#serve();
  }

  /** Uses the device of an operation's resource: its answer. Throws UseRefused, NotInProgress, Closed, and what the log throws. */
  use(record, verb, number) {
    if (!record.live) throw this.#over(record);
    this.#system.needsStack();
    const code = this.#journal.attempt(() => this.#system.use(record.worker, record.token, verb, number));
    if (code === codes.USED) return this.#system.bigNumber;
    if (code === codes.CLOSED) throw closed();
    if (code === codes.NO_ROOM) throw this.#noRoom();
    throw new UseRefused(`${codes.VERBS[verb]} is refused: ${this.#system.words(code)}`);
  }

  /** Starts an operation beside those who wait, unless that is withheld. */
  #ask(operation, worker, asker) {
    if (!this.#order.withholds) return this.#start(operation, worker);
    const { code } = this.#order.mayStart(operation, asker);
    if (code === codes.BLOCKED || code === codes.WITHHELD) return null;
    if (code !== codes.CAN_START) throw this.#noRoom();
    const record = this.#start(operation, worker);
    if (record !== null) this.#serveBehind(record);
    return record;
  }

  /** Lets begin whom a start has let in. If that goes wrong, the operation is ended, since its caller gets no entry of it. */
  #serveBehind(record) {
    try {
      this.#serve();
    } catch (error) {
      this.#endAtOnce(record);
      throw error;
    }
  }

  #endAtOnce(record) {
    this.#system.finish(record.worker, record.token);
    this.#order.ends(record);
  }

  #start(operation, worker) {
    const code = this.#journal.attempt(() => this.#system.start(worker, operation));
    if (code === codes.STARTED) {
      this.#order.begins(operation);
      return new Record(this, operation, worker, this.#system.number);
    }
    if (code === codes.BLOCKED) return null;
    throw code === codes.CLOSED ? closed() : this.#noRoom();
  }

  #over(record) {
    return new NotInProgress(`this entry of ${record.name} isn't in progress`);
  }

  #noRoom() {
    return new OutOfRoom(`no room for more: ${this.#system.live} in progress, or 4,294,967,295 were started`);
  }

  // Waiting

  #wait(waiter) {
    if (waiter.signal !== undefined) {
      waiter.stop = () => this.#giveUp(waiter, waiter.signal.reason);
      waiter.signal.addEventListener("abort", waiter.stop, { once: true });
    }
    this.#order.join(waiter);
    if (waiter.timeout !== Infinity) waiter.timer = startTimer(waiter.timeout, () => this.#isOver(waiter));
    for (const it of waiter.holding) it.session.rests(it);
    for (const session of new Set([this, ...waiter.holding.map(it => it.session)])) session.wakes();
  }

  /** One waits, or asks, who holds this entry. */
  rests(record) {
    this.#order.rests(record);
  }

  /** One waits no more who holds it. */
  resumes(record) {
    this.#order.resumes(record);
  }

  /** Lets begin from whom starts are withheld no more, since somebody waits. */
  wakes() {
    if (this.#order.withholds) this.#serve();
  }

  #isOver(waiter) {
    this.#serve();
    if (!waiter.waits) return;
    const found = this.#hindrance(waiter.operation, waiter);
    if (found === null) this.#isOver(waiter);
    else this.#giveUp(waiter, new Timeout(found, waiter.timeout));
  }

  /** The waiter is refused, and lets others begin. */
  #giveUp(waiter, error) {
    this.#refuse(waiter, error);
    this.#serve();
  }

  /** The waiter stands in no queue any more, and nothing wakes it. */
  #quit(waiter) {
    if (waiter.waits) for (const it of waiter.holding) it.session.resumes(it);
    this.#order.quit(waiter);
    if (waiter.timer !== undefined) stopTimer(waiter.timer);
    waiter.signal?.removeEventListener("abort", waiter.stop);
  }

  #refuse(waiter, error) {
    this.#quit(waiter);
    this.#workers.give(waiter.worker);
    waiter.reject(error);
  }

  #refuseAll(error) {
    let waiter;
    while ((waiter = this.#order.any()) !== null) this.#refuse(waiter, error());
  }

  /** Lets begin whoever may, in turn. The log may end operations meanwhile, which makes this due again. */
  #serve() {
    if (this.#serves || this.#order.size === 0) return;
    if (this.#journal.rotates) {
      queueMicrotask(() => this.#serve());
      return;
    }
    this.#serves = true;
    try {
      let next;
      while ((next = this.#order.next(() => this.#refuseAll(() => this.#noRoom()))) !== null) this.#admit(next);
      this.#order.watch();
    } finally {
      this.#serves = false;
    }
  }

  /** Starts the operation of one who waits. If the log has aborted it meanwhile, it is ended at once. */
  #admit(waiter) {
    let record;
    try {
      record = this.#start(waiter.operation, waiter.worker);
    } catch (error) {
      if (waiter.waits) this.#refuse(waiter, error);
      return;
    }
    if (record === null) return;
    if (waiter.waits) {
      this.#quit(waiter);
      waiter.resolve(waiter.made(record));
    } else {
      this.#endAtOnce(record);
    }
  }

  // Questions

  /** Whether no path forbids the operation now, and it isn't withheld for one who waits. Throws Closed. */
  canStart(operation, asker) {
    return this.#order.mayStart(operation, asker).code === codes.CAN_START;
  }

  /** What keeps the operation from beginning now, as an error; null if nothing does. Throws Closed. */
  why(operation, asker) {
    const found = this.#hindrance(operation, asker);
    return found === null ? null : new Blocked(found);
  }

  /** What keeps an operation from beginning: a path, or one who waits; null if nothing does. */
  #hindrance(operation, asker) {
    const { code, behind, waited } = this.#order.mayStart(operation, asker);
    if (code === codes.BLOCKED) return this.#found(operation);
    return code === codes.WITHHELD ? { ...NO_PATH, operation: this.operations[operation], behind: this.#seen(behind, waited) } : null;
  }

  /** What is told of one who waits. */
  #seen({ operation, worker, priority }, waited) {
    return { operation: this.operations[operation], worker, priority, waited };
  }

  /** What forbids an operation that is blocked. */
  #found(operation) {
    const name = this.operations[operation];
    const report = this.report();
    const number = report.blocked[name];
    const { resource, text, operations } = this.paths[number];
    const inProgress = report.live.filter(it => operations.includes(it.operation));
    const mayBegin = operations.filter(it => report.startable.includes(it));
    return { operation: name, path: number, resource, text, inProgress, mayBegin, behind: null };
  }

  /** What can begin, which path blocks what, and what is in progress. Throws Closed. */
  report() {
    return new Report(this.#system.text("report"), this.#gone);
  }

  /** How many wait for each operation, of those for which any does. Throws Closed. */
  waiting() {
    this.#system.canStart(0);
    const counts = this.operations.map((name, number) => [name, this.#order.count(number)]);
    return Object.fromEntries(counts.filter(([, count]) => count > 0));
  }

  /** Who waits, in order. Throws Closed. */
  waiters() {
    this.#system.canStart(0);
    return this.#order.all().map(({ waiter, waited }) => this.#seen(waiter, waited));
  }

  /** Ends what a worker had in progress at the end of the journal that this goes on behind: how many operations. Throws RangeError. */
  recover(worker) {
    if (!this.#gone.has(worker)) throw new RangeError(`worker ${worker} isn't of the journal that these paths go on behind`);
    const lost = this.report().lost.filter(it => it.worker === worker);
    for (const { token } of lost) this.#system.finish(worker, token);
    this.#serve();
    return lost.length;
  }

  // Lines

  /** The lines that the log hasn't got. Throws NoJournal and Closed. */
  get lines() {
    return this.#journal.text;
  }

  /** Whether what `lines` gives isn't all that was done. */
  get isCut() {
    return this.#journal.isCut;
  }

  /** Gives the lines to the log. Throws what the log throws. */
  rotate() {
    this.#system.needsStack();
    this.#journal.rotate();
  }
}
