// Paths that promises wait on.

import { Entry } from "./entry.js";
import { WanzocheError } from "./errors.js";
import { audit, roomOf } from "./judging.js";
import { Session } from "./session.js";
import { dispose, record as recordOf } from "./symbols.js";
import { bytesOf } from "./texts.js";

const USUAL_ROOM = 65536;
const USUAL_PATIENCE = 5;
const MOST_PRIORITY = 2 ** 32 - 1;
const USUAL = { priority: 0, holding: [] };

/** What stands behind an entry that a caller holds. Throws TypeError. */
function held(entry) {
  if (!(entry instanceof Entry)) throw new TypeError("holding is an entry, or an array of entries");
  return entry[recordOf];
}

/** Who asks: its priority, and what it holds. Throws RangeError and TypeError. */
function askerOf(options) {
  if (options === undefined) return USUAL;
  const priority = options.priority ?? 0;
  if (!Number.isInteger(priority) || priority < 0 || priority > MOST_PRIORITY) {
    throw new RangeError(`a priority is 0 to 4,294,967,295, and not ${String(priority)}`);
  }
  const holding = options.holding ?? USUAL.holding;
  return { priority, holding: (Array.isArray(holding) ? holding : [holding]).map(held) };
}

/** How long to wait, and what ends that. Throws TypeError. */
function limitsOf(options) {
  const { timeout, signal } = options ?? {};
  const limit = timeout ?? Infinity;
  if (typeof limit !== "number" || Number.isNaN(limit)) throw new TypeError(`a timeout is in milliseconds, and not ${String(timeout)}`);
  const stops = signal ?? undefined;
  if (stops !== undefined && typeof stops.addEventListener !== "function") throw new TypeError("a signal is an AbortSignal");
  return { asker: askerOf(options), timeout: limit, signal: stops };
}

/** How long one waits before starts are withheld for it. Throws TypeError and RangeError. */
function patienceOf(patience) {
  const isNumber = typeof patience === "number" && !Number.isNaN(patience);
  if (!isNumber) throw new TypeError(`a patience is in milliseconds, and not ${String(patience)}`);
  if (patience < 0) throw new RangeError(`a patience is 0 milliseconds or more, and not ${patience}`);
  return patience;
}

/** A system of path expressions that promises wait on. */
export class Paths {
  #source;
  #session;

  /** Throws DeclarationError, JournalError, OutOfRoom, OutOfMemory, TypeError, and RangeError for a bad room. */
  constructor(text, { room = USUAL_ROOM, log, journal = true, resume, patience = USUAL_PATIENCE } = {}) {
    if (log !== undefined && log !== null && !journal) throw new TypeError("without a journal there are no lines for a log");
    const behind = resume === undefined || resume === null ? null : bytesOf(resume, "a journal");
    this.#source = bytesOf(text, "a declaration");
    const options = { room: roomOf(room), log, keeps: Boolean(journal), resume: behind, patience: patienceOf(patience) };
    this.#session = new Session(this.#source, options);
  }

  /** The declared operations, in the order of the text. */
  get operations() {
    return [...this.#session.operations];
  }

  /** The declared paths, in the order of their numbers. */
  get paths() {
    return this.#session.paths.map(it => ({ ...it, operations: [...it.operations] }));
  }

  /** How many bytes of the journal that these paths go on behind are whole lines; null if they go on behind none. */
  get resumed() {
    return this.#session.resumed;
  }

  /** Starts an operation: a promise of its entry, once the paths admit it, and it isn't withheld for one who waits. */
  enter(operation, options) {
    try {
      return this.#session.enter(this.#session.numberOf(operation), limitsOf(options), record => new Entry(record));
    } catch (error) {
      return Promise.reject(error);
    }
  }

  /** Starts an operation, if it is admitted now: its entry, or null. */
  tryEnter(operation, options) {
    const record = this.#session.begin(this.#session.numberOf(operation), askerOf(options));
    return record === null ? null : new Entry(record);
  }

  /** Starts an operation, calls `body` with its entry once it is admitted, and ends it behind that: a promise of what `body` returns. */
  async run(operation, body, options) {
    const entry = await this.enter(operation, options);
    try {
      return await body(entry);
    } finally {
      entry[dispose]();
    }
  }

  /** Whether no path forbids the operation now, and it isn't withheld for one who waits. */
  canStart(operation, options) {
    return this.#session.canStart(this.#session.numberOf(operation), askerOf(options));
  }

  /** What keeps the operation from beginning now, as an error that isn't thrown; null if nothing does. */
  why(operation, options) {
    return this.#session.why(this.#session.numberOf(operation), askerOf(options));
  }

  /** What can begin, which path blocks what, and what is in progress. */
  report() {
    return this.#session.report();
  }

  /** How many wait for each operation, of those for which any does. */
  waiting() {
    return this.#session.waiting();
  }

  /** Who waits, in order. */
  waiters() {
    return this.#session.waiters();
  }

  /** Ends what a worker had in progress at the end of the journal that these paths go on behind: how many operations that was. */
  recover(worker) {
    return this.#session.recover(worker);
  }

  /** The lines that the log hasn't got, since the last rotation. */
  journal() {
    return this.#session.lines;
  }

  /** Gives the lines so far to the log, and counts the room anew. */
  rotate() {
    this.#session.rotate();
  }

  /** Replays a journal under this declaration; without a text that of these paths, if all of it is there. */
  audit(text, options) {
    if (text !== undefined) return audit(this.#source, text, options);
    const lines = this.journal();
    if (this.#session.isCut) throw new WanzocheError("the journal was rotated: audit what the log got, and then journal(), as one text");
    if (this.resumed !== null) throw new WanzocheError("these paths go on behind a journal: audit that, and then journal(), as one text");
    return audit(this.#source, lines, options);
  }

  /** Gives all memory back. Whoever waits gets Closed, and what is in progress is over. */
  close() {
    this.#session.close();
  }

  [dispose]() {
    this.close();
  }
}
