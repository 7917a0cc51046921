// A system of paths behind a handle of the library: its calls, and what their codes mean that every caller meets.

import * as codes from "./codes.js";
import { Closed, DeclarationError, NoJournal, OutOfMemory } from "./errors.js";
import { Library } from "./library.js";
import { Lists } from "./lists.js";
import { textOf } from "./texts.js";

// So many kilobytes of the engine's stack are more than a call takes with all that is called around it: an attempt, one beside those who
// wait, a text that is written, and a text that is read.
const TO_ATTEMPT = 12;
const TO_ATTEMPT_BESIDE = 24;
const TO_WRITE = 24;
const TO_READ = 64;
const TWO_TO_32 = 2 ** 32;

/** Why a text isn't a declaration, as an answer of the library says. */
export function declarationError(library, code, source) {
  let why = library.words(code);
  if (/^\s*[^\s]*[./][^\s]*\s*$/.test(textOf(source))) why += " (is this the name of a file? It takes the file's text)";
  const offset = code === codes.TOO_LONG ? null : library.number;
  if (offset === null) return new DeclarationError({ why, offset, words: "" }, source);
  const { text } = library.with(source, (at, length) => library.written((to, size) => library.calls.explain(at, length, to, size)));
  return new DeclarationError({ why, offset, words: text.split(":").slice(3).join(":") }, source);
}

/** Whether a code says that a text isn't a declaration. */
export function refusesDeclaration(code) {
  return code >= codes.TOO_LONG && code <= codes.TOO_MANY;
}

/** An open system, or a closed one. Its memory is the library's until it is closed. */
export class System {
  #library;
  #handle;
  #lists = null;

  /** Opens a system of the declaration in `source`. Throws DeclarationError and OutOfMemory. */
  constructor(source, room, keeps) {
    const library = Library.shared();
    library.calls.has_stack(TO_READ);
    this.#library = library;
    this.#handle = library.calls.new_handle() >>> 0;
    if (this.#handle === 0) throw new OutOfMemory("no memory for a handle");
    const code = library.with(source, (at, length) => library.calls.open(this.#handle, at, length, room, Number(keeps)));
    if (code === codes.OPENED) return;
    const error =
      code === codes.OUT_OF_MEMORY
        ? new OutOfMemory(`no memory for paths with room for ${room} lines beside the ${library.size} bytes that there are`)
        : declarationError(library, code, source);
    library.calls.release(this.#handle);
    this.#handle = 0;
    throw error;
  }

  /** Whether it wasn't closed. */
  get isOpen() {
    return this.#handle !== 0;
  }

  /** Gives all memory back. A second time it does nothing. */
  close() {
    if (this.#handle === 0) return;
    this.needsStack();
    this.#lists?.release();
    this.#lists = null;
    this.#library.calls.close(this.#handle);
    this.#library.calls.release(this.#handle);
    this.#handle = 0;
  }

  /** The number of the last answer of these calls: of an activation, of a path or of a line. */
  get number() {
    return this.#library.number;
  }

  /** The same where it may be 2^32 or more, as that of a use. */
  get bigNumber() {
    return this.#library.bigNumber;
  }

  /** Throws what the engine throws where its stack has no room for a call of these paths, which could stay half done then. */
  needsStack(waiters = 0) {
    this.#library.calls.has_stack(waiters === 0 ? TO_ATTEMPT : TO_ATTEMPT_BESIDE);
  }

  // A handle at the null address is a closed one, and is answered so.

  start(worker, operation) {
    return this.#library.calls.start(this.#handle, worker, operation);
  }

  use(worker, activation, verb, number) {
    return this.#library.calls.use(this.#handle, worker, activation, verb, Number(number & 0xffffffffn), Number(number >> 32n));
  }

  finish(worker, activation) {
    return this.#library.calls.finish(this.#handle, worker, activation);
  }

  rotate() {
    return this.#library.calls.rotate(this.#handle);
  }

  /** Whether no path forbids the operation. Throws Closed. */
  canStart(operation) {
    const code = this.#library.calls.can_start(this.#handle, operation);
    if (code === codes.CLOSED) throw closed();
    return code === codes.CAN_START;
  }

  /** Has memory to ask by for those who wait for so many different starts. Throws OutOfMemory. */
  needsLists(kinds) {
    if (this.#lists === null) {
      this.#lists = new Lists(this.#library);
      if (this.mayStart({ operation: 0, priority: 0, arrived: 0 }, [], null, []) === codes.OUT_OF_MEMORY) this.#hasNoLists();
    }
    this.#lists.needs(kinds);
  }

  #hasNoLists() {
    this.#lists.release();
    this.#lists = null;
    throw new OutOfMemory("no memory to say who comes next");
  }

  /**
   * Whether the start of one who asks may go now, by those who wait and stand before it, of whom `shutAt` says whose starts are withheld
   * for them, and by how often each operation runs: CAN_START, BLOCKED with the number of a path, WITHHELD with the place of one who
   * waits, or NO_ROOM.
   */
  mayStart({ operation, priority, arrived }, waiting, shutAt, counts) {
    const { calls } = this.#library;
    const lists = this.#lists;
    lists.write(waiting, shutAt, counts);
    const [low, high] = [arrived % TWO_TO_32, Math.floor(arrived / TWO_TO_32)];
    return calls.may_start(this.#handle, operation, priority, low, high, lists.waitersAt, lists.waiters, lists.runningAt, lists.running);
  }

  /** Who comes next of those who wait: NEXT with a place, NOBODY, or NO_ROOM. */
  next(waiting, shutAt, counts) {
    const { calls } = this.#library;
    const lists = this.#lists;
    lists.write(waiting, shutAt, counts);
    return calls.next(this.#handle, lists.waitersAt, lists.waiters, lists.runningAt, lists.running);
  }

  /** How many lines the journal has. */
  get lines() {
    return this.#library.calls.lines(this.#handle) >>> 0;
  }

  /** How many operations are in progress. */
  get live() {
    return this.#library.calls.live(this.#handle) >>> 0;
  }

  /** A text of the system: its `journal`, its `report` or its `declaration`. Throws Closed, NoJournal and OutOfMemory. */
  text(name) {
    this.#library.calls.has_stack(TO_WRITE);
    const call = this.#library.calls[name];
    const { code, text } = this.#library.written((at, size) => call(this.#handle, at, size));
    if (code === codes.CLOSED) throw closed();
    if (code === codes.NO_JOURNAL) throw new NoJournal("these paths were opened without a journal");
    return text;
  }

  /** Takes lines over that were answered elsewhere: the code, its number, how much was taken, and what was owed behind it. */
  takeOver(bytes) {
    const { calls } = this.#library;
    calls.has_stack(TO_READ);
    const code = this.#library.with(bytes, (at, length) => calls.take_over(this.#handle, at, length));
    const { number } = this;
    const lines = calls.taken_lines() >>> 0;
    const taken = calls.taken_bytes() >>> 0;
    const owed = calls.owed_code() >>> 0;
    calls.owed_number();
    return { code, number, lines, bytes: taken, owed, owedNumber: this.bigNumber };
  }

  /** A code in words. */
  words(code) {
    return this.#library.words(code);
  }
}

/** What all calls say of closed paths. */
export function closed() {
  return new Closed("these paths were closed");
}
