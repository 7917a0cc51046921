// The lists of those who wait and of what runs, as the library takes them: in the module's memory.

import { OutOfMemory } from "./errors.js";

/** A wanzoche_waiter has so many words of 32 bits, and a running operation has one. */
const WAITER = 6;
const WORD = 4;
const FIRST = 256;
const TWO_TO_32 = 2 ** 32;

/** Memory for both lists, of which that of what runs begins behind the other. */
export class Lists {
  #library;
  #words = FIRST;
  #at;
  /** How long both lists are. */
  waiters = 0;
  running = 0;

  /** Throws OutOfMemory. */
  constructor(library) {
    this.#library = library;
    this.#at = library.reserve(FIRST * WORD);
  }

  /** Gives the memory back. */
  release() {
    this.#library.calls.release(this.#at);
  }

  /** Where those who wait lie, and where the operations that run do. */
  get waitersAt() {
    return this.#at;
  }

  get runningAt() {
    return this.#at + this.waiters * WAITER * WORD;
  }

  /** Has room for so many who wait, and for some that run. Throws OutOfMemory. */
  needs(waiters) {
    if (!this.#grow(waiters * WAITER)) throw new OutOfMemory(`no memory for a list of ${waiters} who wait`);
  }

  #grow(words) {
    if (words <= this.#words) return true;
    const at = this.#library.calls.reserve(2 * words * WORD) >>> 0;
    if (at === 0) return false;
    this.release();
    this.#at = at;
    this.#words = 2 * words;
    return true;
  }

  /**
   * Writes those who wait, of whom `shutAt` says whose starts are withheld for them, and how often each operation runs. Of what runs it
   * leaves out what there is no memory for, which withholds less.
   */
  write(waiting, shutAt, counts) {
    this.waiters = waiting.length;
    this.#grow(waiting.length * WAITER + counts.reduce((sum, it) => sum + it, 0));
    const words = new Uint32Array(this.#library.calls.memory.buffer, this.#at, this.#words);
    let to = 0;
    for (const waiter of waiting) {
      words[to++] = waiter.operation;
      words[to++] = waiter.priority;
      to = put(words, to, waiter.arrived);
      to = put(words, to, shutAt(waiter));
    }
    this.running = fill(words, to, counts);
  }
}

/** Writes a number of 64 bits, the largest one for Infinity, and says where it ends. */
function put(words, at, number) {
  words[at] = number === Infinity ? 0xffffffff : number % TWO_TO_32;
  words[at + 1] = number === Infinity ? 0xffffffff : number / TWO_TO_32;
  return at + 2;
}

/** Writes each operation as often as it runs, up to the end of the words, and says how many were written. */
function fill(words, at, counts) {
  let to = at;
  for (const [operation, count] of counts.entries()) {
    words.fill(operation, to, to + count);
    to = Math.min(to + count, words.length);
  }
  return to - at;
}
