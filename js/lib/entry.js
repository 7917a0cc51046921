// An operation in progress, as its caller has it.

import { VERBS } from "./codes.js";
import * as symbols from "./symbols.js";

const MOST = 2n ** 64n - 1n;

/** Entries that nobody has any more are ended. What says so isn't held by the paths, nor are they by it. */
const dropped = new FinalizationRegistry(record => {
  if (!record.live || !record.session.isOpen) return;
  const told = `wanzoche: an entry of ${record.name} was dropped in progress, and is ended now: keep what enter gives, and leave it`;
  globalThis.console?.error(told);
  endQuietly(record);
});

/** Ends an operation if it is in progress, and its paths are open. */
function endQuietly(record) {
  if (record.live && record.session.isOpen) record.session.end(record);
}

/** A number for a device. Throws TypeError and RangeError. */
function numberOf(number) {
  const kind = typeof number;
  if (kind !== "bigint" && kind !== "number") throw new TypeError(`a device takes a number or a bigint, and not ${kind}`);
  if (kind === "number" && !Number.isSafeInteger(number)) throw new RangeError(`${number} is no exact integer: give a bigint`);
  const it = BigInt(number);
  if (it < 0n || it > MOST) throw new RangeError(`a device holds 0 to ${MOST}, and not ${number}`);
  return it;
}

/** An operation in progress: what `enter` promises, and `tryEnter` gives. */
export class Entry {
  #record;

  constructor(record) {
    this.#record = record;
    dropped.register(this, record, record);
  }

  get [symbols.record]() {
    return this.#record;
  }

  /** The name of the operation. */
  get operation() {
    return this.#record.name;
  }

  /** Its number in the journal. It rises with each start. */
  get token() {
    return this.#record.token;
  }

  /** The number by which the journal tells those apart who are at work at once. */
  get worker() {
    return this.#record.worker;
  }

  /** Whether it wasn't left yet. */
  get inProgress() {
    return this.#record.live;
  }

  /** Ends the operation. Throws NotInProgress if it is over, and Closed. */
  leave() {
    this.#record.session.end(this.#record);
    dropped.unregister(this.#record);
  }

  /** Ends the operation, if it isn't over. */
  [symbols.dispose]() {
    endQuietly(this.#record);
    dropped.unregister(this.#record);
  }

  /** The same, for `await using`. */
  async [symbols.asyncDispose]() {
    this[symbols.dispose]();
  }

  /** Uses the resource's device: what it answers, as a bigint. */
  use(verb, number = 0n) {
    const code = VERBS.indexOf(verb);
    if (code < 0) throw new TypeError(`a verb is one of ${VERBS.join(", ")}, and not ${String(verb)}`);
    return this.#record.session.use(this.#record, code, numberOf(number));
  }

  put(number) {
    return this.use("put", number);
  }

  take() {
    return this.use("take");
  }

  look() {
    return this.use("look");
  }

  add(number) {
    return this.use("add", number);
  }
}
