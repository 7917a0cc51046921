// The lines of paths: what of them the log has, and how there is room for more.

import * as codes from "./codes.js";
import { closed } from "./system.js";
import { WanzocheError } from "./errors.js";

/** What a log is called by. Throws TypeError for what is none. */
function callOf(log) {
  if (log === undefined || log === null || typeof log === "function") return log ?? null;
  if (Array.isArray(log)) return text => log.push(text);
  if (typeof log.write === "function") return text => log.write(text);
  throw new TypeError("a log is a function, an array, or has a method write");
}

/** The journal of a system. */
export class Journal {
  #system;
  #log;
  /** How many characters of the lines since the last rotation the log has. */
  #logged = 0;
  /** Whether lines were given up, or to the log. */
  isCut = false;
  /** Whether a rotation is under way, so that nothing that needs room can be done. */
  rotates = false;

  constructor(system, log) {
    this.#system = system;
    this.#log = callOf(log);
  }

  /** The lines that the log hasn't got, since the last rotation. Throws NoJournal, Closed and OutOfMemory. */
  get text() {
    return this.#system.text("journal").slice(this.#logged);
  }

  /** The code of an attempt, for which there is room if any can be made. Throws what the log throws. */
  attempt(call) {
    const code = call();
    if (code !== codes.NO_ROOM || this.#system.lines === 0) return code;
    this.rotate();
    return call();
  }

  /** Gives the lines so far to the log, and counts the room anew. Throws what the log throws, and then nothing is rotated. */
  rotate() {
    if (this.rotates) throw new WanzocheError("these paths are rotating: their log has to do without what needs room");
    this.rotates = true;
    try {
      this.#handOver();
    } finally {
      this.rotates = false;
    }
  }

  /** The log may leave what is in progress, which writes a line: so it is asked again until it has all. */
  #handOver() {
    let lines;
    do {
      lines = this.#system.lines;
      if (this.#log !== null) this.#give();
    } while (this.#system.lines > lines);
    if (this.#system.rotate() === codes.CLOSED) throw closed();
    this.isCut ||= lines > 0;
    this.#logged = 0;
  }

  #give() {
    const text = this.#system.text("journal");
    if (text.length === this.#logged) return;
    this.#log(text.slice(this.#logged));
    this.#logged = text.length;
    this.isCut = true;
  }
}
