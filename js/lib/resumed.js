// How a system goes on behind the lines of a journal.

import * as codes from "./codes.js";
import { JournalError, OutOfRoom } from "./errors.js";

/** So many bytes of a journal are taken over at once; fewer if the room is small. */
const PIECE = 1 << 20;
/** No line has fewer bytes. */
const SHORTEST = 12;
const FEED = 10;
const WITH_NUMBER = [codes.STARTED, codes.BLOCKED, codes.USED];

/** A journal's text, and the system that takes it over. The system gives lines up as it goes: the caller has them. */
export class Resumed {
  #system;
  #text;
  #room;
  #head;
  #lines = 0;
  /** In how many bytes of the text whole lines stand that were taken over. */
  whole;

  constructor(system, text, room) {
    const names = "journal ";
    const hasHead = [...names].every((it, at) => text[at] === it.charCodeAt(0));
    this.#system = system;
    this.#text = text;
    this.#room = room;
    this.#head = text.subarray(0, hasHead ? text.indexOf(FEED) + 1 : 0);
    this.whole = this.#head.length;
  }

  /** Takes over all whole lines. Throws JournalError, which names the line, OutOfRoom and OutOfMemory. */
  takeOver() {
    const size = Math.min(PIECE, Math.max(this.#room * SHORTEST, 256));
    let goesOn = true;
    while (goesOn && this.whole < this.#text.length) {
      const end = this.#text.subarray(0, this.whole + size).lastIndexOf(FEED) + 1;
      // What isn't a whole line is damaged if a whole line stands anywhere behind it, and else the torn end.
      goesOn = (end > this.whole && this.#take(end)) || this.#take(this.#text.length);
    }
  }

  /** Takes over the lines up to there, or as many as there is room for, and makes room. False if not all of it are whole lines. */
  #take(end) {
    const part = new Uint8Array(this.#head.length + end - this.whole);
    part.set(this.#head);
    part.set(this.#text.subarray(this.whole, end), this.#head.length);
    const taken = this.#system.takeOver(part);
    if (taken.code !== codes.TAKEN && taken.code !== codes.WRONG_LINE) {
      throw new JournalError(this.#system.words(taken.code), this.#text, this.#lines + taken.number);
    }
    this.#lines += taken.lines;
    if (taken.code === codes.TAKEN) {
      this.whole += taken.bytes - this.#head.length;
      return taken.bytes === part.length;
    }
    this.whole = this.#behind(taken.lines);
    if (!this.#makesRoom(taken)) throw this.#refused(taken);
    return true;
  }

  /** Where the text is behind so many further lines. */
  #behind(lines) {
    let at = this.whole;
    for (let each = 0; each < lines; each++) at = this.#text.indexOf(FEED, at) + 1;
    return at;
  }

  /** Whether a line only had no room, and has it now, since the lines before it were given up. */
  #makesRoom(taken) {
    if (taken.owed !== codes.NO_ROOM || this.#system.lines === 0) return false;
    this.#system.rotate();
    return true;
  }

  #refused(taken) {
    const hasHead = this.#head.length > 0;
    if (taken.owed === codes.NO_ROOM) {
      const line = this.#lines + 1 + Number(hasHead);
      return new OutOfRoom(`no room for line ${line} of the journal: ${this.#system.live} in progress, in a room of ${this.#room}`);
    }
    const word = this.#system.words(taken.owed);
    const reply = WITH_NUMBER.includes(taken.owed) ? `${word} ${taken.owedNumber}` : word;
    return new JournalError("wrong line", this.#text, this.#lines, reply, hasHead);
  }
}
