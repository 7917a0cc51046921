// What goes wrong, in words.

import { textOf } from "./texts.js";

/** What goes wrong with paths. */
export class WanzocheError extends Error {
  get name() {
    return "WanzocheError";
  }
}

/** There is no memory for it. */
export class OutOfMemory extends WanzocheError {
  get name() {
    return "OutOfMemory";
  }
}

/** The text isn't a declaration. */
export class DeclarationError extends WanzocheError {
  get name() {
    return "DeclarationError";
  }

  /** `found` has what is wrong, the `offset` in bytes or null, and what the library says of it, behind the place. */
  constructor(found, source) {
    const { why, offset, words } = found;
    const before = offset === null ? null : textOf(source.subarray(0, offset));
    const line = before === null ? null : before.split("\n").length;
    const column = before === null ? null : [...before.slice(before.lastIndexOf("\n") + 1)].length + 1;
    const told = before === null ? why : `${why} in line ${line}, column ${column}:${words}`;
    super(told.trimEnd().replaceAll("\n", "\n  "));
    Object.assign(this, { offset, line, column });
  }
}

/** The lines of a text, with a mark where there is none. */
function lineOf(bytes, number) {
  return textOf(bytes).split("\n")[number];
}

/** The text isn't a journal, or no paths go on behind it, since a reply isn't owed. */
export class JournalError extends WanzocheError {
  get name() {
    return "JournalError";
  }

  /** `number` is the line, from 0, or null; `owed` the reply that is, or null; `head` says that a first line isn't counted. */
  constructor(why, bytes, number, owed = null, head = false) {
    const line = number === null ? null : number + 1 + Number(head);
    const shown = line === null ? "" : `, which is line ${line} counted from 1:\n  ${lineOf(bytes, line - 1)}`;
    super(line === null ? why : `${why} ${number}${shown}${owed === null ? "" : `\n\`${owed}\` is owed`}`);
    Object.assign(this, { line, owed });
  }
}

/** The text isn't a script. */
export class ScriptError extends WanzocheError {
  get name() {
    return "ScriptError";
  }

  constructor(why, bytes, number) {
    const line = number === null ? null : number + 1;
    const shown = line === null ? "" : lineOf(bytes, number) || "(the text ends inside a process)";
    super(line === null ? why : `${why}, which is line ${line} counted from 1:\n  ${shown}`);
    Object.assign(this, { line });
  }
}

/** The paths were opened without a journal. */
export class NoJournal extends WanzocheError {
  get name() {
    return "NoJournal";
  }
}

/** No operation of this name is declared. */
export class UnknownOperation extends WanzocheError {
  get name() {
    return "UnknownOperation";
  }
}

/** A path forbids the start, or it is withheld for one who waits. */
export class Blocked extends WanzocheError {
  get name() {
    return "Blocked";
  }

  /**
   * `found` has the operation, the path with its resource and its text, what of it is in progress, and what may begin; or who waits for
   * whom it is withheld, `behind`.
   */
  constructor(found, milliseconds = 0) {
    const { operation, behind } = found;
    const waited = milliseconds > 0 ? ` for ${milliseconds} ms` : "";
    super(`${operation} is ${behind === null ? `blocked${waited}: ${pathIn(found)}` : `withheld${waited}: ${waiterIn(behind)}`}`);
    Object.assign(this, found);
  }
}

function pathIn({ path, resource, text, inProgress, mayBegin }) {
  const running = inProgress.map(it => `${it.operation} by worker ${it.worker}`).join(", ");
  const state = running || `nothing of it; may begin next: ${mayBegin.join(", ") || "nothing"}`;
  return `path ${path} of ${resource}: ${text}; in progress: ${state}`;
}

function waiterIn({ operation, worker, waited }) {
  return `behind ${operation} by worker ${worker}, which has waited ${Math.round(waited)} ms`;
}

/** The time is over, and a path still forbids the start, or it is still withheld. */
export class Timeout extends Blocked {
  get name() {
    return "Timeout";
  }
}

/** The entry is over. */
export class NotInProgress extends WanzocheError {
  get name() {
    return "NotInProgress";
  }
}

/** The device refuses the use: it doesn't offer the verb, is empty or full, or its total would be too large. */
export class UseRefused extends WanzocheError {
  get name() {
    return "UseRefused";
  }
}

/** More operations are in progress than the room has places for, or 4,294,967,295 were started. */
export class OutOfRoom extends WanzocheError {
  get name() {
    return "OutOfRoom";
  }
}

/** The paths were closed. */
export class Closed extends WanzocheError {
  get name() {
    return "Closed";
  }
}
