// What needs no paths: the audit of a journal, and every schedule of a script. Each call has an instance of the module to itself, so its
// memory is given back.

import * as codes from "./codes.js";
import { JournalError, OutOfMemory, ScriptError } from "./errors.js";
import { Library } from "./library.js";
import { declarationError, refusesDeclaration } from "./system.js";
import { bytesOf, textOf, Verdict, withoutMarks } from "./texts.js";

const MOST_STATES = 4_294_967_295;
const OUTCOMES = new Map([[codes.ALL_DONE, "done"], [codes.STALLS, "stalled"], [codes.REFUSED, "refused"], [codes.UNDECIDED, "undecided"]]);

/** The room that is asked for. Throws RangeError. */
export function roomOf(room) {
  if (Number.isInteger(room) && room >= 1 && room <= codes.MOST_LINES) return room;
  throw new RangeError(`the room is 1 to 1,048,576 lines, and not ${String(room)}`);
}

/** Replays a journal, whoever wrote it, under a declaration. */
export function audit(declaration, journal, { room = codes.MOST_LINES } = {}) {
  const source = bytesOf(declaration, "a declaration");
  const lines = bytesOf(withoutMarks(textOf(bytesOf(journal, "a journal"))), "a journal");
  roomOf(room);
  return Library.alone(library => {
    const code = library.with(source, (at, length) => library.with(lines, (to, many) => library.calls.audit(at, length, room, to, many)));
    if (code === codes.SOUND) return new Verdict(null);
    if (code === codes.WRONG_LINE) return new Verdict(library.number);
    if (code === codes.OUT_OF_MEMORY) throw new OutOfMemory("no memory for an audit");
    if (refusesDeclaration(code)) throw declarationError(library, code, source);
    throw new JournalError(library.words(code), lines, code === codes.JOURNAL_TOO_LONG ? null : library.number);
  });
}

/** What the schedules of a script come to. As a string it is what `pathsys explore` writes. */
export class Exploration {
  constructor(outcome, states, journal, processes) {
    Object.assign(this, { outcome, states, journal, processes });
  }

  get done() {
    return this.outcome === "done";
  }

  get stalled() {
    return this.outcome === "stalled";
  }

  get refused() {
    return this.outcome === "refused";
  }

  get undecided() {
    return this.outcome === "undecided";
  }

  toString() {
    if (this.done) return `every schedule ends done\nstates ${this.states}\n`;
    if (this.undecided) return `undecided after ${this.states} states\n`;
    return this.journal + this.processes.map(it => it + "\n").join("");
  }
}

/** Looks at every schedule of a script under a declaration: whether some processes can stall, or have a step refused. */
export function explore(declaration, script, { most = 1_000_000 } = {}) {
  if (!Number.isInteger(most) || most < 0 || most > MOST_STATES) throw new RangeError(`most is 0 to 4,294,967,295 states, and not ${most}`);
  const source = bytesOf(declaration, "a declaration");
  const steps = bytesOf(script, "a script");
  return Library.alone(library =>
    library.with(source, (at, length) => library.with(steps, (to, many) => search(library, [at, length, to, many, most], source, steps))),
  );
}

/** The search, over texts that are in the module's memory. */
function search(library, texts, source, steps) {
  const { explore: call } = library.calls;
  call(...texts, 0, 0, 0, 0);
  const size = library.number + 1;
  return library.withBuffer(size, buffer =>
    library.withBuffer(codes.STANDINGS, message => {
      const code = call(...texts, buffer, size, message, codes.STANDINGS);
      return found(library, code, { source, steps, buffer, message });
    }),
  );
}

function found(library, code, { source, steps, buffer, message }) {
  const { number } = library;
  const outcome = OUTCOMES.get(code);
  if (outcome === "done" || outcome === "undecided") return new Exploration(outcome, number, "", []);
  const [told] = library.textAt(message, codes.STANDINGS).split("\0");
  if (outcome !== undefined) return new Exploration(outcome, null, library.textAt(buffer, number), told.trimEnd().split("\n"));
  if (code === codes.OUT_OF_MEMORY) throw new OutOfMemory("no memory for a search of so many states");
  if (refusesDeclaration(code)) throw declarationError(library, code, source);
  throw new ScriptError(told.split(": ")[1], steps, code === codes.SCRIPT_TOO_LONG ? null : number);
}
