// What is said of a whole journal, of all schedules of a script, and of all histories of a declaration. Nothing here knows of the page: a worker calls this, too.

import { STATUSES, TEXT_REFUSED, UNDECIDED, UNSOUND } from "./calls.js";
import { faultPlace, fromOne, lineFault, Lines, linesOf } from "./texts.js";
import { standingIn } from "./answers.js";

// The verdict on a journal: { says, isSound, line, quoted, why }; `line` is the line of the text that is wrong or at fault, from 0,
// `quoted`
// what stands there, and `says` has it from 1. `why` says what was owed to it, or expected there, and how each resource stands behind it.
export function verdictOn(calls, declaration, journal) {
  const told = calls.audit(declaration, journal);
  const { out, err } = calls.judge(declaration, journal);
  if (told.status === TEXT_REFUSED) {
    const lines = new Lines(journal);
    const fault = lineFault(lines, told.err, err);
    return { says: fault.says, line: fault.line, quoted: fault.line === undefined ? "" : lines.at(fault.line), why: fault.why,
      isSound: false };
  }
  const says = (told.out || told.err).trim() || STATUSES[told.status];
  const wrong = /^wrong line (\d+)$/.exec(says);
  // The head of a journal is no line of it.
  const head = journal.startsWith("journal ") ? 1 : 0;
  const line = wrong ? Number(wrong[1]) + head : undefined;
  const { front, resources, waits } = standingIn(out);
  const stand = resources.map(it => `${it.name}: ${it.says.join("; ")}`);
  const why = [...linesOf(front).slice(1).map(it => it.trim()), ...stand, ...waits];
  return { says: fromOne(says, head + 1), isSound: told.status === 0, line,
    quoted: line === undefined ? "" : new Lines(journal).at(line), why };
}

// Where a script is refused: { says, line, why }; `line` counts from 0, and `says` from 1.
function scriptFault(err, script) {
  const [says = "", ...placed] = linesOf(err);
  const place = faultPlace(placed.join("\n"), new Lines(script));
  return { says: fromOne(says), line: place?.line, why: place?.says ?? [] };
}

// What all schedules of a script come to, by `kind`: "empty" if there is no process; "done" or "undecided", with how many states were
// looked
// at; "stalled" or "refused", with the attempts of a shortest that goes wrong, how many of them are admitted, and where each process is; or
// "fault". At most so many states are looked at.
export function exploredBy(calls, declaration, script, most) {
  const { status, out, err } = calls.explore(declaration, script, most);
  if (status === 0 && script === "") return { kind: "empty" };
  if (status === 0) return { kind: "done", states: Number(/^states (\d+)$/m.exec(out)[1]) };
  if (status === UNDECIDED) return { kind: "undecided", states: most };
  if (status !== UNSOUND) return { kind: "fault", ...scriptFault(err || STATUSES[status], script) };
  const processes = linesOf(err);
  return { kind: processes.some(it => it.includes(": faulted ")) ? "refused" : "stalled", ...attemptsIn(out), processes };
}

// The attempts of a journal that was found, and how many of them are admitted.
function attemptsIn(journal) {
  const lines = linesOf(journal).slice(1).map(it => it.split(": "));
  return {
    attempts: lines.map(([attempt]) => attempt + "\n").join(""),
    admitted: lines.filter(([, reply]) => /^(started|used|finished)/.test(reply)).length,
  };
}

// What all histories of a declaration come to with so many workers, by `kind`: "goes" or "undecided", with how many states were looked at;
// "never", with the operations that never begin, too; "frozen", with the attempts of a shortest history that freezes the paths and how many
// of them are admitted; "late" if that is too long to be shown; or "fault". At most so many states are looked at.
export function reachedBy(calls, declaration, workers, most) {
  const { status, out, err } = calls.reach(declaration, workers, most);
  if (status === UNDECIDED) return { kind: "undecided", states: most };
  if (status !== 0 && status !== UNSOUND) return { kind: "fault", says: linesOf(err)[0] ?? STATUSES[status] };
  const states = /^states (\d+)$/m.exec(out);
  if (states === null) return out === "" ? { kind: "late" } : { kind: "frozen", ...attemptsIn(out) };
  const never = [...out.matchAll(/^never (\w+)$/gm)].map(it => it[1]);
  return never.length > 0 ? { kind: "never", never, states: Number(states[1]) } : { kind: "goes", states: Number(states[1]) };
}
