// Attempts with their replies, reports, and why. Nothing here knows of the page.

import { STATUSES, TEXT_REFUSED } from "./calls.js";
import { Lines, linesOf, lineFault } from "./texts.js";

// An attempt with its reply. `kind` is the reply without its number.
export function entryOf(line, reply) {
  const worker = line.indexOf(" ");
  const act = line.indexOf(" ", worker + 1);
  const what = line.indexOf(" ", act + 1);
  const isNumbered = /[0-9]$/.test(reply);
  const space = reply.lastIndexOf(" ");
  return {
    line,
    reply,
    worker: line.slice(0, worker),
    what: what < 0 ? line.slice(act + 1) : line.slice(act + 1, what),
    kind: isNumbered ? reply.slice(0, space) : reply,
    number: isNumbered ? reply.slice(space + 1) : null,
  };
}

// What was answered to the first lines of a text, `length` of them, by their trace with its report. A reply is read when it is asked for.
export class Answers {
  constructor(declaration, lines, length, out, fault) {
    this.declaration = declaration;
    this.lines = lines;
    this.length = length;
    this.out = out;
    this.fault = fault;
    this.read = undefined;
    this.reportRead = undefined;
    this.outLines = new Lines(out);
    this.reportText = out.slice(this.outLines.starts[length]);
  }

  // An attempt with its reply, if there is one in this line.
  entry(line) {
    if (line < 0 || line >= this.length) return undefined;
    const attempt = this.lines.at(line);
    return entryOf(attempt, this.outLines.at(line).slice(attempt.length + 2));
  }

  get entries() {
    return this.read ??= Array.from({ length: this.length }, (_, line) => this.entry(line));
  }

  get report() {
    return this.reportRead ??= reportIn(this.reportText);
  }

  // The text that is answered.
  get answeredText() {
    return this.lines.text.slice(0, this.length < this.lines.length ? this.lines.starts[this.length] : undefined);
  }
}

// What a report says.
export function reportIn(text) {
  const report = { startable: [], blocked: new Map(), live: [], frozen: false };
  for (const line of linesOf(text)) {
    const [what, ...fields] = line.split(" ");
    if (what === "startable") report.startable = fields;
    if (what === "blocked") report.blocked.set(fields[0], Number(fields[1]));
    if (what === "live") report.live.push({ activation: fields[0], worker: fields[1], operation: fields[2] });
    if (what === "frozen") report.frozen = fields[0] === "yes";
  }
  return report;
}

// The answers to attempts. If a line is at fault, the lines before it are answered; if these are what was answered before, as while a
// line is typed, their trace is taken from there.
/** @returns {Answers} */
export function answersTo(calls, declaration, attempts, before = undefined) {
  const lines = new Lines(attempts);
  const whole = calls.trace(declaration, attempts, true);
  if (whole.status === 0) return new Answers(declaration, lines, lines.counted, whole.out, null);
  const fault = whole.status === TEXT_REFUSED ? lineFault(lines, whole.err, calls.explain(declaration, attempts).err)
    : { says: whole.err.trim() || STATUSES[whole.status], why: [] };
  if (fault.line === undefined) return new Answers(declaration, lines, 0, "", fault);
  const sound = attempts.slice(0, lines.starts[fault.line]);
  if (before?.out && before.declaration === declaration && before.answeredText === sound) return new Answers(declaration, lines,
    fault.line, before.out, fault);
  const front = calls.trace(declaration, sound, true);
  return front.status === 0 ? new Answers(declaration, lines, fault.line, front.out, fault) : new Answers(declaration, lines, 0, "", fault);
}

// What `explain` says behind attempts or a journal, of which `front` is what is said of the lines themselves: { front, resources, waits };
// of each resource its name, lines on how it stands, and whether it is stuck; and lines on who waits, if all that is live does.
export function standingIn(text) {
  const [front, ...blocks] = ("\n" + text).split("\n\n");
  const read = blocks.map(block => linesOf(block).map(it => it.trim()));
  const resources = read.filter(([head]) => !head.includes(" "))
    .map(([name, ...says]) => ({ name, says, isStuck: says.includes("stuck for ever: yes") }));
  const waits = read.filter(([head]) => head.includes(" ")).flatMap(([, ...says]) => says);
  return { front: front.slice(1), resources, waits };
}

// What `explain` says below the last line of so many, each in a line. That a path forbids it is left out, unless others do, too: it is
// what the reply says.
export function whyLast(front, lines) {
  const last = front.slice(front.lastIndexOf(`\n${lines}: `) + 1);
  return linesOf(last).slice(1).map(it => it.trim()).filter(it => !/^forbidden by path \d+:/.test(it));
}

// The attempts so far as one more line makes them.
export function withLine(attempts, line) {
  return attempts + (attempts === "" || attempts.endsWith("\n") ? "" : "\n") + line + "\n";
}

// Why an attempt got its reply, in one sentence.
export function reasonFor(entry, paths, begins = worker => `Worker ${worker}`) {
  const { worker, what, kind, number } = entry;
  const path = paths[number];
  switch (kind) {
    case "started": return `${begins(worker)} has started ${what}: activation ${number}.`;
    case "blocked": return `Path ${number} of ${path?.resource.name} forbids that ${what} starts now: ${path?.text}.`;
    case "used": return `The device of activation ${what} answers ${number}.`;
    case "finished": return `Activation ${what} has ended.`;
    case "stale": return `No live activation has the number ${what}.`;
    case "not yours": return `Activation ${what} is another worker's.`;
    case "unknown operation": return `No operation has the number ${what.slice(1)}.`;
    case "not offered": return "A resource of this law doesn't offer that.";
    case "empty": return "The queue is empty.";
    case "full": return "The queue is full.";
    case "overflow": return "The total would pass 64 bits.";
    case "no room": return "The journal has no room for this line.";
    default: return "";
  }
}
