// The processes of a script, and a schedule of it in which all end done. Nothing here knows of the page.

import { Answers } from "./answers.js";
import { Lines, linesOf } from "./texts.js";

// Of a schedule to watch, so many lines at most.
const MOST_WATCHED = 400;

// The processes of a script that was read by the program: { name, steps }, each step its words.
export function processesIn(script) {
  const processes = [];
  for (const line of linesOf(script)) {
    const words = line.split(" ");
    if (words[0] === "process") processes.push({ name: words[1], steps: [] });
    else if (words[0] !== "end") processes.at(-1).steps.push(words);
  }
  return processes;
}

// A process on its way: which step is next, what it has entered, and whether its last start was refused.
class Walker {
  constructor({ name, steps }, worker) {
    this.name = name;
    this.steps = steps;
    this.worker = worker;
    this.at = 0;
    this.entered = [];
    this.isBlocked = false;
  }

  get isDone() {
    return this.at === this.steps.length;
  }

  // The attempt of the next step.
  next() {
    const [verb, ...rest] = this.steps[this.at];
    if (verb === "enter") return `${this.worker} start ${rest[0]}`;
    return verb === "leave" ? `${this.worker} finish ${this.entered.at(-1)}`
      : `${this.worker} use ${this.entered.at(-1)} ${rest.join(" ")}`;
  }

  // Takes a reply to it.
  took({ kind, number }) {
    const verb = this.steps[this.at][0];
    this.isBlocked = kind === "blocked";
    if (this.isBlocked) return;
    if (verb === "enter") this.entered.push(number);
    if (verb === "leave") this.entered.pop();
    this.at++;
  }
}

// The attempts of a schedule of a script in which the processes take turns, step by step; a start that is refused is tried again when
// something has finished. Or nothing, if there are too many lines, or not all end done in this one.
export function watchedSchedule(calls, declaration, script) {
  const walkers = processesIn(script).map((it, worker) => new Walker(it, worker));
  const going = () => walkers.filter(it => !it.isDone && !it.isBlocked);
  let attempts = "";
  for (let lines = 0; walkers.some(it => !it.isDone); lines++) {
    const ready = going();
    if (lines === MOST_WATCHED || ready.length === 0) return undefined;
    // The one that has gone least far.
    const walker = ready.reduce((first, it) => it.at < first.at ? it : first);
    attempts += walker.next() + "\n";
    const all = new Lines(attempts);
    const entry = new Answers(declaration, all, all.counted, calls.trace(declaration, attempts, true).out, null).entry(lines);
    walker.took(entry);
    if (entry.kind === "finished") for (const it of walkers) it.isBlocked = false;
  }
  return attempts;
}
