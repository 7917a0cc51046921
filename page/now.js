// What the page shows now. All of its parts read this, and each says what it writes.

import { Answers, reportIn, standingIn } from "./answers.js";
import { lanesOf } from "./lanes.js";
import { Lines } from "./texts.js";

/** @type {any} */
export const now = {
  // The calls of the module.
  calls: null,
  // The text areas with what is beside their lines: declaration, attempts, journal and script.
  sheets: {},
  // What was read of the declaration's text, and of the attempts under it.
  declared: { text: null, lines: new Lines(""), isRead: false, operations: [], paths: [], fault: null },
  answered: new Answers("", new Lines(""), 0, "", null),
  picture: lanesOf([]),
  // The state that is shown: after how many lines, its report, that as the program writes it, why the last line was refused, and how
  // resources stand; and whether what is said of the moment is said of a line at fault.
  state: { lines: 0, report: reportIn(""), text: "", why: [], standing: standingIn(""), answered: null, isAtFault: false },
  // The path that is marked, by an attempt that it refuses; and the one that is shown in words.
  forbidding: null,
  path: 0,
  // Whether somebody types, so that what is at fault may be half of a line.
  isTyping: false,
  // Whether the moment is the one before the first line, of which a caret can't tell.
  isBefore: false,
  // The names of the workers, where the attempts are a schedule of processes.
  names: null,
};

// A worker's name, as a sentence has it.
export const workerName = worker => now.names?.[worker] ?? `worker ${worker}`;

// The name that a sentence begins with.
export const workerBegins = worker => now.names?.[worker] ?? `Worker ${worker}`;
