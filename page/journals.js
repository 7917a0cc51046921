// The audit of a journal.

import { $, announce, FIRST_MEND, MOST_DRAWN, say, tell } from "./dom.js";
import { counted, escaped, itemsOf, told } from "./html.js";
import { now } from "./now.js";
import { Lines } from "./texts.js";
import { verdictOn } from "./verdicts.js";
import { handOut } from "./workers.js";
import { linesHeld, rewrite, textOf } from "./writing.js";

// A long journal is judged so many milliseconds after the last keystroke, by a worker.
const LATER = 300;

// The texts that were judged last, what is to be judged, and what stops the worker that does so.
let judged = { declaration: null, journal: null };
let judging = 0;
let stopJudging = () => {};

// What is said of no journal, or under no declaration.
const NONE = { says: "", isSound: false, line: undefined, quoted: "", why: [] };

// Shows the verdict on the journal: at once, or of a long one when the worker has it.
export function judge() {
  const declaration = now.declared.isRead ? now.declared.text : null;
  const journal = textOf("journal");
  if (judged.declaration === declaration && judged.journal === journal) return;
  judged = { declaration, journal };
  clearTimeout(judging);
  stopJudging();
  stopJudging = () => {};
  if (journal === "" || declaration === null) return showVerdict({ ...NONE, says: journal === "" ? "" : FIRST_MEND });
  if (linesHeld() === undefined && new Lines(journal).length <= MOST_DRAWN) return showVerdict(verdictOn(now.calls, declaration, journal));
  say("journal-said", "Judging ..");
  say("journal-why", "");
  now.sheets.journal.show(new Lines($("journal").value), new Map());
  judging = setTimeout(() => { stopJudging = handOut({ work: "judge", declaration, journal }, showVerdict); }, LATER);
}

function showVerdict({ says, isSound, line, quoted, why }) {
  const lines = new Lines($("journal").value);
  const held = linesHeld();
  const shown = held === undefined ? "" : ` The first ${lines.counted} of ${counted(held, "line")} are shown, and can't be changed here.`;
  tell("journal-said", says === "" ? "" : told(line === undefined ? says : `${says}: ${quoted}`, isSound ? "yes" : "no") + escaped(shown));
  say("journal-why", itemsOf(why));
  if (why.length && !isSound) announce("journal-why");
  const isMarked = line !== undefined && line < lines.length;
  $("journal").setAttribute("aria-invalid", !isSound && says !== "" && now.declared.isRead);
  now.sheets.journal.show(lines, new Map(isMarked ? [[line, "fault"]] : []));
}

export const journalText = () => now.answered.entries.map(it => `${it.line}: ${it.reply}\n`).join("");

// Puts what was answered above in the place of the journal, and judges it.
export function auditTrace() {
  if (now.answered.length === 0) return;
  rewrite("journal", journalText());
  judge();
}
