// What is read of the declaration and of the attempts, and what is shown of it; and the moment that is shown.

import { Answers, answersTo, reasonFor, standingIn, whyLast } from "./answers.js";
import { STATUSES } from "./calls.js";
import { noteSoon } from "./cases.js";
import { $, announce, FIRST_MEND, MOST_DRAWN, MOST_LISTED, say, showLong, tell } from "./dom.js";
import { escaped, itemsOf, told } from "./html.js";
import { now, workerBegins, workerName } from "./now.js";
import { markMoment, revealMoment } from "./picture.js";
import { showPath } from "./paths.js";
import { namesFor } from "./schedules.js";
import { showSteps } from "./steps.js";
import { firstOf, nextTables, pathTable, standingTables, trimmedIn } from "./tables.js";
import { declarationFault, declaredIn, Lines, pathPlaces } from "./texts.js";
import { textOf } from "./writing.js";
import { show, showRest } from "./page.js";
import { markInto } from "./sheet.js";

// Whether there is so much to show that the rest of it waits until nobody types.
export const isLarge = () => now.answered.length > MOST_DRAWN || now.declared.operations.length > MOST_LISTED;

// Whether the line of the caret is at fault, and typed just now.
export function isHalfTyped() {
  const line = now.answered.fault?.line;
  return now.isTyping && line !== undefined && line === now.sheets.attempts.caretLine();
}

// Whether the caret is in a line at fault, or below it, and that line isn't typed just now.
const isAtFault = () => !isHalfTyped() && now.answered.fault?.line !== undefined
  && now.sheets.attempts.caretLine() >= now.answered.fault.line;

// ---- the declaration

// A declaration as it was read, or where it is refused.
function readingOf(text) {
  const lines = new Lines(text);
  const { status, out, err } = now.calls.check(text);
  if (status === 0) return { text, lines, isRead: true, fault: null, ...declaredIn(out) };
  const fault = declarationFault(lines, err || STATUSES[status], now.calls.explain(text, "").err);
  return { text, lines, isRead: false, operations: [], paths: [], fault };
}

// Reads the declaration. While it is typed, one that is refused leaves what was read before.
export function readDeclaration() {
  const text = textOf("declaration");
  if (text === now.declared.text) return;
  const read = readingOf(text);
  if (!read.isRead && now.isTyping && now.declared.isRead) return;
  now.declared = read;
  now.path = 0;
  if (!read.isRead) forgetSemaphores();
  $("declaration").setAttribute("aria-invalid", !read.isRead);
  say("declaration-why", itemsOf(read.fault?.why ?? []));
  tell("declaration-said", read.isRead ? `${told("A declaration", "yes")}, ${read.paths.length ? "with these paths:" : "without paths."}`
    : told(read.fault.says, "no"));
  if (!read.isRead) announce("declaration-why");
  $("paths").innerHTML = read.paths.map((it, i) => `<li><button type="button" data-path="${i}">${escaped(it.text)}</button></li>`).join("");
}

// The declaration whose semaphores are shown.
let compiledText = null;

function forgetSemaphores() {
  compiledText = null;
  $("compiled").textContent = "";
  $("semaphores").innerHTML = `<p class="faint">${FIRST_MEND}</p>`;
  now.compiled = [];
}

// Shows the semaphores of each path.
export function showSemaphores() {
  const { text, isRead, paths } = now.declared;
  if (!isRead || text === compiledText) return;
  compiledText = text;
  const compiled = now.calls.compile(text).out;
  showLong($("compiled"), compiled);
  now.compiled = trimmedIn(compiled);
  const tables = list => list.map(it => pathTable(it, paths[it.path].text)).join("");
  $("semaphores").innerHTML = firstOf(now.compiled, MOST_LISTED, "path", tables);
}

// ---- the attempts

export function readAttempts() {
  const text = textOf("attempts");
  now.answered = now.declared.isRead ? answersTo(now.calls, now.declared.text, text, now.answered)
    : new Answers("", new Lines(text), 0, "", null);
  now.names = namesFor(text);
  $("attempts").setAttribute("aria-invalid", now.answered.fault !== null && !isHalfTyped());
}

const REPLY_KINDS = { started: "yes", finished: "yes", used: "", blocked: "no" };
const EXPLAINED = { started: "activation ", blocked: "by path " };

// The reply to a line, as it is shown: in the program's words, with what its number is.
function replyTo(line) {
  const { fault } = now.answered;
  if (line === fault?.line && isHalfTyped()) return undefined;
  if (line === fault?.line) return { text: fault.isName ? "undeclared" : "bad line", kind: "no" };
  const entry = now.answered.entry(line);
  if (!entry) return undefined;
  const more = entry.kind in EXPLAINED ? EXPLAINED[entry.kind] + entry.number : "";
  return { text: entry.reply, more, kind: REPLY_KINDS[entry.kind] ?? "no" };
}

// What is said of the line of the moment: { text, path }, the path that forbids it.
function lineSaid(line) {
  const { answered, declared } = now;
  const { fault, lines } = answered;
  if (isAtFault()) return { text: `Line ${fault.line + 1}, ${lines.at(fault.line)}: ${replyTo(fault.line).text}.`, path: null };
  const entry = answered.entry(line);
  if (!entry) return { text: "", path: null };
  const reason = reasonFor(entry, declared.paths, workerBegins);
  return { text: `Line ${line + 1}, ${entry.line}: ${entry.reply}. ${reason}`,
    path: entry.kind === "blocked" ? Number(entry.number) : null };
}

export function showAttempts() {
  const { lines, fault } = now.answered;
  const sheet = now.sheets.attempts;
  sheet.lines = lines;
  const line = linesSoFar() - 1;
  const marked = new Map();
  if (fault?.line !== undefined && !isHalfTyped()) marked.set(fault.line, [{ from: fault.from, to: fault.to, kind: "fault" }]);
  sheet.show(lines, marked, replyTo, line);
  const { text, path } = lineSaid(line);
  tell("selected", escaped(text));
  mark(path);
}

// Says what is at fault, and how many attempts got which reply.
export function countAttempts() {
  const { entries, fault, lines } = now.answered;
  if (!now.declared.isRead && lines.text !== "") return say("attempts-said", told(FIRST_MEND, "no"));
  const tally = new Map();
  for (const { kind } of entries) tally.set(kind, (tally.get(kind) ?? 0) + 1);
  const counts = [...tally].map(([kind, count]) => `${count} ${kind}`).join(", ");
  say("attempts-said", (fault && !isHalfTyped() ? told(fault.says, "no") + ". " : "")
    + escaped(`${entries.length} ${entries.length === 1 ? "attempt" : "attempts"}${counts ? ": " + counts : ""}.`));
}

// Marks the path that forbids an attempt, and where the declaration is at fault.
function mark(path) {
  const { declared } = now;
  $("paths").children[now.forbidding]?.classList.remove("forbids");
  $("paths").children[path]?.classList.add("forbids");
  if (path !== null && path !== now.forbidding) now.path = path;
  now.forbidding = path;
  const marked = new Map();
  const written = textOf("declaration");
  if (written !== declared.text) return now.sheets.declaration.show(new Lines(written), marked);
  if (path !== null) markInto(marked, declared.lines, ...pathPlaces(declared.text)[path], "path");
  if (declared.fault?.from !== undefined) markInto(marked, declared.lines, declared.fault.from, declared.fault.to, "fault");
  now.sheets.declaration.show(declared.lines, marked);
}

// ---- the moment that is shown: the caret's line was answered last

// How many lines there are up to the moment.
export function linesSoFar() {
  now.isBefore &&= $("attempts").selectionStart === 0;
  return now.isBefore ? 0 : Math.min(now.sheets.attempts.caretLine() + 1, now.answered.length);
}

// The state after so many lines.
function stateAfter(lines) {
  const { answered, declared, calls, state } = now;
  if (state.answered === answered && state.lines === lines) return state;
  if (!declared.isRead) return { lines, report: answered.report, text: "", why: [], standing: standingIn(""), answered };
  const front = lines === answered.length ? answered.answeredText : answered.lines.text.slice(0, answered.lines.starts[lines]);
  const { report, reportText } = lines === answered.length ? answered
    : new Answers(declared.text, new Lines(front), lines, calls.trace(declared.text, front, true).out, null);
  const standing = standingIn(calls.explain(declared.text, front).out);
  return { lines, report, text: reportText, why: whyLast(standing.front, lines), standing, answered };
}

// Shows what belongs to the moment besides its line: the state, the buttons, and where it is in the picture.
export function showMoment() {
  const { lines, answered } = now.state;
  now.state = { ...stateAfter(linesSoFar()), isAtFault: isAtFault() };
  showSlider();
  showWhy();
  showStandstill();
  showSteps();
  showNext();
  showPath();
  markMoment();
  if (now.state.lines === lines && now.state.answered === answered) return;
  revealMoment();
  noteSoon();
}

// Shows why the moment's line got its reply; of a line at fault, what was expected there.
export function showWhy() {
  tell("why", itemsOf(now.state.isAtFault ? now.answered.fault.why : now.state.why));
  if ($("explaining").open) showLong($("explained"), now.state.standing.front);
}

// Says above the picture what nobody should miss: that nothing can go on.
function showStandstill() {
  const { report, standing } = now.state;
  const frozen = report.frozen ? ["Nothing is live and nothing can start: nothing is ever admitted again."] : [];
  const deadlock = standing.waits.length ? [`Deadlock: all that is live waits. ${standing.waits.slice(0, 4).map(named).join("; ")}.`] : [];
  tell("verdict", itemsOf([...frozen, ...deadlock]));
}

// What is said of workers, with their names.
const named = words => now.names ? words.replace(/\bworker (\d+)\b/g, (_, worker) => workerName(worker)) : words;

function showSlider() {
  const { length } = now.answered;
  const { lines } = now.state;
  const when = lines > 0 ? `after line ${lines}` : length > 0 ? "before line 1" : "";
  const where = lines > 0 ? `${when} of ${length}` : when || "no line yet";
  for (const it of document.querySelectorAll(".when")) it.textContent = when;
  Object.assign($("moment"), { max: length, value: lines });
  $("moment").setAttribute("aria-valuetext", where);
  $("moment-said").textContent = where;
}

// What can happen after the moment.
function showNext() {
  const { report, text, standing } = now.state;
  // The picture of a long text is drawn a little later.
  const startOf = activation => now.picture.runs[activation] ? now.picture.runs[activation].from + 1 : "";
  say("next", !now.declared.isRead ? `<p class="faint">${FIRST_MEND}</p>`
    : nextTables(report, now.declared, startOf, MOST_LISTED) + standingTables(standing, MOST_LISTED));
  showLong($("report"), text);
}

// Goes to the moment after so many lines. What was typed just now is judged first.
export function goTo(lines) {
  if (now.isTyping) judgeTyped();
  const wanted = Math.max(0, Math.min(now.answered.length, lines));
  now.isBefore = wanted === 0;
  now.sheets.attempts.select(wanted - 1);
  now.sheets.attempts.reveal(Math.max(0, wanted - 1));
  showAttempts();
  showMoment();
}

let waiting = 0;

// Shows the moment of a caret that was moved: of a long text its state a little later.
export function caretMoved() {
  const { fault } = now.answered;
  if (now.isTyping && fault && fault.line !== now.sheets.attempts.caretLine()) return judgeTyped();
  const lines = linesSoFar();
  const isElsewhere = isAtFault() !== now.state.isAtFault;
  if (now.sheets.attempts.at !== lines - 1 || isElsewhere) showAttempts();
  if (now.state.lines === lines && !isElsewhere) return;
  clearTimeout(waiting);
  if (isLarge()) waiting = setTimeout(showRest, 100);
  else showMoment();
}

// Judges what was typed, if that waits for it: a line or a declaration that is at fault.
export function judgeTyped() {
  const waits = now.isTyping && (now.answered.fault !== null || textOf("declaration") !== now.declared.text);
  now.isTyping = false;
  if (waits) show();
}
