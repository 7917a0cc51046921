// The next attempt, by clicking.

import { reasonFor, withLine } from "./answers.js";
import { $, announce, FIRST_MEND, MOST_LISTED, optionsOf, refill, say } from "./dom.js";
import { escaped } from "./html.js";
import { now, workerBegins, workerName } from "./now.js";
import { show } from "./page.js";
import { Slips } from "./slips.js";
import { goTo, isHalfTyped } from "./state.js";
import { textOf, write } from "./writing.js";

// Of so many workers each has a button, and more are a list.
const MOST_WORKERS = 10;

function workersNow() {
  const seen = [...new Set(now.answered.entries.map(it => it.worker))].sort((a, b) => a - b);
  const next = seen.length ? Math.min(4294967295, Number(seen.at(-1)) + 1) : 1;
  return seen.slice(0, MOST_LISTED).concat(seen.includes(String(next)) ? [] : [String(next)]);
}

const VERBS = { cell: ["look", "put"], tally: ["look", "add"], queue: ["put", "take", "look"] };

function startButton({ name }, worker) {
  const path = now.state.report.blocked.get(name);
  const its = `type="button" data-key="start ${name}" data-line="${worker} start ${name}"`;
  if (path === undefined) return `<button ${its}>start ${name}</button>`;
  const reason = reasonFor({ kind: "blocked", what: name, number: path }, now.declared.paths);
  return `<button ${its} class="forbidden" title="${escaped(reason)}">start ${name} <small>path ${path}</small></button>`;
}

function liveItem({ activation, worker, operation }) {
  const { law } = now.declared.operations.find(it => it.name === operation).resource;
  const button = (verb, key, more = "") => `<button type="button" data-key="${key}" data-line="${worker} ${key}"`
    + ` aria-label="${verb} activation ${activation}, ${operation}"${more}>${verb}</button>`;
  const numbered = verb => verb === "put" || verb === "add" ? ' data-number="yes"' : "";
  const uses = VERBS[law.split(" ")[0]].map(verb => button(verb, `use ${activation} ${verb}`, numbered(verb)));
  return `<li><span>activation ${activation}: ${operation}, ${escaped(workerName(worker))}</span>`
    + `${uses.join("")}${button("finish", `finish ${activation}`)}</li>`;
}

// The choice of a worker, of these.
function workerChoice(workers, worker) {
  const label = it => now.names?.[it] ?? it;
  if (workers.length > MOST_WORKERS) {
    const options = optionsOf(workers.map(it => ({ value: it, label: label(it) })), worker);
    return `<select data-key="worker" aria-label="Worker">${options}</select>`;
  }
  const radio = it => `<input type="radio" name="worker" data-key="worker ${it}" value="${it}"${it === worker ? " checked" : ""}>`;
  return workers.map(it => `<label>${radio(it)} ${escaped(label(it))}</label>`).join("");
}

// What is said below the buttons.
function hint(can) {
  const { operations, isRead } = now.declared;
  const { live, frozen } = now.state.report;
  const more = (list, what) => list.length > MOST_LISTED ? `${list.length - MOST_LISTED} more ${what} can be typed. ` : "";
  if (!isRead) return FIRST_MEND;
  if (can && frozen) return "Nothing is live and nothing can start: nothing is ever admitted again.";
  return can ? more(operations, "operations") + more(live, "live activations") + refusal() : "First mend the line that is at fault.";
}

export function showSteps() {
  const workers = workersNow();
  const chosen = /** @type {any} */ (document.querySelector("#workers input:checked, #workers select"))?.value;
  const worker = workers.includes(chosen) ? chosen : workers[0];
  const can = now.declared.isRead && (!now.answered.fault || isHalfTyped());
  refill($("workers"), workerChoice(workers, worker));
  refill($("starts"), now.declared.operations.slice(0, MOST_LISTED).map(it => startButton(it, worker)).join(""));
  refill($("live"), now.state.report.live.slice(0, MOST_LISTED).map(liveItem).join(""));
  $("starts").inert = $("live").inert = !can;
  say("steps-said", hint(can));
}

// The line that a button wrote last, and the text that it made.
let written = { line: -1, text: "" };

// Why starts are refused: the one that a button wrote just now; else the first that can't be made, so that nobody has to ask.
function refusal() {
  const { answered, declared, state } = now;
  const { line, text } = written;
  const entry = line === state.lines - 1 && text === answered.lines.text ? answered.entry(line) : undefined;
  if (entry?.kind === "blocked") return escaped(reasonFor(entry, declared.paths, workerBegins));
  const { name } = declared.operations.find(it => state.report.blocked.has(it.name)) ?? {};
  return name === undefined ? "" : escaped(reasonFor({ kind: "blocked", what: name, number: state.report.blocked.get(name) },
    declared.paths));
}

const isNumber = text => /^(0|[1-9][0-9]*)$/.test(text) && BigInt(text) < 2n ** 64n;

const slips = new Slips();

// A click makes its attempt, also one that is refused: the reply says why.
export function clicked(event) {
  const button = event.target.closest("button");
  if (!button) return;
  const { line, number, key } = button.dataset;
  if (slips.isSlip(event, key)) return;
  if (number && !isNumber($("number").value)) {
    say("steps-said", "The number to put or add is 0 to 18446744073709551615.");
    announce("steps-said");
    $("number").focus();
    return;
  }
  attempt(number ? `${line} ${$("number").value}` : line);
}

// Writes a line behind a text. The last line feed stays behind it: Chromium lays a text out once more for what goes into its empty last
// line.
function append(line) {
  const text = textOf("attempts");
  const at = text.endsWith("\n") ? text.length - 1 : text.length;
  const added = withLine(text, line).slice(text.length);
  write("attempts", at, at, at < text.length ? "\n" + added.slice(0, -1) : added);
  $("attempts").setSelectionRange(text.length + added.length, text.length + added.length);
}

// Writes an attempt behind the lines so far, which makes its line that of the moment. If it stands there already, it is gone on to.
function attempt(line) {
  const { lines } = now.answered;
  const to = now.state.lines;
  if (to < lines.counted && lines.at(to) === line) return goTo(to + 1);
  now.isTyping = false;
  if (to === lines.counted) {
    append(line);
  } else {
    const at = lines.starts[to];
    write("attempts", at, at, line + "\n");
    $("attempts").setSelectionRange(at + line.length, at + line.length);
  }
  written = { line: to, text: textOf("attempts") };
  show();
  now.sheets.attempts.reveal(to);
}
