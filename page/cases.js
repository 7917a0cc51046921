// The case as a whole: an example, or one's own; and the address.

import { $, announce, optionsOf, say } from "./dom.js";
import { escaped } from "./html.js";
import { now } from "./now.js";
import { judge } from "./journals.js";
import { show } from "./page.js";
import { showScript } from "./schedules.js";
import { goTo } from "./state.js";
import { Lines } from "./texts.js";
import { asOneStep, PARTS, rewrite, textOf, writeFirst } from "./writing.js";

// A longer case isn't put into the address.
const MOST_LINKED = 32768;
// The example that the page begins with.
const FIRST_EXAMPLE = "slot";

export const examples = JSON.parse($("examples").textContent);
// Cases that were no examples when another case replaced them, to go back to: { label, declaration, attempts, journal, script }.
export const drafts = [];
// What the case was before it was changed, if it is known: an example or a draft.
let source = null;

// The texts of a case. One that a case doesn't have is empty.
const partOf = (it, part) => it[part] ?? "";

export const caseNow = () => Object.fromEntries(PARTS.map(it => [it, textOf(it)]));

const isSame = (one, other) => PARTS.every(it => partOf(one, it) === partOf(other, it));

const knownAs = it => [...examples, ...drafts].find(other => isSame(other, it));

const nameOf = example => example.name.replaceAll("_", " ");

export const exampleOf = name => examples.find(it => it.name === name);

// What a case that isn't known is called in the list.
function labelOfOwn() {
  const label = source === null ? "your own" : source.stem ?? `${nameOf(source)}, changed`;
  const alike = drafts.filter(it => it.stem === label).length;
  return { stem: label, label: alike ? `${label} (${alike + 1})` : label };
}

// Keeps the case as a draft, unless it is known or empty.
export function keepDraft() {
  const its = caseNow();
  if (!knownAs(its) && PARTS.some(it => its[it] !== "")) drafts.push({ ...labelOfOwn(), ...its });
}

let listed = "";

// Shows in the list of cases which one this is.
export function showCase() {
  const known = knownAs(caseNow());
  const own = known ? [] : [{ value: "own", label: labelOfOwn().label }];
  const list = optionsOf([
    ...own,
    ...drafts.map((it, i) => ({ value: i, label: it.label })),
    ...examples.map(it => ({ value: it.name, label: nameOf(it) })),
  ], undefined);
  if (list !== listed) $("example").innerHTML = listed = list;
  $("example").value = known?.name ?? (known ? drafts.indexOf(known) : "own");
  for (const it of $("problems").children) it.setAttribute("aria-pressed", it.dataset.example === known?.name);
  const whose = source?.name ? `The example ${nameOf(source)}, changed.` : "A case of your own.";
  say("shows", escaped(known?.shows ?? `${whose} It stays in this list when you choose another.`));
}

// Opens the case that was chosen in the list.
export function choose(value) {
  const chosen = exampleOf(value) ?? drafts[value];
  if (chosen) openCase(chosen);
}

// ---- the address

// The part of the address that names this case and the moment, or nothing if it is too long. It has the declaration even if that is empty.
function fragmentOf(its) {
  const { lines } = now.state;
  const moment = lines === now.answered.length ? [] : [["line", String(lines)]];
  const example = examples.find(it => isSame(it, its));
  if (example) return String(new URLSearchParams([["example", example.name], ...moment]));
  if (PARTS.reduce((sum, it) => sum + its[it].length, 0) > MOST_LINKED) return null;
  const texts = Object.entries(its).filter(([part, text]) => part === "declaration" || text !== "");
  return String(new URLSearchParams([...texts, ...moment]));
}

let noting = 0;
let lastFragment = null;

// Puts the case into the address soon.
export function noteSoon() {
  clearTimeout(noting);
  noting = setTimeout(noteAddress, 300);
}

// Puts the case into the address. A case that is too long is kept with the tab, so that a reload shows it again.
export function noteAddress() {
  clearTimeout(noting);
  const its = caseNow();
  const fragment = fragmentOf(its);
  const address = location.href.split("#")[0] + (fragment === null ? "" : "#" + fragment);
  lastFragment = fragment ?? "";
  $("link").textContent = fragment === null ? "Too long for a link" : "Copy link";
  $("link").disabled = fragment === null;
  try {
    history.replaceState(fragment === null ? its : null, "", address);
  } catch (error) {
    // A browser may not keep so long a case, or not so many addresses at once. Then the address stays as it is.
    console.warn(error);
  }
}

// Shows the case that the address names, at its moment, or that was kept with the tab; the first example from its start if there is none.
export function openAddress() {
  const named = new URLSearchParams(location.hash.slice(1));
  const name = named.get("example");
  const example = exampleOf(name);
  const line = /^\d{1,7}$/.test(named.get("line") ?? "") ? Number(named.get("line")) : undefined;
  if (example) openCase(example, line);
  else if (PARTS.some(it => named.has(it))) openCase(Object.fromEntries(PARTS.map(it => [it, named.get(it) ?? ""])), line);
  else if (history.state) openCase(history.state);
  else openCase(exampleOf(FIRST_EXAMPLE), 0);
  if (name === null || example) return;
  say("files-said", escaped(`There is no example ${name.slice(0, 40)} here, so this is ${FIRST_EXAMPLE}.`));
  announce("files-said");
}

// Whether the address names another case than the one that is shown.
export const isElsewhere = () => location.hash.slice(1) !== lastFragment;

// ---- to open one

let isFirst = true;

// Shows a case, at its end or behind so many lines, and keeps the one before.
export function openCase(it, line = undefined) {
  if (!isFirst) keepDraft();
  source = it.label || it.name ? it : null;
  $("audit").open = $("schedules").open = true;
  now.isBefore = now.isTyping = false;
  const texts = Object.fromEntries(PARTS.map(id => [id, partOf(it, id)]));
  for (const id of PARTS) now.sheets[id].widen(new Lines(texts[id]).length);
  if (isFirst) writeFirst(texts);
  else asOneStep(() => { for (const id of PARTS) rewrite(id, texts[id]); });
  isFirst = false;
  for (const id of PARTS) {
    const caret = id === "attempts" ? $(id).value.length : 0;
    $(id).setSelectionRange(caret, caret);
    if (caret === 0) $(id).scrollTop = 0;
  }
  $("audit").open = texts.journal !== "";
  $("schedules").open = texts.script !== "" && (!it.name || it.attempts === "");
  $("workers").textContent = "";
  show();
  judge();
  showScript();
  now.sheets.attempts.reveal(now.answered.length - 1);
  if (line !== undefined) goTo(line);
  noteAddress();
}
