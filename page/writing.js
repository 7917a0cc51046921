// The texts of the case, and how the page and its user write them: each change can be taken back, also with the focus elsewhere.

import { $ } from "./dom.js";
import { differenceOf, History } from "./history.js";
import { Lines } from "./texts.js";

export const PARTS = ["declaration", "attempts", "journal", "script"];

// As many lines are written as if they were typed. Chromium takes seconds for a thousand.
const MOST_TYPED = 200;
// A journal of more lines is kept beside its text area, which shows its first lines: an area takes seconds for all of them.
const MOST_EDITED = 50000;
const MOST_HELD_SHOWN = 1000;

const made = new History();
// The texts as they are known, and the journal that is kept beside its area.
const known = Object.fromEntries(PARTS.map(id => [id, ""]));
let held = null;
let isWriting = false;
// The changes of a step that is made of several.
let gathered = null;

export const textOf = id => id === "journal" && held !== null ? held : $(id).value;

// Whether the page writes, so that an `input` isn't the user's.
export const isOwn = () => isWriting;

const isLong = text => new Lines(text).length > MOST_TYPED;

// How many lines a journal has that is kept beside its area; else nothing.
export const linesHeld = () => held === null ? undefined : new Lines(held).counted;

// A text as a text area gives it back: its lines end with line feeds.
const asWritten = text => text.replace(/\r\n?/g, "\n");

// A line of words, which is itself in HTML.
const PLAIN_LINE = /^\n?\w+(?: \w+)*\n?$/;

// Types a text at the caret, or in the place of what is selected. At the caret a line goes in as HTML where a text area takes that, as in
// Chromium, which then lays its text out once; else it does so for the letters and for the line feed.
function typeIn(text, isAtCaret) {
  if (text === "") return document.execCommand("delete");
  if (isAtCaret && PLAIN_LINE.test(text) && document.execCommand("insertHTML", false, text)) return true;
  return document.execCommand("insertText", false, text);
}

// Puts a text in the place of [from, to) of a text area, as if it were typed, unless either is long. The page stays where it is, and the
// focus too. No `input` is heard of it.
function put(area, from, to, text) {
  if (area.readOnly || isLong(text) || isLong(area.value.slice(from, to))) return area.setRangeText(text, from, to, "end");
  const { scrollX, scrollY } = window;
  const focused = /** @type {any} */ (document.activeElement);
  isWriting = true;
  area.focus({ preventScroll: true });
  area.setSelectionRange(from, to);
  const isTyped = document.activeElement === area && typeIn(text, from === to);
  if (!isTyped) area.setRangeText(text, from, to, "end");
  isWriting = false;
  if (focused === document.body) area.blur();
  else focused.focus({ preventScroll: true });
  window.scrollTo({ left: scrollX, top: scrollY, behavior: /** @type {any} */ ("instant") });
}

// Gives a text area another text, of which only this differs, or the journal in its place.
function change(id, { at, removed, inserted }) {
  const text = known[id].slice(0, at) + inserted + known[id].slice(at + removed.length);
  const area = $(id);
  const wasHeld = id === "journal" && held !== null;
  const isHeld = id === "journal" && new Lines(text).length > MOST_EDITED;
  if (isHeld) {
    held = text;
    area.value = text.slice(0, new Lines(text).starts[MOST_HELD_SHOWN]);
  } else if (wasHeld) {
    held = null;
    area.value = text;
  } else {
    put(area, at, at + removed.length, inserted);
  }
  if (id === "journal") area.readOnly = isHeld;
  known[id] = text;
}

// Keeps a change, so that it can be taken back.
function note(changes) {
  if (gathered) gathered.push(...changes);
  else made.note(changes);
}

// Puts a text in the place of [from, to) of one of the texts.
export function write(id, from, to, text) {
  const removed = known[id].slice(from, to);
  change(id, { at: from, removed, inserted: text });
  note([{ id, at: from, removed, inserted: text }]);
}

// Puts a text in the place of all of one, of which only what differs is written.
export function rewrite(id, whole) {
  const text = asWritten(whole);
  if (known[id] === text) return;
  const { at, removed } = differenceOf(known[id], text);
  write(id, at, at + removed.length, text.slice(at, text.length - (known[id].length - at - removed.length)));
}

// Makes all that is written meanwhile one step.
export function asOneStep(work) {
  gathered = [];
  try {
    work();
  } finally {
    const changes = gathered;
    gathered = null;
    made.note(changes);
  }
}

// Gives the texts of the case that is shown first, behind which nothing can be taken back.
export function writeFirst(texts) {
  for (const id of PARTS) change(id, { at: 0, removed: known[id], inserted: asWritten(texts[id]) });
}

// Notes what the user has typed.
export function heard(id) {
  const text = $(id).value;
  if (text === known[id]) return;
  made.typed({ id, ...differenceOf(known[id], text) }, performance.now());
  known[id] = text;
}

// Whether something can be taken back, or made again.
export const canUndo = () => made.done.length > 0;
export const canRedo = () => made.undone.length > 0;

// Takes the last step back, or makes one again: the texts that have changed, each with the caret behind the change.
export function travel(isBack) {
  const changes = isBack ? made.undo() : made.redo();
  for (const it of changes) {
    change(it.id, it);
    const at = it.at + it.inserted.length;
    $(it.id).setSelectionRange(at, at);
  }
  return changes.map(it => it.id);
}
