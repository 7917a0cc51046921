// The path that is chosen, in words and as a picture of its states.

import { $, say } from "./dom.js";
import { counted, escaped } from "./html.js";
import { now } from "./now.js";
import { eventsIn, liveInWords, MOST_DRAWN_STATES, PathStates, stateDiagram } from "./states.js";
import { sentenceOf } from "./words.js";

// The states of the path that was looked at last: { text, path, found }.
let looked = { text: null, path: null, found: undefined };

function statesOf(text) {
  if (looked.text !== text) {
    const path = new PathStates(now.calls, text);
    looked = { text, path, found: path.all() };
  }
  return looked;
}

// Shows the path that is chosen: its sentence, and its states if there are few.
export function showPath() {
  const path = now.declared.paths[now.path];
  [...$("paths").querySelectorAll("button")].forEach((it, i) => it.setAttribute("aria-pressed", i === now.path));
  $("states-part").hidden = !path;
  say("path-words", path ? `Path ${now.path}: ${escaped(sentenceOf(path.text))}` : "");
  if (path) showStates(path);
}

function showStates({ text }) {
  const { path, found } = statesOf(text);
  $("states-head").textContent = `Path ${now.path}: its states`;
  $("states").parentElement.hidden = !found;
  if (!found) return say("states-said", `There are more than ${MOST_DRAWN_STATES} states, so they aren't drawn.`);
  const { entries } = now.answered;
  const present = path.present(eventsIn(entries.slice(0, now.state.lines), now.declared.operations));
  const { width, height, svg } = stateDiagram(found, present);
  for (const [name, value] of Object.entries({ width, height, viewBox: `0 0 ${width} ${height}` })) $("states").setAttribute(name, value);
  const live = present === undefined ? "" : ` Now in progress of this path: ${liveInWords(found.states[present].live)}.`;
  if (say("states", svg)) $("states").setAttribute("aria-label", counted(found.states.length, "state"));
  say("states-said", `${counted(found.states.length, "state")}: above what is in progress, below what may begin next. `
    + `An arrow is a start, a dashed one a finish.${live}`);
}

// Chooses a path, by a click at it.
export function pathClicked({ target }) {
  const { path } = target.closest("button")?.dataset ?? {};
  if (path === undefined) return;
  now.path = Number(path);
  showPath();
}
