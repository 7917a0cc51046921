// Elements of the page, and what is said in them.

import { escaped } from "./html.js";

// Up to so many lines all are drawn; of more, only those in view.
export const MOST_DRAWN = 2000;
// Of long lists beside the texts, so many are shown.
export const MOST_LISTED = 100;
// What stands where nothing can be said under a declaration that is refused.
export const FIRST_MEND = "First mend the declaration.";

/**
 * The element with this id.
 * @param {string} id
 * @returns {any}
 */
export const $ = id => document.getElementById(id);

const sayings = new Map();

// Says something in its place: HTML. Returns whether it is news there.
export function say(id, html) {
  if (sayings.get(id) === html) return false;
  sayings.set(id, html);
  $(id).innerHTML = html;
  return true;
}

// What is to be announced of all that an action changed, in turn.
let announcing = [];

// Has screen readers say what stands in these places, once all of an action is shown: one text for all of it.
export function announce(...ids) {
  if (announcing.length === 0) setTimeout(spoken, 0);
  announcing.push(...ids);
}

function spoken() {
  const texts = [...new Set(announcing)].map(id => $(id).textContent.trim()).filter(it => it);
  announcing = [];
  const text = texts.join(" ");
  if (text !== "" && $("announced").textContent !== text) $("announced").textContent = text;
}

// Says something in its place, and announces it if it is news.
export function tell(id, html) {
  if (say(id, html) && html !== "") announce(id);
}

// Fills an element anew. What had the focus in it has it again; if it is gone, the element itself, where no key does anything.
export function refill(element, html) {
  const key = element.contains(document.activeElement) ? /** @type {any} */ (document.activeElement).dataset.key : undefined;
  element.innerHTML = html;
  if (key === undefined) return;
  const again = [...element.querySelectorAll("[data-key]")].find(it => it.dataset.key === key);
  (again ?? element.querySelector("input, select") ?? element).focus();
}

// A text, or its first lines.
export function showLong(element, text) {
  const lines = text.split("\n", MOST_DRAWN + 1);
  element.textContent = lines.length > MOST_DRAWN ? lines.slice(0, MOST_DRAWN).join("\n") + "\n.. and more" : text;
}

// A choice of these { value, label }, as the options of a select.
export const optionsOf = (list, chosen) => list.map(({ value, label }) =>
  `<option value="${escaped(String(value))}"${String(value) === String(chosen) ? " selected" : ""}>${escaped(label)}</option>`).join("");
