// What the page shows, and what it should.
import { readFileSync } from "node:fs";
import { dirname, join } from "node:path";
import { fileURLToPath } from "node:url";
import { awaited, send, until, value } from "./chromium.mjs";

export const counts = { passed: 0, failed: 0 };

export function same(what, is, wanted) {
  if (JSON.stringify(is) === JSON.stringify(wanted)) return counts.passed++;
  counts.failed++;
  console.log(`${what}: ${JSON.stringify(is)}, and not ${JSON.stringify(wanted)}`);
}

// Waits for what is wanted.
export async function shows(what, read, wanted) {
  same(what, await awaited(read, is => JSON.stringify(is) === JSON.stringify(wanted)), wanted);
}

// From now on the page waits for ever where it would wait so many milliseconds; once it is let go, it waits as long. What is looked at
// between comes before, however long that takes.
export const holdTimers = time => value(`(({ setTimeout: set, clearTimeout: clear }) => {
  const held = new Map();
  let last = 0;
  globalThis.setTimeout = (work, given) => given === ${time} ? (held.set(--last, work), last) : set(work, given);
  globalThis.clearTimeout = it => { if (!held.delete(it)) clear(it); };
  globalThis.letTimersGo = () => {
    Object.assign(globalThis, { setTimeout: set, clearTimeout: clear });
    for (const work of held.values()) set(work, ${time});
  };
})(globalThis)`);
export const letTimersGo = () => value("letTimersGo()");

const examplesFolder = join(dirname(fileURLToPath(import.meta.url)), "../../examples");
// A file of an example.
export const read = path => readFileSync(join(examplesFolder, path), "utf8");
export const examplePath = path => join(examplesFolder, path);

export const text = id => value(`document.getElementById("${id}").textContent`);
export const field = id => value(`document.getElementById("${id}").value`);
// An expression with an element as `it`.
export const on = (selector, expression) => value(`(it => ${expression})(document.querySelector(${JSON.stringify(selector)}))`);
export const items = id => value(`[...document.querySelectorAll("#${id} li")].map(it => it.textContent)`);
export const focused = () => value("document.activeElement.id");
export const focusOn = id => value(`document.getElementById("${id}").focus()`);

// The replies, in the program's words.
export const replies = () => value(`[...document.querySelectorAll("#attempts-sheet .replies [data-line]")].map(it =>
  it.textContent.slice(0, it.textContent.length - (it.querySelector("small")?.textContent.length ?? 0)).replace(/^line \\d+: /, ""))`);
export const lastReply = async () => (await replies()).at(-1);
export const marked = id => value(
  `[...document.querySelectorAll("#${id}-sheet mark, #${id}-sheet .marks div.fault")].map(it => [it.className, it.textContent])`);
export const starts = () => value(`[...document.querySelectorAll("#starts button")].map(it => it.textContent)`);
export const liveOnes = () => value(`[...document.querySelectorAll("#live span")].map(it => it.textContent)`);
export const momentSaid = () => text("moment-said");
// The cells of the tables in an element, row by row.
export const cells = id => value(
  `[...document.querySelectorAll("#${id} tbody tr")].map(row => [...row.cells].map(it => it.innerText.replaceAll("\\n", " / ")))`);

// Chooses a case in the list.
export const choose = name => value(`(it => {
  it.value = ${JSON.stringify(String(name))};
  it.dispatchEvent(new Event("change", { bubbles: true }));
})(document.getElementById("example"))`);
export const listedCases = () => value(`[...document.querySelectorAll("#example option")].map(it => it.textContent)`);
export const chosenCase = () => value(`document.getElementById("example").selectedOptions[0].textContent`);

export async function typeAtEnd(id, what) {
  await value(`(it => { it.focus(); it.setSelectionRange(it.value.length, it.value.length); })(document.getElementById("${id}"))`);
  const before = await field(id);
  await send("Input.insertText", { text: what });
  await until(`document.getElementById("${id}").value === ${JSON.stringify(before + what)}`);
}

export async function write(id, what) {
  await value(`(it => { it.focus(); it.select(); })(document.getElementById("${id}"))`);
  await send("Input.insertText", { text: what });
  await until(`document.getElementById("${id}").value === ${JSON.stringify(what)}`);
}

// Puts the caret into a line of the attempts, from 1.
export const caretInto = line => value(`(it => {
  it.focus();
  const at = now.sheets.attempts.lines.endOf(${line} - 1);
  it.setSelectionRange(at, at);
})(document.getElementById("attempts"))`);

// The name and the role of an element, for screen readers.
export async function spokenAs(selector) {
  const { root } = await send("DOM.getDocument");
  const { nodeId } = await send("DOM.querySelector", { nodeId: root.nodeId, selector });
  const { nodes } = await send("Accessibility.getPartialAXTree", { nodeId, fetchRelatives: false });
  return [nodes[0].role.value, nodes[0].name.value];
}
