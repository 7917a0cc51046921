// A path in words, and as a picture of its states.
import { click, openPage, value } from "./chromium.mjs";
import { choose, focused, on, same, shows, text } from "./seen.mjs";

const present = () => value(`[...document.querySelectorAll("#states .present text")].map(it => it.textContent)`);
const boxes = () => value(`document.querySelectorAll("#states .state").length`);

async function testWords() {
  await openPage("#example=slot");
  await shows("the path is said in words", () => text("path-words"), "Path 0: Deposit and remove take turns, deposit first.");
  await choose("pool");
  await shows("so is one with braces", () => text("path-words"), "Path 0: Either at most 3 query at once, or one backup alone.");
  await choose("philosophers");
  await shows("of several the one that forbids the last attempt",
    async () => [(await text("path-words")).slice(0, 6), await on("#paths .forbids", "it.textContent")],
    ["Path 3", "eat3, eat4"]);
  await click(`#paths [data-path="1"]`);
  await shows("or the one that is chosen", () => text("path-words"), "Path 1: One at a time of eat1 and eat2.");
  same("which is said of its button, which keeps the focus", await value(`[document.querySelector("#paths [aria-pressed=true]").textContent,
    document.activeElement.dataset.path]`), ["eat1, eat2", "1"]);
  same("and nothing else has it", await focused(), "");
}

async function testStates() {
  await openPage("#example=slot");
  await shows("its states are drawn", boxes, 4);
  await shows("with the present one marked", present, ["remove", "has to finish"]);
  await value(`(it => { it.value = 4; it.dispatchEvent(new Event("input")); })(document.getElementById("moment"))`);
  await shows("which is that of the moment", present, ["nothing", "next: remove"]);
  await choose("pool");
  await shows("a bound has a state for each number", boxes, 5);
  await choose("readers_and_writers");
  await shows("of too many states there is no picture",
    async () => [await on("#states", "it.checkVisibility()"), (await text("states-said")).slice(0, 17)],
    [false, "There are more th"]);
}

export const tests = [testWords, testStates];
