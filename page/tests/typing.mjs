// Typing and clicking: attempts, faults, and what is answered.
import { click, openPage, pause, press, start, until, value } from "./chromium.mjs";
import { caretInto, choose, field, holdTimers, items, lastReply, letTimersGo, marked, on, replies, same, shows, starts, text, typeAtEnd,
  write } from "./seen.mjs";

async function testTyping() {
  await choose("slot");
  await typeAtEnd("attempts", "3 start deposit\n");
  await shows("a typed attempt is answered", lastReply, "blocked 0");
  await shows("why", () => text("selected"),
    "Line 7, 3 start deposit: blocked 0. Path 0 of slot forbids that deposit starts now: deposit; remove.");
  await shows("the path is marked", () => marked("declaration"), [["path", "path deposit ; remove end"]]);
  await typeAtEnd("attempts", "3 start insert\n");
  await shows("an undeclared name is said", () => text("attempts-said"),
    "text: undeclared in line 8. 7 attempts: 2 started, 2 blocked, 2 used, 1 finished.");
  await shows("and marked", () => marked("attempts"), [["fault", "insert"]]);
  await shows("no step is offered", () => text("steps-said"), "First mend the line that is at fault.");
  await choose("slot");
  await value(`(it => { it.focus(); it.setSelectionRange(20, 20); })(document.getElementById("attempts"))`);
  await shows("the caret's line is explained", () => text("selected"),
    "Line 2, 2 start remove: blocked 0. Path 0 of slot forbids that remove starts now: deposit; remove.");
  await write("declaration", "resource r cell operation a\npath a ; b end end");
  await shows("a refused declaration", () => text("declaration-said"), "declaration: undeclared at 37 (line 2, column 10)");
  await shows("is marked", () => marked("declaration"), [["fault", "b"]]);
  await shows("nothing is answered", async () => [await replies(), await text("report"), await text("compiled")], [[], "", ""]);
  await value(`document.getElementById("audit").open = true`);
  await write("journal", "1 start a: started 0\n");
  await shows("and each part says why", async () =>
    [...new Set(await Promise.all(["attempts-said", "steps-said", "next", "semaphores", "journal-said"].map(text)))],
    ["First mend the declaration."]);
}

// A text at fault is judged after so many milliseconds without a keystroke.
const PAUSE = 1000;

async function testHalfTyped() {
  const layout = () => value(`["picture", "steps-said", "next"].map(it =>
    Math.round(document.getElementById(it).getBoundingClientRect().top + scrollY))`);
  const buttons = () => value(`document.querySelectorAll("#starts button, #live button").length`);
  const words = async () => [await text("declaration-said"), await text("attempts-said")];
  const seen = async () => [await layout(), await buttons(), await marked("attempts"), await words()];
  await choose("slot");
  const before = await seen();
  await holdTimers(PAUSE);
  await typeAtEnd("attempts", "1 fin");
  same("nothing moves while a line is typed, and nothing is judged", await seen(), before);
  await letTimersGo();
  await shows("after a pause it is", () => text("attempts-said"),
    "text: bad line 7. 6 attempts: 2 started, 1 blocked, 2 used, 1 finished.");
  same("and what is below stays", [await layout(), await buttons()], before.slice(0, 2));
  await choose("slot");
  await typeAtEnd("attempts", "1 fin");
  await value(`document.getElementById("attempts").blur()`);
  same("so it is once the text is left", (await text("attempts-said")).startsWith("text: bad line 7."), true);
  await choose("slot");
  await typeAtEnd("attempts", "1 fin");
  same("and once the caret is in another line", await value(`new Promise(done => {
    document.addEventListener("selectionchange", () => done(document.getElementById("attempts-said").textContent.split(".")[0]),
      { once: true });
    document.getElementById("attempts").setSelectionRange(0, 0);
  })`), "text: bad line 7");
  await choose("slot");
  await holdTimers(PAUSE);
  await typeAtEnd("declaration", "resource");
  same("the same for a declaration", await seen(), before);
  await letTimersGo();
  await shows("which is judged after a pause", () => text("declaration-said"), "declaration: unexpected at 83 (line 5, column 9)");
  await choose("slot");
  await typeAtEnd("declaration", "resource");
  await value(`document.getElementById("declaration").blur()`);
  same("or once it is left", await text("declaration-said"), "declaration: unexpected at 83 (line 5, column 9)");
}

async function testClicking() {
  await choose("slot");
  await write("attempts", "");
  await shows("nothing was attempted", () => text("attempts-said"), "0 attempts.");
  await shows("what can start", () => value(`[...document.querySelectorAll("#starts button")].map(it => [it.textContent, it.className])`),
    [["start deposit", ""], ["start remove path 0", "forbidden"]]);
  await click(`#starts [data-key="start remove"]`);
  const reason = "Path 0 of slot forbids that remove starts now: deposit; remove.";
  await shows("a forbidden start is attempted", () => field("attempts"), "1 start remove\n");
  await shows("and refused", replies, ["blocked 0"]);
  await shows("and says why", async () => (await text("steps-said")).trim(), reason);
  await shows("beside its line, too", async () => (await text("selected")).endsWith(reason), true);
  await shows("and marks the path", () => marked("declaration"), [["path", "path deposit ; remove end"]]);
  same("its cursor is that of a button", await value(`getComputedStyle(document.querySelector("#starts .forbidden")).cursor`), "pointer");
  await click(`#starts [data-key="start deposit"]`);
  await write("number", "42");
  await click(`#live [data-key="use 0 put"]`);
  await click(`#live [data-key="finish 0"]`);
  await click(`#workers [data-key="worker 2"]`);
  await until(`document.querySelector("#workers input:checked").value === "2"`);
  await click(`#starts [data-key="start remove"]`);
  await click(`#live [data-key="use 1 look"]`);
  await shows("clicked attempts", () => field("attempts"),
    "1 start remove\n1 start deposit\n1 use 0 put 42\n1 finish 0\n2 start remove\n2 use 1 look\n");
  same("with the caret behind them", await on("#attempts", "it.selectionStart === it.value.length"), true);
  await shows("their replies", replies, ["blocked 0", "started 0", "used 0", "finished", "started 1", "used 42"]);
  await write("number", "18446744073709551616");
  await click(`#live [data-key="use 1 put"]`);
  await shows("a number past 64 bits", () => text("steps-said"), "The number to put or add is 0 to 18446744073709551615.");
  await value(`document.querySelector('#live [data-key="finish 1"]').focus()`);
  await press("Enter");
  await shows("a key finishes", lastReply, "finished");
  await shows("the focus stays in reach", () => value(`document.activeElement.id`), "live");
  await write("attempts", "1 start deposit");
  await click(`#live [data-key="finish 0"]`);
  await shows("a line without a line feed gets one", () => field("attempts"), "1 start deposit\n1 finish 0\n");
  await choose("knot");
  await shows("a frozen system", () => text("steps-said"), "Nothing is live and nothing can start: nothing is ever admitted again.");
}

// What docs/page.md says to do first.
async function testManual() {
  await openPage();
  await caretInto(2);
  await shows("a refused attempt is explained", async () => [await text("selected"), await items("why"), await marked("declaration")],
    ["Line 2, 2 start remove: blocked 0. Path 0 of slot forbids that remove starts now: deposit; remove.",
      ["in progress: deposit (activation 0, worker 1); may begin next: nothing"], [["path", "path deposit ; remove end"]]]);
  await caretInto(7);
  await click(`#starts [data-key="start deposit"]`);
  await shows("at the end a start is refused", async () => [(await field("attempts")).split("\n").at(-2), await lastReply()],
    ["1 start deposit", "blocked 0"]);
  await click(`#live [data-key="finish 1"]`);
  await shows("the removal is finished", lastReply, "finished");
  await click(`#starts [data-key="start deposit"]`);
  await shows("and the start is admitted", lastReply, "started 2");
  await value(`document.getElementById("attempts").focus()`);
  await press("z", 2);
  await shows("Ctrl+Z takes an attempt back", lastReply, "finished");
}

async function testSlips() {
  const finish = `#live [data-key="finish 2"]`;
  const written = async () => (await field("attempts")).split("\n").slice(11, -1);
  await choose("philosophers");
  await click(finish, 2);
  await until(`now.answered.length >= 12`);
  same("a double click finishes one activation", await written(), ["4 finish 2"]);
  await choose("philosophers");
  await value(`document.querySelector('${finish}').focus()`);
  await press("Enter");
  await press("Enter");
  await until(`now.answered.length >= 12`);
  same("so does Enter twice", await written(), ["4 finish 2"]);
}

export const tests = [testTyping, testHalfTyped, testClicking, testManual, testSlips];
