// The moment that is shown: its picture, buttons and tables.
import { click, openPage, press, send, size, value } from "./chromium.mjs";
import { caretInto, cells, choose, field, items, lastReply, liveOnes, marked, momentSaid, on, read, replies, same, shows, starts, text,
  write } from "./seen.mjs";

async function testPicture() {
  await choose("philosophers");
  const [runs, ticks] = await value(`["bar", "tick"].map(it => document.querySelectorAll("#picture ." + it).length)`);
  const trace = read("philosophers/trace");
  same("a bar for each start", runs, trace.match(/: started/g).length);
  same("a tick for each refused start", ticks, trace.match(/: blocked/g).length);
  same("in words", (await value(`[...document.querySelectorAll("#spoken li")].map(it => it.textContent)`))[0],
    "Worker 0: eat0 in lines 1 to 6.");
  const file = `new DOMParser().parseFromString(pictureNow().replace(/<style>[^]*<.style>/, ""), "image/svg+xml")`;
  await shows("its file is one", () => value(`${file}.querySelector("parsererror") === null`), true);
  same("with the same bars", await value(`${file}.querySelectorAll(".bar").length`), runs);
}

// The numbers beside the lines of a text.
const numbersOf = id => value(`[...document.querySelectorAll("#${id}-sheet .numbers .rows div")].map(it => it.textContent).join(" ")`);

async function testNumbers() {
  await choose("slot");
  await shows("the lines of a declaration have numbers", () => numbersOf("declaration"), "1 2 3 4 5");
  await choose("recorder");
  await shows("the lines of a journal count from its head", async () => (await numbersOf("journal")).slice(0, 5), "1 2 3");
  await choose("philosophers");
  await shows("lines count from 1 in the picture, too", () => on("#picture .axis", "it.textContent"), "1");
  await write("attempts", "4294967295 start eat0\n".repeat(40) + "7 start #99\n");
  await shows("the last reply", lastReply, "unknown operation");
  await size(390, 900);
  await shows("a reply fits into its column on a phone", () => on("#attempts-sheet .replies", "it.scrollWidth <= it.clientWidth"), true);
  const fits = "it.getBBox().x + it.getBBox().width <= it.ownerSVGElement.width.baseVal.value";
  await shows("a worker's long number fits beside the picture", () => on("#picture .labels text:last-child", fits), true);
  await size(1280, 1100);
}

async function testScrolling() {
  await choose("philosophers");
  await write("attempts", "1 start eat0\n".repeat(40));
  const at = await on("#attempts-sheet .replies", `(it.scrollIntoView({ block: "center" }),
    (({ x, y }) => ({ x: x + 9, y: y + 40 }))(it.getBoundingClientRect()))`);
  await on("#attempts", "it.scrollTop = 0");
  const y = await value("scrollY");
  await send("Input.dispatchMouseEvent", { type: "mouseWheel", ...at, deltaX: 0, deltaY: 100 });
  await shows("the wheel over the replies scrolls them", () => on("#attempts", "it.scrollTop > 50"), true);
  same("and not the page", await value("scrollY"), y);
  await choose("slot");
  await choose(await value("drafts.length - 1"));
  const isSeen = `it.getBoundingClientRect().bottom <= it.closest(".sheet").getBoundingClientRect().bottom`;
  await shows("the line that is explained is in view", () => on("#attempts-sheet .at", isSeen), true);
  const saved = () => value(`["declaration", "attempts", "journal", "script", "picture"].filter(it =>
    !document.getElementById("save-" + it).disabled)`);
  await shows("what is there can be saved", saved, ["declaration", "attempts", "journal", "script", "picture"]);
  await value(`document.getElementById("schedules").open = true`);
  await write("script", "");
  await write("attempts", "");
  await write("declaration", "");
  await shows("nothing is no file", saved, []);
}

async function testWorkers() {
  await choose("philosophers");
  await click(`#workers [data-key="worker 4"]`);
  await choose("knot");
  await choose("philosophers");
  await shows("another example has a worker of its own", () => on("#workers input:checked", "it.value"), "0");
  await write("attempts", Array.from({ length: 30 }, (_, i) => `${i} start eat0\n`).join(""));
  await shows("many workers are a list",
    () => value(`["input", "option"].map(it => document.querySelectorAll("#workers " + it).length)`), [0, 31]);
  await on("#workers select", `(it.focus(), it.value = "17", it.dispatchEvent(new Event("change", { bubbles: true })))`);
  await shows("an option is picked", () => on("#workers select", "[it.value, it === document.activeElement]"), ["17", true]);
  await click(`#starts [data-key="start eat2"]`);
  await shows("of which one is chosen", async () => (await field("attempts")).trim().split("\n").at(-1), "17 start eat2");
}

// After how many lines the picture has its mark.
const markedMoment = () => on("#picture .now", "Number(it.getAttribute('x1')) / stepNow()");

async function testMoment() {
  await choose("pool");
  await shows("at first all lines are answered", () => text("moment-said"), "after line 12 of 12");
  await caretInto(4);
  await shows("the caret's line is the moment", () => text("moment-said"), "after line 4 of 12");
  await shows("what can start then", starts, ["start query path 0", "start backup path 0"]);
  await shows("what is live then", liveOnes, [0, 1, 2].map(it => `activation ${it}: query, worker ${it + 1}`));
  await shows("the path that forbids it is marked", () => marked("declaration"), [["path", "path { query : 3 } , backup end"]]);
  await shows("the report is that of the lines so far", () => text("report"),
    "startable\nblocked query 0\nblocked backup 0\nlive 0 1 query\nlive 1 2 query\nlive 2 3 query\nfrozen no\n");
  await shows("the picture is marked there", markedMoment, 4);
  await on("#moment", `(it.focus(), it.value = 1, it.dispatchEvent(new Event("input")))`);
  await shows("the slider goes to a moment", () => text("selected"),
    "Line 1, 1 start query: started 0. Worker 1 has started query: activation 0.");
  await shows("with its state", async () => [await starts(), await liveOnes(), await markedMoment()],
    [["start query", "start backup path 0"], ["activation 0: query, worker 1"], 1]);
  same("and keeps the focus", await value("document.activeElement.id"), "moment");
  await click("#earlier");
  await shows("before the first line nothing is live", async () => [await text("moment-said"), await starts(), await liveOnes()],
    ["before line 1", ["start query", "start backup"], []]);
  await click("#later");
  await shows("one line later", () => text("moment-said"), "after line 1 of 12");
  const bar = `#picture g[data-line="6"]`;
  await click(bar + " rect");
  await shows("a click on a bar goes to its start", () => text("selected"),
    "Line 7, 4 start query: started 3. Worker 4 has started query: activation 3.");
  await click(bar + " rect");
  await shows("another one to its finish", () => text("selected"), "Line 10, 4 finish 3: finished. Activation 3 has ended.");
  await click(`#picture g[data-line="4"] .path`);
  await shows("a click on a tick goes to its line", () => text("moment-said"), "after line 5 of 12");
  await value(`document.getElementById("picture").focus()`);
  for (const [key, line] of [["ArrowLeft", 4], ["ArrowRight", 5], ["End", 12], ["ArrowLeft", 11]]) {
    await press(key);
    await shows(`${key} in the picture`, () => text("moment-said"), `after line ${line} of 12`);
  }
  await press("Home");
  await shows("Home in the picture", () => text("moment-said"), "before line 1");
  await value(`document.getElementById("moment").focus()`);
  for (const [key, line] of [["ArrowRight", 1], ["ArrowUp", 2], ["ArrowLeft", 1]]) {
    await press(key);
    await shows(`${key} at the slider`, () => text("moment-said"), `after line ${line} of 12`);
  }
  await click(`#attempts-sheet .replies [data-line="0"]`);
  await shows("a click on a reply goes to its line", () => text("moment-said"), "after line 1 of 12");
  await click(`#starts [data-key="start query"]`);
  await shows("an attempt is written at the moment", async () => (await field("attempts")).split("\n").slice(0, 3),
    ["1 start query", "1 start query", "2 start query"]);
  await shows("which goes on by a line", () => text("moment-said"), "after line 2 of 13");
  await press("z", 2);
  await shows("and Ctrl+Z takes it back", () => field("attempts"), read("pool/attempts"));
  await write("attempts", "");
  await shows("without lines there is no moment to choose", () => text("moment-said"), "no line yet");
}

async function testTables() {
  await choose("readers_and_writers");
  await shows("what can happen next is a table", () => cells("next"),
    [["read", "blocked", "path 0: { read }, write"], ["write", "blocked", "path 0: { read }, write"], ["2", "write", "3", "7"],
      ["book", "no"]]);
  await shows("so are the semaphores", () => cells("semaphores"), [
    ["read", "PP(c0,P(s0)) / adds 1 to c0; the first in takes 1 from s0", "VV(c0,V(s0)) / takes 1 from c0; the last out gives 1 to s0"],
    ["write", "P(s0) / takes 1 from s0", "V(s0) / gives 1 to s0"]]);
  await shows("with what was trimmed", () => on("#semaphores .faint", "it.textContent"),
    "semaphore s0 opens with 1, counter c0 opens with 0; trimmed: m0");
  await choose("slot");
  await shows("where nothing is trimmed they stand there once", () => cells("semaphores"), [
    ["deposit", "P(s0) / takes 1 from s0", "V(s1) / gives 1 to s1"], ["remove", "P(s1) / takes 1 from s1", "V(s0) / gives 1 to s0"]]);
  await shows("what the program writes is closed", () => value(`document.querySelectorAll("details.raw[open]").length`), 0);
  await choose("readers_and_writers");
  await caretInto(1);
  await shows("the table is that of the moment", () => cells("next"),
    [["read", "can start", ""], ["write", "blocked", "path 0: { read }, write"], ["0", "read", "1", "1"], ["book", "no"]]);
  await choose("knot");
  await shows("nothing can happen any more", () => items("verdict"),
    ["Nothing is live and nothing can start: nothing is ever admitted again."]);
  await write("declaration", "resource r cell operation a, b path a, b end path a, b end path { a } end end");
  await shows("a path that says the same as another",
    () => value(`[...document.querySelectorAll("#semaphores h3, #semaphores h3 + p")].map(it => it.textContent)`),
    ["Path 0 of r: a, b", "semaphore s0 opens with 1", "Path 1 of r: a, b", "It says the same as path 0, which is asked first.",
      "Path 2 of r: { a }", "trimmed: s2, c0, m0"]);
}

async function testWhy() {
  await choose("slot");
  await caretInto(2);
  await shows("why a start is refused", () => items("why"), ["in progress: deposit (activation 0, worker 1); may begin next: nothing"]);
  await caretInto(3);
  await shows("of what isn't refused nothing is said", () => items("why"), []);
  await shows("a resource isn't stuck", async () => (await cells("next")).at(-1), ["slot", "no"]);
  await choose("knot");
  await shows("or it is", async () => (await cells("next")).at(-1),
    ["r", "yes, nothing of it is live, and none of its operations can start"]);
  await choose("two_locks");
  await shows("who waits for whom", () => value(`[...document.querySelectorAll("#next .why li")].map(it => it.textContent)`),
    ["worker 1 holds left and was refused right", "worker 2 holds right and was refused left",
      "none of these starts before something finishes"]);
  await caretInto(3);
  await shows("before that nobody did", () => value(`document.querySelectorAll("#next .why li").length`), 0);
  await click("#explaining summary");
  await shows("why, line by line", () => text("explained"), read("two_locks/explained").split("\n").slice(0, 5).join("\n"));
  await click("#explaining summary");
  await choose("visitors");
  await caretInto(4);
  await shows("why it is another's", () => items("why"), ["activation 1 is worker 1's: write"]);
  await choose("slot");
  await write("attempts", "1 start deposit\n1 start remvoe\n");
  await value(`document.getElementById("attempts").blur()`);
  await shows("what was expected, and the likely name", () => items("why"),
    ["this isn't a declared operation", "expected the name of a declared operation", "nearest name: remove"]);
  await shows("of the line at fault", () => text("selected"), "Line 2, 1 start remvoe: undeclared.");
  await caretInto(1);
  await shows("above the fault there is none", () => items("why"), []);
  await write("declaration", "resource slot cell operation deposit, remove path deposit ; remvoe end end");
  await value(`document.getElementById("declaration").blur()`);
  await shows("what was expected in a declaration", () => items("declaration-why"),
    ["this isn't an operation of the path's resource", "expected an operation that the resource declares", "nearest name: remove"]);
  await choose("till");
  await shows("what was owed to a wrong line", () => items("journal-why"),
    ["owed: used 420", "till: can start: sale; blocked: count by path 0; "
      + "live: sale (activation 0, worker 1), sale (activation 1, worker 2); "
      + "stuck for ever: no"]);
  await write("journal", "1 start sale\n");
  await shows("what was expected in a journal", () => items("journal-why"), ["this line can't be read", "expected `: ` and the reply"]);
}

// The picture goes with the moment, and what is left of the view keeps its name.
async function testFollowing() {
  await openPage("#example=slot");
  await write("attempts", "1 start deposit\n" + "2 start remove\n".repeat(79));
  const mark = `#picture .now`;
  const isInView = () => on(mark, `(({ left }) => {
    const { left: from, right } = document.getElementById("picture").getBoundingClientRect();
    return left > from && left < right;
  })(it.getBoundingClientRect())`);
  await shows("the end of a long picture is in view", isInView, true);
  await click(`#starts [data-key="start remove"]`);
  await shows("and what a button writes", async () => [await momentSaid(), await isInView()], ["after line 81 of 81", true]);
  const name = `(({ left, right }) => {
    const { left: from, right: to } = document.getElementById("picture").getBoundingClientRect();
    return left >= from && right <= to;
  })(document.querySelector("#picture .name").getBoundingClientRect())`;
  await shows("a bar that began left of the view has its name in view", () => value(name), true);
  await caretInto(3);
  await shows("it follows the caret", async () => [await momentSaid(), await isInView()], ["after line 3 of 81", true]);
}

async function testVerdict() {
  await openPage("#example=two_locks");
  await shows("a deadlock is said above the picture", () => items("verdict"),
    ["Deadlock: all that is live waits. worker 1 holds left and was refused right; "
    + "worker 2 holds right and was refused left; none of these starts before something finishes."]);
  await caretInto(2);
  await shows("where there is one", () => items("verdict"), []);
}

async function testExplained() {
  await openPage("#example=slot");
  const more = () => value(`[...document.querySelectorAll("#attempts-sheet .replies small")].map(it => it.textContent.trim())`);
  await shows("a reply's number is explained beside it", more, ["activation 0", "by path 0", "activation 1"]);
  await value(`(it => { it.value = 0; it.dispatchEvent(new Event("input")); })(document.getElementById("moment"))`);
  await shows("why a button's start would be refused is said below it", () => text("steps-said"),
    "Path 0 of slot forbids that remove starts now: deposit; remove.");
}

// A button whose attempt is the next line goes on to it, and writes nothing.
async function testGoingOn() {
  await openPage();
  const before = await field("attempts");
  await click(`#starts [data-key="start deposit"]`);
  await shows("what is attempted next anyway is gone on to", async () => [await momentSaid(), await field("attempts") === before],
    ["after line 1 of 6", true]);
  await click(`#starts [data-key="start deposit"]`);
  await shows("what isn't is written", async () => [await momentSaid(), (await field("attempts")).split("\n")[1]],
    ["after line 2 of 7", "1 start deposit"]);
}

export const tests = [testPicture, testNumbers, testScrolling, testWorkers, testMoment, testTables, testWhy, testFollowing, testVerdict,
  testExplained, testGoingOn];
