// Every schedule of a script.
import { click, openPage, press, size, until, value } from "./chromium.mjs";
import { caretInto, choose, field, focused, holdTimers, items, lastReply, letTimersGo, liveOnes, momentSaid, on, read, replies, same, shows,
  spokenAs, text, typeAtEnd, write } from "./seen.mjs";

// Milliseconds from one step that is played to the next.
const BEAT = 900;

// What is said of the schedules of a script, and the items below it.
const explored = async () => [await text("script-said"), await items("script-why")];

async function testSchedules() {
  await choose("crosswise");
  await shows("an example without attempts has its script open",
    async () => [await on("#schedules", "it.open"), await field("script"), await field("attempts")],
    [true, read("crosswise/script"), ""]);
  await shows("which begins in view", () =>
    value(`["declaration", "script"].map(it => [document.getElementById(it).scrollTop, document.getElementById(it).selectionStart])`),
    [[0, 0], [0, 0]]);
  await shows("nothing can be played", () => on("#play", "it.disabled"), true);
  await value(`document.getElementById("explore").focus()`);
  await press("Enter");
  const stall = ["A schedule stalls after 2 steps, and none sooner. It is under Attempts now.",
    ["sale: stalled hold_till", "refund: stalled hold_ledger"]];
  await shows("a key explores", explored, stall);
  await shows("the schedule is under the attempts", () => field("attempts"),
    "0 start hold_ledger\n1 start hold_till\n0 start hold_till\n1 start hold_ledger\n");
  await shows("and answered", replies, ["started 0", "started 1", "blocked 1", "blocked 0"]);
  await shows("at its end is the stall",
    async () => [await momentSaid(), await value(`document.querySelectorAll("#next .why li").length`)], ["after line 4 of 4", 3]);
  same("the focus stays", await value("document.activeElement.id"), "explore");
  await value(`(it => {
    window.moments = [];
    new MutationObserver(() => moments.push(it.textContent)).observe(it, { childList: true });
  })($("moment-said"))`);
  await click("#play");
  await until("!isPlaying() && now.state.lines === 4");
  same("it is played from the beginning, step by step", await value("moments.filter((it, i) => it !== moments[i - 1])"),
    ["before line 1", ...[1, 2, 3, 4].map(it => `after line ${it} of 4`)]);
  await holdTimers(BEAT);
  await click("#play");
  await until("isPlaying()");
  same("until it is stopped", await text("play"), "Stop");
  await value(`document.getElementById("play").focus()`);
  await press("Enter");
  same("a key stops it", [await value("isPlaying()"), await text("play")], [false, "Play"]);
  await letTimersGo();
  await click("#play");
  await until("now.state.lines > 0");
  await click("#earlier");
  await until("!isPlaying()");
  same("another moment stops it, too", [await text("play"), await value("now.state.lines < 4")], ["Play", true]);
  await press("z", 2);
  await shows("what was written is taken back", () => field("attempts"), "");
  await shows("and then nothing can be played", async () => [await on("#play", "it.disabled"), await text("script-said")],
    [true, "A schedule stalls after 2 steps, and none sooner."]);
  await typeAtEnd("script", "process third\n");
  await shows("of another script nothing is known", explored, ["", []]);
}

// What is said of every order of the declaration, and the items below it.
const reached = async () => [await text("histories-said"), await items("histories-why")];

async function testHistories() {
  await choose("slot");
  await click("#histories summary");
  await value(`document.getElementById("reach").focus()`);
  await press("Enter");
  await shows("every order of a declaration", reached, ["Every operation begins somewhere, and the resources never all freeze: 4 states.", []]);
  same("nothing is to be watched", await on("#watch-freeze", "it.hidden"), true);
  await write("declaration", "resource r cell operation a, b, c path a , b end path b ; c end path c ; b end end");
  await shows("of another declaration nothing is known", reached, ["", []]);
  await click("#reach");
  await shows("what never begins", reached, ["2 operations never begin, whatever came before: 2 states.", ["b", "c"]]);
  await write("declaration", "resource r cell operation a, b, c path a ; (b , c) end path b ; c end path c ; b end end");
  await click("#reach");
  await shows("where the paths freeze", reached,
    ["The paths freeze after 2 steps, and never sooner: nothing is in progress then, and nothing may begin.", ["0 start a", "0 finish 0"]]);
  await click("#watch-freeze");
  await until("!isPlaying() && now.state.lines === 2");
  await shows("is played under the attempts", async () => [await field("attempts"), await replies()], ["0 start a\n0 finish 0\n", ["started 0", "finished"]]);
  await value(`(document.getElementById("at-once").value = "1", document.getElementById("at-once").dispatchEvent(new Event("change")))`);
  await shows("of another number of workers nothing is known", reached, ["", []]);
}

async function testManySchedules() {
  await choose("one_by_one");
  await click("#explore");
  await shows("five philosophers stall after five steps",
    async () => [(await text("script-said")).split(",")[0], (await replies()).length], ["A schedule stalls after 5 steps", 10]);
  await choose("other_first");
  await click("#explore");
  await shows("one takes the other fork first", explored,
    ["No schedule stalls, and in none is a step refused: 1424 states. One of them is under Attempts now.", []]);
  await shows("of which one is shown, and all end",
    async () => [(await liveOnes()).length, (await replies()).filter(it => it === "finished").length], [0, 10]);
  await choose("slot");
  await shows("an example without a script has it closed", () => on("#schedules", "it.open"), false);
  await click("#schedules summary");
  await write("script", "process p\nenter remove\nleave\nend\n");
  await click("#explore");
  await shows("what stood under the attempts is kept", async () => [await text("script-said"), await value("drafts.at(-1)?.attempts")],
    ["A schedule stalls after 0 steps, and none sooner. It is under Attempts now.", read("slot/attempts")]);
  await write("script", "process p\nenter deposit\nuse take\nleave\nend\n");
  await click("#explore");
  await shows("a step that is refused", explored,
    ["A schedule has a step refused after 1 step, and none goes wrong sooner. It is under Attempts now.", ["p: faulted not offered"]]);
  await shows("is the last line", replies, ["started 0", "not offered"]);
  await write("script", "process p\nenter remvoe\nleave\nend\n");
  await click("#explore");
  await shows("a script at fault", explored, ["script: undeclared in line 2",
    ["this isn't a declared operation", "expected the name of a declared operation", "nearest name: remove"]]);
  await shows("is marked", () => value(
    `[...document.querySelector("#script-sheet .marks .rows").children].findIndex(it => it.className === "fault")`), 1);
  await write("declaration", "resource");
  await value(`document.getElementById("declaration").blur()`);
  await click("#explore");
  await shows("a declaration at fault comes first", () => text("script-said"), "First mend the declaration.");
  await write("declaration", "resource r cell operation a end");
  await write("script", Array.from({ length: 9 }, (_, i) => `process p${i}\n${"enter a\nleave\n".repeat(10)}end\n`).join(""));
  await click("#explore");
  await until(`document.getElementById("script-said").textContent.startsWith("More than 20000 states")`);
  await write("attempts", "1 start a\n");
  await shows("the page goes on meanwhile", lastReply, "started 0");
  await click("#explore");
  await shows("until it is stopped", async () => /^Stopped: more than \d+ states were looked at/.test(await text("script-said")), true);
  same("and may begin again", await text("explore"), "Explore");
}

async function testScriptsElsewhere() {
  await choose("crosswise");
  await typeAtEnd("script", "process third\nend\n");
  await until(`location.hash.includes("third")`);
  const hash = await value("location.hash");
  await openPage(hash);
  await shows("a script comes back from its address", async () => [await field("script"), await on("#schedules", "it.open")],
    [read("crosswise/script") + "process third\nend\n", true]);
  await shows("its text area has a name", () => spokenAs("#script"),
    ["textbox", "A script: processes, each with its steps in order. Is there an order of all their steps in which they get stuck?"]);
  await click("#explore");
  await shows("the buttons have names", async () => [await spokenAs("#explore"), await spokenAs("#play")],
    [["button", "Explore"], ["button", "Play"]]);
  await until(`document.getElementById("script-said").textContent.startsWith("A schedule stalls")`);
  await size(390, 900);
  await shows("nothing is wider than a narrow window", () => value("document.documentElement.scrollWidth <= 390"), true);
  await shows("a process's line is whole there", () => on("#script-why li", "it.getBoundingClientRect().right <= 390"), true);
  await size(1280, 1100);
  await openPage();
}

async function testNames() {
  await openPage("#example=crosswise");
  await click("#explore");
  const labels = () => value(`[...document.querySelectorAll("#picture .labels text")].map(it => it.textContent)`);
  await shows("the lanes of a schedule are its processes", labels, ["sale", "refund"]);
  await shows("so are the workers", () => value(`[...document.querySelectorAll("#workers label")].map(it => it.textContent.trim())`),
    ["sale", "refund", "2"]);
  await caretInto(1);
  await shows("and who does what", () => text("selected"),
    "Line 1, 0 start hold_ledger: started 0. sale has started hold_ledger: activation 0.");
  await shows("the picture says so in words", async () => (await items("spoken"))[0],
    "Sale: hold_ledger live since line 1, hold_till blocked by path 1 in line 3.");
  await write("attempts", "0 start hold_ledger\n");
  await shows("other attempts have workers", labels, ["worker 0"]);
}

async function testEmpty() {
  await openPage("#example=slot");
  await on("#schedules", "(it.open = true)");
  await click("#explore");
  await shows("an empty script is said to be empty", () => text("script-said"), "The script is empty: no process is in it.");
}

async function testWatching() {
  await size(1280, 720);
  await openPage("#example=crosswise");
  await click("#explore");
  await until(`!document.getElementById("watch").hidden`);
  await click("#watch");
  await until("isPlaying()");
  const inView = id => on(id, "(({ top, bottom }) => top >= 0 && bottom <= innerHeight)(it.getBoundingClientRect())");
  await shows("while it plays, what stops it is in view, with the picture",
    async () => [await inView("#play"), await inView("#picture"), await focused()],
    [true, true, "play"]);
  await press("Enter");
  await until("!isPlaying()");
  await size(1280, 1100);
}

export const tests = [testSchedules, testManySchedules, testHistories, testScriptsElsewhere, testNames, testEmpty, testWatching];
