// Where a text is at fault: the places are those that the program says.
import { awaited, openPage, value } from "./chromium.mjs";
import { focusOn, items, marked, on, same, shows, text, typeAtEnd, write } from "./seen.mjs";

const leave = () => value(`document.activeElement.blur()`);
// The line that is marked as a whole, from 0.
const markedLine = id => value(
  `[...document.querySelector("#${id}-sheet .marks .rows").children].findIndex(it => it.className === "fault")`);

async function testDeclarations() {
  await openPage("#example=slot");
  await write("declaration", "resource r cell\noperation a\n\n\n");
  await leave();
  await shows("behind line feeds the end of the text is where its last word ends", () => text("declaration-said"),
    "declaration: unexpected at 30 (line 2, column 12)");
  await write("declaration", "resource r cell operation a path 😀 end end");
  await leave();
  await shows("a sign of several bytes is marked as a whole", () => marked("declaration"), [["fault", "😀"]]);
  await shows("what was expected is said", async () => (await items("declaration-why"))[0], "no token begins with this");
}

async function testAttempts() {
  await openPage("#example=slot");
  await write("attempts", "1 start deposit\n1 start start\n1 start depost\n");
  await leave();
  await shows("the name at fault is marked", () => marked("attempts"), [["fault", "start"]]);
}

async function testScripts() {
  await openPage("#example=slot");
  await value(`document.getElementById("schedules").open = true`);
  for (const [script, line] of [["process p\nenter deposit\n", 2], ["process p\nenter deposit", 1],
    ["process p\nenter deposit\nleave\n", 3]]) {
    await write("script", script);
    await value(`document.getElementById("explore").click()`);
    await shows(`a script that lacks its end is marked there: ${JSON.stringify(script)}`, () => markedLine("script"), line);
  }
}

// A line that is at fault is named, also if the slider leaves it at once.
async function testLeft() {
  await openPage("#example=slot");
  await typeAtEnd("attempts", "1 fin");
  await on("#moment", `(it.value = 1, it.dispatchEvent(new Event("input")))`);
  same("a fault that is typed and left is named", await awaited(() => text("attempts-said"), it => it.startsWith("text: bad line 7.")),
    "text: bad line 7. 6 attempts: 2 started, 1 blocked, 2 used, 1 finished.");
  await focusOn("attempts");
}

export const tests = [testDeclarations, testAttempts, testScripts, testLeft];
