// What is written is taken back and made again: by keys, buttons and the browser's own commands, whoever wrote it.
import { click, openPage, press, value } from "./chromium.mjs";
import { choose, field, focusOn, lastReply, read, replies, same, shows, typeAtEnd, write } from "./seen.mjs";

const SLOT = "#example=slot";
const texts = () => value(`["declaration", "attempts", "journal", "script"].map(it => document.getElementById(it).value)`);
const filesOf = name => ["declaration", "attempts", "journal", "script"].map(it => {
  try {
    return read(`${name}/${it}`);
  } catch {
    return "";
  }
});

async function testRedo() {
  await openPage(SLOT);
  await typeAtEnd("attempts", "1 start deposit\n");
  await click("#later");
  await choose("pool");
  await focusOn("attempts");
  await press("z", 2);
  await press("z", 10);
  await shows("redo brings an example's attempts back, with the first line", () => field("attempts"), read("pool/attempts"));
}

async function testOneStep() {
  await openPage(SLOT);
  await choose("till");
  await focusOn("attempts");
  await press("z", 2);
  await shows("an example is one step", texts, filesOf("slot"));
  await press("y", 2);
  await shows("and made again", texts, filesOf("till"));
}

async function testButtons() {
  await openPage(SLOT);
  same("at first nothing can be taken back", await value(`["undo", "redo"].map(it => document.getElementById(it)?.disabled)`),
    [true, true]);
  await click(`#live [data-key="finish 1"]`);
  await shows("a button writes", async () => [(await field("attempts")).split("\n").at(-2), await lastReply()], ["2 finish 1", "finished"]);
  await press("z", 2);
  await shows("Ctrl+Z takes it back with the focus at a button", () => field("attempts"), read("slot/attempts"));
  await click("#redo");
  await shows("a button makes it again", lastReply, "finished");
  await click("#undo");
  await shows("and takes it back", async () => [await field("attempts"), await lastReply()], [read("slot/attempts"), "used 7"]);
  await choose("pool");
  await click("#undo");
  await shows("also an example", texts, filesOf("slot"));
}

async function testTyped() {
  await openPage(SLOT);
  await write("attempts", "1 start deposit\n");
  await typeAtEnd("attempts", "1 finish 0\n");
  await press("z", 2);
  await shows("what was typed goes step by step", () => field("attempts"), "1 start deposit\n");
  await shows("and is answered", replies, ["started 0"]);
  await press("z", 2);
  await shows("to what was there", () => field("attempts"), read("slot/attempts"));
  await press("z", 2);
  await press("z", 10);
  await press("z", 10);
  await press("z", 10);
  await shows("and back", () => field("attempts"), "1 start deposit\n1 finish 0\n");
  // At one moment of the page's clock, however long it takes.
  await value(`(performance.now = () => 1e9, true)`);
  await typeAtEnd("attempts", "2");
  await typeAtEnd("attempts", " start");
  await value(`delete performance.now`);
  await press("z", 2);
  await shows("letters that follow each other are one step", () => field("attempts"), "1 start deposit\n1 finish 0\n");
  await value(`document.getElementById("number").focus()`);
  await write("number", "77");
  await press("z", 2);
  same("a field of its own keeps its own", await field("attempts"), "1 start deposit\n1 finish 0\n");
}

// A line goes in byte for byte wherever the caret is, and is taken back in one step.
async function testLines() {
  await openPage(SLOT);
  const wrong = await value(`(() => {
    const texts = ["", "\\n", "\\n\\n", "1 start remove", "1 start remove\\n", " a \\n\\t b\\n", "<b>&amp;\\u00a0\\n\\n"];
    const places = texts.flatMap(text => Array.from({ length: text.length + 1 }, (_, at) => [text, at]));
    const undo = () => document.dispatchEvent(new KeyboardEvent("keydown", { key: "z", ctrlKey: true }));
    return places.flatMap(([text, at]) => ["1 start deposit\\n", "\\n1 use 0 put 42", "1 <b>&amp;  x\\n"].flatMap(line => {
      write("attempts", 0, textOf("attempts").length, text);
      write("attempts", at, at, line);
      const written = $("attempts").value;
      undo();
      const left = $("attempts").value;
      return written === text.slice(0, at) + line + text.slice(at) && left === text ? [] : [[text, at, line, written, left]];
    }));
  })()`);
  same("a line is put in as it is", wrong, []);
}

async function testByTheBrowser() {
  await openPage(SLOT);
  await typeAtEnd("attempts", "1 start deposit\n");
  const undone = () => value(`(it => { it.focus(); document.execCommand("undo"); return it.value; })(document.getElementById("attempts"))`);
  same("the browser's own command does the same", await undone(), read("slot/attempts"));
  await shows("and all follows from it", lastReply, "used 7");
}

export const tests = [testRedo, testOneStep, testButtons, testTyped, testLines, testByTheBrowser];
