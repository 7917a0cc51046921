// The audit of a journal.
import { click, openPage, until, value } from "./chromium.mjs";
import { choose, field, on, read, same, shows, text, write } from "./seen.mjs";

async function testAudit() {
  await openPage("#example=till");
  await shows("the wrong line", () => text("journal-said"), "wrong line 4: 2 use 1 add 120: used 620");
  await shows("is marked", () => value(
    `[...document.querySelector("#journal-sheet .marks .rows").children].findIndex(it => it.className === "fault")`), 3);
  await choose("slot");
  await value(`document.getElementById("audit").open = true`);
  await click("#audit-trace");
  await shows("the trace is sound", () => text("journal-said"), "sound");
}

async function testNothingToAudit() {
  await openPage("#example=till");
  const journal = await field("journal");
  await value(`document.getElementById("audit-trace").click()`);
  same("where nothing is attempted, the journal stays", await field("journal"), journal);
}

// A journal of so many lines, which is sound, as a file that is dropped.
const dropped = lines => value(`(files => {
  let text = "";
  for (let i = 0; i < ${lines}; i += 2) text += "1 start sale: started " + i / 2 + "\\n1 finish " + i / 2 + ": finished\\n";
  files.items.add(new File([text], "long"));
  document.dispatchEvent(new DragEvent("drop", { dataTransfer: files, cancelable: true }));
  return text.length;
})(new DataTransfer())`);

// A journal that is kept beside its text area: the page shows its first lines, and a worker judges all of it.
async function testLong() {
  await openPage("#example=till");
  const began = Date.now();
  const length = await dropped(480000);
  await until(`/^sound/.test(document.getElementById("journal-said").textContent)`);
  console.log(`a journal of ${(length / 2 ** 20).toFixed(1)} MiB is opened and judged in ${((Date.now() - began) / 1000).toFixed(1)} s`);
  same("a long journal is judged", await text("journal-said"),
    "sound The first 1000 of 480000 lines are shown, and can't be changed here.");
  same("its first lines are shown", await on("#journal", "[it.value.split('\\n').length, it.readOnly]"), [1001, true]);
  await click("#undo");
  await shows("it is taken back like any other", async () => [await field("journal"), await on("#journal", "it.readOnly")],
    [read("till/journal"), false]);
}

// A journal that is typed and has many lines is judged by a worker, a little later.
async function testManyLines() {
  await openPage("#example=till");
  const lines = Array.from({ length: 3000 },
    (_, i) => i % 2 ? `1 finish ${(i - 1) / 2}: finished\\n` : `1 start sale: started ${i / 2}\\n`).join("");
  await value(`(it => { it.value = "${lines}"; it.dispatchEvent(new Event("input")); })(document.getElementById("journal"))`);
  same("at first it is said that it is judged", await text("journal-said"), "Judging ..");
  await shows("and then the verdict", () => text("journal-said"), "sound");
  await value(`(it => {
    it.value += "1 finish 9: finished\\n";
    it.dispatchEvent(new Event("input"));
  })(document.getElementById("journal"))`);
  await shows("of the lines that are there", () => text("journal-said"), "wrong line 3001: 1 finish 9: finished");
  await write("journal", "");
  await shows("and nothing of none", () => text("journal-said"), "");
}

export const tests = [testAudit, testNothingToAudit, testLong, testManyLines];
