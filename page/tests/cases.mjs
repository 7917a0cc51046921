// Cases: examples, drafts, and the address.
import { existsSync } from "node:fs";
import { click, openPage, reload, size, until, value } from "./chromium.mjs";
import { caretInto, chosenCase, choose, examplePath, field, lastReply, listedCases, momentSaid, on, read, replies, same, shows, text,
  typeAtEnd, write } from "./seen.mjs";

// The verdict of an example, as the page says it: lines count from 1, and the journal's head is one.
const verdictOf = name => read(`${name}/verdict`).trim()
  .replace(/\d+$/, line => Number(line) + (read(`${name}/journal`).startsWith("journal ") ? 2 : 1));

async function testExamples() {
  const names = await value(`examples.map(it => it.name)`);
  for (const name of names) {
    await choose(name);
    const [trace, verdict] = await value(`[journalText(), $("journal-said").textContent]`);
    if (existsSync(examplePath(`${name}/trace`))) same(`${name}: trace`, trace, read(`${name}/trace`));
    if (["service", "till", "recorder"].includes(name)) same(`${name}: verdict`, verdict.startsWith(verdictOf(name)), true);
  }
  const captions = await value(`examples.map(it => it.shows)`);
  const missing = /\b(script|explain|explanation|stalled|next is|run)\b/;
  same("captions speak of what the page has", captions.filter(it => missing.test(it)), []);
  await choose("forks");
  await shows("each of the forks is wanted by the other", async () => (await replies()).slice(-2), ["blocked 1", "blocked 0"]);
  await choose("readers_and_writers");
  await shows("report", () => text("report"), read("readers_and_writers/report"));
  await shows("semaphores", () => text("compiled"), read("readers_and_writers/listing"));
}

async function testDrafts() {
  await openPage("#example=slot");
  await write("attempts", "1 start deposit\n");
  await shows("a changed example is marked", chosenCase, "slot, changed");
  same("nothing is listed but it and examples", (await listedCases()).length, await value("examples.length + 1"));
  await choose("pool");
  await shows("the changed one stays in the list", async () => (await listedCases())[0], "slot, changed");
  await shows("an example is itself", chosenCase, "pool");
  await choose("0");
  await shows("and comes back", async () => [await field("attempts"), (await field("declaration")).split("\n")[0], await chosenCase()],
    ["1 start deposit\n", "resource slot cell", "slot, changed"]);
  await typeAtEnd("attempts", "1 finish 0\n");
  await choose("knot");
  await shows("each draft stays", async () => (await listedCases()).slice(0, 2), ["slot, changed", "slot, changed (2)"]);
  await size(390, 600);
  await choose("pool");
  const moved = await value(`(() => {
    const top = () => document.getElementById("live").getBoundingClientRect().top;
    scrollTo(0, document.getElementById("live").offsetTop);
    const before = top();
    document.querySelector("#live button").click();
    return Math.abs(top() - before);
  })()`);
  same("the buttons stay where one is pressed", moved < 2, true);
  await size(1280, 1100);
}

async function testAddress() {
  await openPage();
  await choose("pool");
  await shows("an example in the address", () => value("location.hash"), "#example=pool");
  await typeAtEnd("attempts", "9 start backup\n");
  await until(`location.hash.includes("backup")`);
  const hash = await value("location.hash");
  const shown = [await field("declaration"), await field("attempts")];
  await openPage(hash);
  await shows("a case comes back from its address", async () => [await field("declaration"), await field("attempts")], shown);
  await shows("and is answered", async () => (await lastReply()).startsWith("blocked"), true);
  await write("declaration", "");
  await until(`location.hash.startsWith("#declaration=&attempts=")`);
  await reload();
  await shows("an emptied declaration comes back", async () => [await field("declaration"), await field("attempts")], ["", shown[1]]);
  await choose("pool");
  const long = `"1 start query\\n".repeat(3000)`;
  await value(`(it => { it.value = ${long}; it.dispatchEvent(new Event("input")); })(document.getElementById("attempts"))`);
  await shows("a long case has no link", () => text("link"), "Too long for a link");
  same("and the address names no other", await value("location.hash"), "");
  await reload();
  await shows("it comes back after a reload", async () => (await field("attempts")).length, 14 * 3000);
  await choose("slot");
  await reload();
  await shows("what was chosen just now does, too", () => field("example"), "slot");
}

async function testMoments() {
  await openPage();
  await shows("the page begins before the first line of its first example", async () => [await chosenCase(), await momentSaid()],
    ["slot", "before line 1"]);
  await openPage("#example=pool");
  await caretInto(4);
  await until(`location.hash.includes("line=4")`);
  await openPage(await value("location.hash"));
  await shows("an address has the moment", async () => [await chosenCase(), await momentSaid()], ["pool", "after line 4 of 12"]);
  await click("#later");
  await click("#link");
  await shows("which the link that is copied has, too", () => value("location.hash"), "#example=pool&line=5");
  await openPage("#example=pool&line=0");
  await shows("before the first line, too", momentSaid, "before line 1");
  await openPage("#example=pool&line=4000");
  await shows("or the last there is", momentSaid, "after line 12 of 12");
}

async function testUnknown() {
  await openPage("#example=unknown");
  await shows("an example that isn't there is said",
    async () => [await field("example"), (await text("files-said")).includes("unknown")], ["slot", true]);
  same("where it is heard, too", await on("[role=status]", `it.textContent.includes("There is no example unknown")`), true);
}

export const tests = [testExamples, testDrafts, testAddress, testMoments, testUnknown];
