// What screen readers have of the page.
import { click, openPage, value } from "./chromium.mjs";
import { choose, on, same, shows, spokenAs, text, write } from "./seen.mjs";

async function testNames() {
  await openPage("#example=slot");
  await shows("a button's name has its activation", () => spokenAs(`#live [data-key="finish 1"]`),
    ["button", "finish activation 1, remove"]);
  await choose("philosophers");
  const names = async () => {
    const all = await value(`[...document.querySelectorAll("#starts button, #live button")].map(it =>
      it.getAttribute("aria-label") ?? it.textContent)`);
    return [all.length, new Set(all).size];
  };
  await shows("no two buttons have the same", names, [11, 11]);
  await choose("slot");
  await shows("the list of examples has a name", () => spokenAs("#example"), ["combobox", "All examples"]);
  await shows("what can happen next has a name", () => spokenAs("#next"), ["region", "What can happen next"]);
  await shows("so have the semaphores", () => spokenAs("#semaphores"), ["region", "The semaphores"]);
  await shows("so have a path's states", async () => (await spokenAs("#states"))[1], "4 states");
  await value(`for (const it of document.querySelectorAll("details.raw")) it.open = true`);
  await shows("so has what the program writes",
    async () => [await spokenAs("#report"), await spokenAs("#compiled"), await spokenAs("#explained")], [
    ["region", "What can happen next, as the program writes it"], ["region", "The semaphores, as the program writes them"],
    ["region", "Why each attempt got its reply"]]);
  await shows("the slider says where it is", () => on("#moment", "it.getAttribute('aria-valuetext')"), "after line 6 of 6");
}

// How many live regions have changed by what an expression does.
const heardOf = expression => value(`new Promise(done => {
  const changed = new Set();
  const all = { childList: true, characterData: true, subtree: true };
  const observers = [...document.querySelectorAll("[role=status], [role=alert], [aria-live]")].map(it => {
    const observer = new MutationObserver(() => changed.add(it));
    observer.observe(it, all);
    return observer;
  });
  ${expression};
  setTimeout(() => {
    for (const it of observers) it.disconnect();
    done([...changed].map(it => it.textContent.trim()));
  }, 100);
})`);

async function testOnce() {
  await openPage("#example=slot");
  const start = `document.querySelector('#starts [data-key="start deposit"]').click()`;
  const heard = await heardOf(start);
  same("a click changes one live region", heard.length, 1);
  same("which says what came of it", heard[0].startsWith("Line 7, 1 start deposit: blocked 0. Path 0 of slot forbids"), true);
  same("and why", heard[0].includes("in progress: remove"), true);
  same("an example changes one, too", (await heardOf(`document.querySelector('[data-example="two_locks"]').click()`)).length, 1);
  same("what is shown again isn't said again", await heardOf("document.getElementById('print')"), []);
}

async function testInvalid() {
  await openPage("#example=slot");
  const invalid = () => value(`["declaration", "attempts", "journal", "script"].map(it =>
    document.getElementById(it).getAttribute("aria-invalid"))`);
  await shows("nothing is invalid at first", invalid, ["false", "false", "false", "false"]);
  await write("attempts", "1 start remvoe\n");
  await value(`document.activeElement.blur()`);
  await shows("attempts at fault are invalid", async () => (await invalid())[1], "true");
  await write("declaration", "resource");
  await value(`document.activeElement.blur()`);
  await shows("so is a declaration", async () => (await invalid())[0], "true");
  same("and what was expected describes it", await on("#declaration", `it.getAttribute("aria-describedby").split(" ").map(id =>
    document.getElementById(id).textContent !== "")`), [true, true]);
  await openPage("#example=till");
  await shows("a journal with a wrong line is invalid", async () => (await invalid())[2], "true");
  await value(`document.getElementById("schedules").open = true`);
  await write("script", "proces p\n");
  await click("#explore");
  await shows("so is a script at fault", async () => (await invalid())[3], "true");
  await shows("its words describe it", () => text("script-said"), "script: bad line 1");
}

export const tests = [testNames, testOnce, testInvalid];
