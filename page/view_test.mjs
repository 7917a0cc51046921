// Drives the page of `wanzoche view` in headless Chromium: node view_test.mjs FOLDER PICTURES
// A store is made in the folder. Whatever waits, waits for what it wants to see.
import { spawn } from "node:child_process";
import { appendFileSync, writeFileSync } from "node:fs";
import { createServer } from "node:http";
import { join } from "node:path";
import { awaited, complaints, press, requests, send, shoot, size, start, stop, until, value, visit } from "./tests/chromium.mjs";
import { counts, on, same, shows, spokenAs, text } from "./tests/seen.mjs";

const [folder, pictures] = process.argv.slice(2);
const store = join(folder, "door.log");
const declaration = join(folder, "door.path");
writeFileSync(declaration, `resource door cell operation pass path pass end end
resource book cell operation read, write path { read } , write end end
`);

const running = new Set();
function wanzoche(...words) {
  const it = spawn("python3", ["-m", "wanzoche", words[0], "--store", store, ...words.slice(1)], { stdio: ["pipe", "pipe", "inherit"] });
  it.ended = new Promise(done => it.once("exit", done));
  it.said = "";
  it.stdout.on("data", part => { it.said += part; });
  running.add(it);
  it.once("exit", () => running.delete(it));
  return it;
}
// Has an operation in progress until it is let go.
const holds = (operation, ...words) =>
  wanzoche("exec", "--declaration", declaration, "--no-sync", operation, "--", "sh", "-c", "echo begun; read line", ...words);
const begun = it => awaited(() => it.said, said => said.includes("begun"));
const lets = async it => { it.stdin.end(); await it.ended; };

const rows = id => value(`[...document.querySelectorAll("#${id} tbody tr")].map(row => [...row.cells].map(it => it.textContent))`);
const columns = async (id, ...which) => (await rows(id)).map(row => which.map(it => row[it]));
const bars = kind => value(`document.querySelectorAll("#bars rect${kind}").length`);
const asked = () => requests.filter(it => it.includes("/news?")).length;
// Until the page has asked so many times more.
const polls = async more => { const wanted = asked() + more; await awaited(asked, is => is >= wanted); };

async function testWhatIsShown() {
  await shows("nothing is in progress", () => text("in-progress"), "Nothing is in progress.");
  await shows("nobody waits", () => text("waiting"), "Nobody waits.");
  await shows("the store", () => text("store"), store);
  const holder = holds("write", "<img src=x onerror=alert(1)>");
  await begun(holder);
  await shows("who is in progress", () => columns("in-progress", 0, 1, 3), [["write", "process 2", String(holder.pid)]]);
  same("its command is a text", await columns("in-progress", 5), [["sh -c echo begun; read line <img src=x onerror=alert(1)>"]]);
  const beside = holds("pass");
  await begun(beside);
  same("and nothing of it is HTML", await value("document.querySelectorAll('img').length"), 0);
  await shows("what can start", () => rows("operations"), [["pass", "1", "0", "no: path 0 of door: pass"],
    ["read", "0", "0", "no: path 1 of book: { read } , write"], ["write", "1", "0", "no: path 1 of book: { read } , write"]]);
  const waiter = holds("read");
  await shows("who waits, and for whom", () => columns("waiting", 0, 1, 3),
    [["read", "1 process", "path 1 of book: { read } , write; in progress: write by process 2"]]);
  await shows("bars", () => bars(".live"), 2);
  await shows("the summary", () => text("summary"), "2 in progress, 1 waiting");
  await lets(holder);
  await begun(waiter);
  await shows("the next one", () => columns("in-progress", 0), [["pass"], ["read"]]);
  await shows("all bars", async () => [await bars(""), await bars(".live")], [3, 2]);
  await shows("the audit", () => text("verdict"), "sound so far, 6 lines");
  await lets(beside);
  await shows("what is over", async () => [await bars(""), await bars(".live")], [3, 1]);
  return waiter;
}

// The keys reach all that can be used, in the order of the page, and have its effect.
async function testKeys() {
  const reached = [];
  await value("document.activeElement.blur()");
  for (let n = 0; n < 7; n++) {
    await press("Tab");
    reached.push(await value("document.activeElement.id || document.activeElement.name || document.activeElement.localName"));
  }
  same("the keys reach", reached, ["in-progress", "waiting", "minutes", "hold", "summary", "operations", "body"].map(it => it === "summary" ? "list-head" : it));
  await value("document.getElementById('hold').focus()");
  await press(" ");
  same("held", await on("#hold", "it.getAttribute('aria-pressed')"), "true");
  await press(" ");
  same("not held", await on("#hold", "it.getAttribute('aria-pressed')"), "false");
  await value("document.querySelector('[name=minutes]:checked').focus()");
  await press("ArrowRight");
  same("ten minutes", await value("document.querySelector('[name=minutes]:checked').value"), "10");
}

async function testSpoken() {
  same("a region", await spokenAs("#in-progress"), ["region", "In progress"]);
  const [role, name] = await spokenAs("#bars svg");
  same("the bars", [role, name], ["image", "How often each operation was in progress in the last 10 minutes: pass 1, read 1, write 1"]);
  same("heads of columns", await on("#in-progress th", "it.scope"), "col");
  same("the summary is said", await on("#summary", "it.role ?? it.getAttribute('role')"), "status");
}

const PAIRS = [["ink", "paper", 4.5], ["faint", "paper", 4.5], ["good", "paper", 4.5], ["bad", "paper", 4.5], ["bar", "paper", 3], ["live", "paper", 3],
  ["edge", "paper", 3]];
const contrast = (one, other) => value(`(() => {
  const light = name => [1, 3, 5].map(i => parseInt(getComputedStyle(document.documentElement).getPropertyValue("--" + name).trim().slice(i, i + 2), 16) / 255)
    .map(it => it <= 0.03928 ? it / 12.92 : ((it + 0.055) / 1.055) ** 2.4).reduce((sum, it, i) => sum + it * [0.2126, 0.7152, 0.0722][i], 0.05);
  const [dark, bright] = [light("${one}"), light("${other}")].sort((a, b) => a - b);
  return bright / dark;
})()`);

async function testLooks() {
  for (const [name, width, isDark] of [["wide", 1200, false], ["narrow", 320, false], ["dark", 320, true]]) {
    await size(width, 800, { isDark });
    await shows(`${name}: nothing is wider than the window`, () => value("document.documentElement.scrollWidth <= innerWidth"), true);
    for (const [one, other, least] of PAIRS) same(`${name}: ${one} on ${other}`, await contrast(one, other) >= least, true);
    await shoot("view-" + name, false);
  }
  await size(1200, 800);
}

// Who wants less motion gets other bars only when something has changed.
async function testMotion() {
  const reduce = wanted => send("Emulation.setEmulatedMedia", { features: [{ name: "prefers-reduced-motion", value: wanted }] });
  const stays = async () => {
    await value("document.querySelector('#bars svg').isOld = true");
    await polls(3);
    return value("Boolean(document.querySelector('#bars svg').isOld)");
  };
  await value("Date.now = (now => () => now)(Date.now())"); // so that ten seconds don't pass
  await reduce("reduce");
  await polls(2);
  same("less motion", await stays(), true);
  await reduce("no-preference");
  same("motion", await stays(), false);
}

// A page of another origin reads nothing, even one that knows the address.
async function testOtherOrigin(address) {
  const server = createServer((_, answer) => answer.end("<!doctype html><link rel=icon href=data:,><p>other")).listen(0, "127.0.0.1");
  await new Promise(done => server.once("listening", done));
  try {
    await visit(`http://127.0.0.1:${server.address().port}/`);
    for (const place of ["", "news"]) {
      for (const mode of ["cors", "no-cors"]) {
        const read = `fetch(${JSON.stringify(address + place)}, { mode: "${mode}" }).then(it => it.text()).then(it => it.length, () => "nothing")`;
        const is = await value(read);
        same(`${mode} of /${place}`, is === "nothing" || is === 0, true);
      }
    }
    await value(`new Promise(done => { const it = document.createElement("iframe"); it.onload = done; it.src = ${JSON.stringify(address)}; document.body.append(it); })`);
    const { frameTree } = await send("Page.getFrameTree");
    same("and frames nothing", (frameTree.childFrames ?? []).filter(it => it.frame.url.startsWith(address)), []);
  } finally {
    server.closeAllConnections();
    server.close();
  }
}

async function testFaults(viewer) {
  appendFileSync(store, "1 start write: started 77\n");
  await until(`document.getElementById("verdict").className === "bad"`);
  same("a wrong line", /door.log in line \d+: `1 start write: started 77`, where `.*` is owed/.test(await text("verdict")), true);
  viewer.kill();
  await until(`document.getElementById("fault").textContent.startsWith("The viewer doesn't answer")`);
  same("its end", await viewer.ended, 143);
}

try {
  await lets(holds("read")); // which makes the store
  const viewer = wanzoche("view");
  const address = (await awaited(() => viewer.said, said => said.endsWith("\n"))).trim();
  await start(declaration, pictures, () => counts.failed === 0);
  await size(1200, 800);
  await visit(address);
  const waiter = await testWhatIsShown();
  await testKeys();
  await testSpoken();
  await testLooks();
  await testMotion();
  await lets(waiter);
  same("requests", requests.filter(it => !it.startsWith(address) && !/^(about|data):/.test(it)), []);
  same("complaints", complaints, []);
  await testOtherOrigin(address);
  await visit(address);
  await testFaults(viewer);
} catch (error) {
  counts.failed++;
  console.log(error.stack);
} finally {
  for (const it of running) it.kill();
  await stop();
}
console.log(`${counts.passed} passed, ${counts.failed} failed`);
process.exit(counts.failed ? 1 : 0);
