// Drives the page of the examples in headless Chromium: node browser.js FOLDER, in which page.html and the installed package are.
// Chromium is told by its own debugging protocol over a pipe: what is sent and what comes ends with a zero byte.

import { spawn } from "node:child_process";
import { once } from "node:events";
import { readFileSync } from "node:fs";
import http from "node:http";
import { join, normalize } from "node:path";

const [folder] = process.argv.slice(2);
const TYPES = { html: "text/html", js: "text/javascript", ts: "text/plain", json: "application/json" };

const server = http.createServer((request, response) => {
  try {
    const path = join(folder, normalize(new URL(request.url, "http://here").pathname));
    response.setHeader("content-type", TYPES[path.split(".").at(-1)] ?? "text/plain");
    response.end(readFileSync(path));
  } catch {
    response.writeHead(404).end();
  }
});
server.listen(0, "localhost");
await once(server, "listening");

const words = ["--headless=new", "--no-sandbox", "--disable-gpu", "--disable-dev-shm-usage", "--remote-debugging-pipe",
  `--user-data-dir=${join(folder, "profile")}`];
const chromium = spawn("chromium", words, { stdio: ["ignore", "ignore", "ignore", "pipe", "pipe"] });
process.on("exit", () => chromium.kill());
const [, , , commands, answers] = chromium.stdio;
const waiting = new Map();
let text = "";
let sent = 0;
answers.on("data", part => {
  text += part;
  const messages = text.split("\0");
  text = messages.pop();
  for (const message of messages.map(it => JSON.parse(it))) waiting.get(message.id)?.(message);
});

/** Asks Chromium, and gives what it answers. */
async function ask(method, params = {}, sessionId) {
  const id = ++sent;
  commands.write(JSON.stringify({ id, method, params, sessionId }) + "\0");
  const { result, error } = await new Promise(resolve => waiting.set(id, resolve));
  if (error) throw new Error(`${method}: ${error.message}`);
  return result;
}

const { targetId } = await ask("Target.createTarget", { url: `http://localhost:${server.address().port}/page.html` });
const { sessionId } = await ask("Target.attachToTarget", { targetId, flatten: true });

/** The value of an expression in the page. */
async function valueOf(expression) {
  const { result, exceptionDetails } = await ask("Runtime.evaluate", { expression, awaitPromise: true, returnByValue: true }, sessionId);
  if (exceptionDetails) throw new Error(exceptionDetails.exception?.description ?? exceptionDetails.text);
  return result.value;
}

/** Waits until the rows of the page are these. */
async function rows(wanted) {
  let shown;
  do {
    shown = await valueOf(`[...document.querySelectorAll("li")].map(it => it.textContent).join("; ")`);
  } while (shown !== wanted);
}

const click = id => valueOf(`document.getElementById("${id}").click()`);
while (!(await valueOf(`Boolean(document.getElementById("leave")?.onclick)`)));
await valueOf(`for (let time = 0; time < 5; time++) document.getElementById("upload").click(); document.getElementById("cancel").click();
  document.getElementById("leave").click()`);
await rows("photo 1 is there; photo 2 is there; photo 3 is there; photo 4: AbortError; photo 5: AbortError; signed out");
await click("upload");
await rows("photo 1 is there; photo 2 is there; photo 3 is there; photo 4: AbortError; photo 5: AbortError; signed out; photo 6 is there");
const { product } = await ask("Browser.getVersion");
const closed = once(chromium, "exit");
await ask("Browser.close");
await closed;
server.close();
console.log(`the page of the examples does what it should in ${product}`);
process.exit(0);
