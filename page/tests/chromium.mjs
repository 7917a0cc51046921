// A headless Chromium, over a pipe: it opens the page from the disk, types, clicks and reads.
//
// Whatever waits, waits for what it wants to see, and no fixed time, so that a slow machine makes it late and not wrong.
import { spawn } from "node:child_process";
import { mkdirSync, mkdtempSync, rmSync, writeFileSync } from "node:fs";
import { tmpdir } from "node:os";
import { join, resolve } from "node:path";

// Milliseconds until the browser has to have started, answered a command, or shown what is wanted; and what is wanted after a failure.
export const LIMIT = { start: 300000, command: 600000, shown: 300000, after: 8000 };
export const pause = time => new Promise(done => setTimeout(done, time));

// The result of a promise, or an error once the time is up.
export function within(limit, what, promise) {
  let timer;
  const late = new Promise((_, refuse) => { timer = setTimeout(() => refuse(new Error(`${what}: nothing in ${limit / 1000} s`)), limit); });
  return Promise.race([promise, late]).finally(() => clearTimeout(timer));
}

const profile = mkdtempSync(join(tmpdir(), "page-"));
const waiting = new Map();
// What the browser complained of, and asked for.
export const complaints = [];
export const requests = [];
let browser;
let session;
let number = 0;
let loaded = () => {};
let file = "";
let pictures = "";
let isPatient = () => true;
for (const signal of ["SIGINT", "SIGTERM"]) process.on(signal, () => { browser?.kill("SIGKILL"); process.exit(1); });

function heard(message) {
  const { id, method, params } = message;
  if (id) return waiting.get(id)?.(message);
  if (method === "Page.loadEventFired") loaded();
  if (method === "Network.requestWillBeSent") requests.push(params.request.url);
  if (method === "Runtime.exceptionThrown" || method === "Log.entryAdded") complaints.push(JSON.stringify(params).slice(0, 500));
}

function launch(folder) {
  const options = ["--headless=new", "--no-sandbox", "--disable-gpu", "--disable-dev-shm-usage", "--no-first-run",
    "--remote-debugging-pipe",
    `--user-data-dir=${folder}`, "about:blank"];
  browser = spawn("chromium", options, { stdio: ["ignore", "ignore", "ignore", "pipe", "pipe"] });
  browser.on("error", () => {});
  for (const stream of browser.stdio.slice(3)) stream.on("error", () => {});
  browser.gone = new Promise(done => { browser.once("exit", done).once("error", done); });
  let unread = Buffer.alloc(0);
  browser.stdio[4].on("data", data => {
    unread = Buffer.concat([unread, data]);
    for (let end; (end = unread.indexOf(0)) >= 0; unread = unread.subarray(end + 1)) heard(JSON.parse(unread.subarray(0, end)));
  });
}

async function end() {
  browser.kill();
  await within(10000, "the end of the browser", browser.gone).catch(() => browser.kill("SIGKILL"));
  await within(10000, "the end of the browser", browser.gone).catch(() => {});
}

// Ends the browser, and takes its folder away.
export async function stop() {
  await end();
  try {
    rmSync(profile, { recursive: true, force: true, maxRetries: 10, retryDelay: 200 });
  } catch (error) {
    console.log(`${profile} is left: ${error.message}`);
  }
}

// The id of the browser's first tab, as soon as it has one.
async function firstTab() {
  for (;;) {
    const { targetInfos } = await send("Target.getTargets");
    const tab = targetInfos.find(it => it.type === "page");
    if (tab) return tab.targetId;
    await pause(50);
  }
}

// Starts the browser for a page, a second time if it doesn't answer. Pictures go to a folder. While `patient` says so, it waits long.
export async function start(page, folder, patient = () => true) {
  [file, pictures, isPatient] = [resolve(page), folder, patient];
  mkdirSync(pictures, { recursive: true });
  for (const attempt of [1, 2]) {
    launch(join(profile, String(attempt)));
    const ended = browser.gone.then(() => { throw new Error("the browser ended"); });
    try {
      const targetId = await within(LIMIT.start, "the start of the browser", Promise.race([firstTab(), ended]));
      ended.catch(() => {});
      ({ sessionId: session } = await send("Target.attachToTarget", { targetId, flatten: true }));
      break;
    } catch (error) {
      console.log(`chromium, start ${attempt}: ${error.message}`);
      await end();
      if (attempt === 2) throw error;
    }
  }
  for (const domain of ["Page", "Runtime", "Log", "Network"]) await send(domain + ".enable");
  await send("Emulation.setFocusEmulationEnabled", { enabled: true });
}

export async function send(method, params = {}) {
  const id = ++number;
  const answer = new Promise(answered => waiting.set(id, answered));
  browser.stdio[3].write(JSON.stringify({ id, method, params, sessionId: session }) + "\0");
  const { result, error } = await within(LIMIT.command, method, answer);
  waiting.delete(id);
  if (error) throw new Error(`${method}: ${error.message}`);
  return result;
}

const NAMES = "$, now, examples, drafts, openCase, journalText, pictureNow, show, judge, showRest, write, textOf, isPlaying, stepNow";

// The value of an expression in the page, which may use what the page shows for its tests; of a loop there is none.
export async function value(expression) {
  const body = expression.startsWith("for (") ? `{ ${expression} }` : `(${expression})`;
  const within = `(({ ${NAMES} }) => ${body})(globalThis.page ?? {})`;
  const { result, exceptionDetails } = await send("Runtime.evaluate", { expression: within, returnByValue: true, awaitPromise: true });
  if (exceptionDetails) throw new Error(`${expression}: ${exceptionDetails.exception?.description ?? exceptionDetails.text}`);
  return result.value;
}

// What `read` gives, once it is as wanted; what it gave last, if that takes too long.
export async function awaited(read, isWanted) {
  for (const began = Date.now(); ; await pause(25)) {
    const is = await read();
    if (isWanted(is) || Date.now() - began > (isPatient() ? LIMIT.shown : LIMIT.after)) return is;
  }
}

// Waits until an expression in the page is true.
export async function until(expression) {
  if (!await awaited(() => value(`Boolean(${expression})`), is => is)) throw new Error(`never true: ${expression}`);
}

export async function visit(url) {
  const load = new Promise(done => { loaded = done; });
  await send("Page.navigate", { url });
  await within(LIMIT.shown, url, load);
}

const IS_SHOWN = `document.getElementById("about").textContent !== ""`;

// Opens the page, and waits until it has shown the case of its address, if it can.
export async function openPage(hash = "", isAble = true) {
  await visit("about:blank");
  await visit("file://" + file + hash);
  if (isAble) await until(IS_SHOWN);
}

export async function reload() {
  const load = new Promise(done => { loaded = done; });
  // By the page itself: the browser may not know its last address yet.
  await send("Runtime.evaluate", { expression: "location.reload()" });
  await within(LIMIT.shown, "a reload", load);
  await until(IS_SHOWN);
}

// Gives the window a size in pixels of the page, of which each has `scale` of the screen, and the colours that the system asks for.
export async function size(width, height, { isDark = false, isForced = false, scale = 1 } = {}) {
  const colours = { "prefers-color-scheme": isDark ? "dark" : "light", "forced-colors": isForced ? "active" : "none" };
  await send("Emulation.setScrollbarsHidden", { hidden: true });
  await send("Emulation.setDeviceMetricsOverride", { width, height, deviceScaleFactor: scale, mobile: false });
  await send("Emulation.setEmulatedMedia", { features: Object.entries(colours).map(([name, value]) => ({ name, value })) });
  const are = Object.entries(colours).map(([name, value]) => `matchMedia("(${name}: ${value})").matches`);
  await until(`innerWidth === ${width} && devicePixelRatio === ${scale} && ${are.join(" && ")}`);
}

export async function shoot(name, isWhole = true) {
  await value("new Promise(done => requestAnimationFrame(() => requestAnimationFrame(done)))");
  const { data } = await send("Page.captureScreenshot", { format: "png", captureBeyondViewport: isWhole });
  writeFileSync(join(pictures, name + ".png"), Buffer.from(data, "base64"));
}

// The numbers that the browser has for keys.
const KEYS = { Tab: 9, Enter: 13, Escape: 27, " ": 32, End: 35, Home: 36, ArrowLeft: 37, ArrowUp: 38, ArrowRight: 39, ArrowDown: 40 };

// Presses a key, with Ctrl if `modifiers` is 2, and with Shift, too, if it is 10.
export async function press(key, modifiers = 0) {
  const text = modifiers ? undefined : key === "Enter" ? "\r" : key.length === 1 ? key : undefined;
  const code = /^[a-z]$/i.test(key) ? "Key" + key.toUpperCase() : key.trim() || "Space";
  const its = { key, code, modifiers, windowsVirtualKeyCode: KEYS[key] ?? key.toUpperCase().charCodeAt(0) };
  await send("Input.dispatchKeyEvent", { type: text === undefined ? "rawKeyDown" : "keyDown", ...its, text });
  await send("Input.dispatchKeyEvent", { type: "keyUp", ...its });
}

// Clicks in the middle of an element, as soon as it is there, once or several times.
export async function click(selector, times = 1) {
  const it = `document.querySelector(${JSON.stringify(selector)})`;
  await until(it);
  const at = await value(`(it => {
    it.scrollIntoView({ block: "center" });
    const { x, y, width, height } = it.getBoundingClientRect();
    return { x: x + width / 2, y: y + height / 2 };
  })(${it})`);
  for (let clickCount = 1; clickCount <= times; clickCount++) {
    for (const type of ["mousePressed", "mouseReleased"]) {
      await send("Input.dispatchMouseEvent", { type, ...at, button: "left", clickCount });
    }
  }
}
