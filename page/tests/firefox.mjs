// A headless Firefox, by its protocol Marionette.
import { spawn } from "node:child_process";
import { existsSync, mkdtempSync, readFileSync, rmSync, writeFileSync } from "node:fs";
import { connect } from "node:net";
import { tmpdir } from "node:os";
import { join } from "node:path";

const LIMIT = 600000;
const pause = time => new Promise(done => setTimeout(done, time));

// A port of its own, no page of welcome, and texts that count as focused though nobody looks.
const SETTINGS = { "marionette.port": 0, "focusmanager.testmode": true, "browser.shell.checkDefaultBrowser": false,
  "datareporting.policy.dataSubmissionEnabled": false,
  "browser.download.alwaysOpenPanel": false, "browser.tabs.unloadOnLowMemory": false, "toolkit.startup.max_resumed_crashes": -1 };

export class Firefox {
  constructor() {
    this.folder = mkdtempSync(join(tmpdir(), "firefox-"));
    this.waiting = new Map();
    this.number = 0;
    this.unread = Buffer.alloc(0);
  }

  // Starts it.
  async start() {
    writeFileSync(join(this.folder, "user.js"),
      Object.entries(SETTINGS).map(([name, value]) => `user_pref("${name}", ${JSON.stringify(value)});\n`).join(""));
    this.process = spawn("firefox-esr", ["--headless", "--marionette", "--no-remote", "--profile", this.folder], { stdio: "ignore" });
    this.gone = new Promise(done => { this.process.once("exit", done).once("error", done); });
    this.socket = connect(await this.port(), "127.0.0.1");
    this.socket.on("data", data => this.heard(data));
    this.socket.on("error", () => {});
    await this.send("WebDriver:NewSession", { capabilities: { alwaysMatch: { acceptInsecureCerts: false } } });
  }

  // The port that it listens at, once it says so in its folder.
  async port() {
    const file = join(this.folder, "MarionetteActivePort");
    for (const began = Date.now(); Date.now() - began < LIMIT; await pause(100)) {
      if (existsSync(file) && readFileSync(file, "utf8").trim() !== "") return Number(readFileSync(file, "utf8"));
    }
    throw new Error("Firefox doesn't listen");
  }

  // Each message has its length, a colon, and a list: its kind, a number, and a command or an error with an answer.
  heard(data) {
    this.unread = Buffer.concat([this.unread, data]);
    for (let colon; (colon = this.unread.indexOf(":")) >= 0;) {
      const end = colon + 1 + Number(this.unread.subarray(0, colon));
      if (this.unread.length < end) return;
      const message = JSON.parse(this.unread.subarray(colon + 1, end).toString());
      this.unread = this.unread.subarray(end);
      if (Array.isArray(message)) this.waiting.get(message[1])?.(message);
    }
  }

  async send(command, parameters) {
    const id = ++this.number;
    const answer = new Promise(done => this.waiting.set(id, done));
    const text = JSON.stringify([0, id, command, parameters]);
    this.socket.write(`${Buffer.byteLength(text)}:${text}`);
    const late = pause(LIMIT).then(() => { throw new Error(`${command}: nothing in ${LIMIT / 1000} s`); });
    const [, , error, result] = await Promise.race([answer, late]);
    this.waiting.delete(id);
    if (error) throw new Error(`${command}: ${error.message}`);
    return result;
  }

  open = url => this.send("WebDriver:Navigate", { url });

  // The value of the body of a function in the page. What it keeps at `window` stays until another page is opened.
  async run(body) {
    const { value } = await this.send("WebDriver:ExecuteScript", { script: body, args: [], sandbox: "actions", newSandbox: false });
    return value;
  }

  async stop() {
    this.process.kill();
    await Promise.race([this.gone, pause(10000)]);
    this.process.kill("SIGKILL");
    rmSync(this.folder, { recursive: true, force: true, maxRetries: 10, retryDelay: 200 });
  }
}
