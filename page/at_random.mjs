// Does things at random in the page, in a browser: at_random.mjs PATHSYS chromium|firefox ACTIONS [SEED]
// After each few of them nothing may have thrown, and what the page shows has to be what the program writes for the same texts. Each seed
// begins anew with 40 actions, so a fault is found again by its seed.
import { spawnSync } from "node:child_process";
import { mkdtempSync, readFileSync, rmSync, writeFileSync } from "node:fs";
import { tmpdir } from "node:os";
import { dirname, join, resolve } from "node:path";
import { fileURLToPath } from "node:url";
import * as chromium from "./tests/chromium.mjs";
import { Firefox } from "./tests/firefox.mjs";

const [program, browser, number, first = "1"] = process.argv.slice(2);
const here = dirname(fileURLToPath(import.meta.url));
const page = join(here, "wanzoche.html");
const folder = mkdtempSync(join(tmpdir(), "random-"));
const actions = readFileSync(join(here, "tests/actions.js"), "utf8").replace(/^\/\/.*\n/gm, "").trim();

// Actions for each seed, and how many until what is shown is looked at.
const EACH = 40;
const LOOK = 5;

// A browser: how it starts, opens the page, runs the body of a function in it, and stops.
const BROWSERS = {
  chromium: () => ({
    start: () => chromium.start(page, folder),
    open: async () => { await chromium.openPage(); },
    run: body => chromium.value(`(() => { ${body} })()`),
    stop: () => chromium.stop(),
    complaints: chromium.complaints,
  }),
  firefox: () => {
    const firefox = new Firefox();
    const isShown = () => firefox.run(`return document.getElementById("about").textContent !== "";`);
    return {
      start: () => firefox.start(),
      open: async () => {
        await firefox.open("about:blank");
        await firefox.open("file://" + page);
        while (!await isShown()) await new Promise(done => setTimeout(done, 50));
      },
      run: body => firefox.run(body),
      stop: () => firefox.stop(),
      complaints: [],
    };
  },
};

const run = (texts, ...words) => {
  for (const [name, text] of Object.entries(texts)) writeFileSync(join(folder, name), text);
  const { status, stdout, stderr } = spawnSync(resolve(program), words, { cwd: folder, encoding: "utf8" });
  return { status, out: stdout, err: stderr };
};

const linesOf = text => text.split("\n").slice(0, text.endsWith("\n") || text === "" ? -1 : undefined);

// The attempts that are answered: all of them, or those above the line at fault.
function answeredOf(declaration, attempts) {
  const whole = run({ declaration, attempts }, "trace", "declaration", "attempts");
  const fault = /^text: .* (\d+)$/m.exec(whole.err);
  const lines = linesOf(attempts);
  return whole.status === 0 ? lines : lines.slice(0, fault ? Number(fault[1]) : 0);
}

// What the page shows otherwise than the program, in words; nothing if they agree.
function disagreement({ declaration, attempts, journal, isRead, replies, moment, report, verdict }) {
  if ((run({ declaration }, "check", "declaration").status === 0) !== isRead) return "whether the declaration is read";
  if (!isRead) return replies.length ? "replies under a declaration that is refused" : undefined;
  const lines = answeredOf(declaration, attempts);
  const text = count => lines.slice(0, count).map(it => it + "\n").join("");
  const traced = linesOf(run({ declaration, attempts: text(lines.length) }, "trace", "declaration", "attempts").out);
  const wanted = traced.map((it, i) => it.slice(lines[i].length + 2));
  if (JSON.stringify(replies.slice(0, wanted.length)) !== JSON.stringify(wanted)) return `replies ${JSON.stringify(wanted)}`;
  const reported = linesOf(run({ declaration, attempts: text(moment) }, "trace", "declaration", "attempts", "--report").out).slice(moment);
  if (report !== reported.map(it => it + "\n").join("")) return `report ${JSON.stringify(reported)}`;
  if (journal === "") return undefined;
  const audited = run({ declaration, journal }, "audit", "declaration", "journal");
  const head = journal.startsWith("journal ") ? 2 : 1;
  const says = (audited.out || audited.err.split("\\n")[0]).split("\n")[0].replace(/(wrong line|bad line|in line) (\d+)$/,
    (_, what, line) =>
    `${what} ${Number(line) + (what === "wrong line" ? head : 1)}`);
  return verdict.startsWith(says) ? undefined : `verdict ${says}`;
}

let failed = 0;
let done = 0;
const driver = BROWSERS[browser]();

async function runSeed(seed) {
  await driver.open();
  await driver.run(`window.actions = ${actions}; window.actions.begin(${seed});`);
  const made = [];
  for (let i = 0; i < EACH; i += LOOK) {
    made.push(...await driver.run(`return Array.from({ length: ${LOOK} }, () => window.actions.act());`));
    done += LOOK;
    const seen = await driver.run("return window.actions.seen();");
    const errors = [...seen.errors, ...driver.complaints.splice(0)];
    const wrong = errors.length ? `it threw ${errors[0]}` : disagreement(seen);
    if (!wrong) continue;
    failed++;
    console.log(`${browser}, seed ${seed}: ${wrong}\n${JSON.stringify(seen)}\n${made.join("\n")}`);
    return;
  }
}

try {
  await driver.start();
  for (let seed = Number(first); done < Number(number) && failed < 5; seed++) await runSeed(seed);
} catch (error) {
  failed++;
  console.log(error.stack);
} finally {
  await driver.stop();
  rmSync(folder, { recursive: true, force: true });
}
console.log(`${browser}: ${done} random actions, ${failed} wrong`);
process.exit(failed ? 1 : 0);
