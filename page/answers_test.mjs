// Compares what the module of the page answers to random texts with what the program writes: answers_test.mjs PAGE PATHSYS CALLS [SEED]
import { spawnSync } from "node:child_process";
import { mkdtempSync, readFileSync, rmSync, writeFileSync } from "node:fs";
import { tmpdir } from "node:os";
import { join, resolve } from "node:path";
import { gunzipSync } from "node:zlib";
import { callsOf, UNDECIDED, UNSOUND } from "./calls.js";
import { attemptsBy, declarationBy, randomOf, scriptBy } from "./tests/texts.mjs";

const [page, program, number, first = "1"] = process.argv.slice(2);
const packed = /<script id="module"[^>]*>([^<]*)<\/script>/.exec(readFileSync(page, "utf8"))[1];
const calls = callsOf(new WebAssembly.Module(gunzipSync(Buffer.from(packed, "base64"))));
const folder = mkdtempSync(join(tmpdir(), "answers-"));

// The program's room, so that both answer in the same, and the most states that both look at.
const ROOM = 4096;
const STATES = 500;
// The program's status where there are more.
const TOO_MANY = 7;

const keep = (name, text) => {
  writeFileSync(join(folder, name), text);
  return name;
};
const run = (...words) => {
  const { status, stdout, stderr } = spawnSync(resolve(program), words, { cwd: folder, encoding: "utf8" });
  return { status, out: stdout, err: stderr };
};

// A call of the module, and the program's words for the same, for each command.
const COMMANDS = {
  trace: ({ declaration, attempts }) => [calls.trace(declaration, attempts, true, ROOM), ["trace", "declaration", "attempts", "--report"]],
  check: ({ declaration }) => [calls.check(declaration), ["check", "declaration"]],
  compile: ({ declaration }) => [calls.compile(declaration), ["compile", "declaration"]],
  audit: ({ declaration, journal }) => [calls.audit(declaration, journal, ROOM), ["audit", "declaration", "journal"]],
  explain: ({ declaration, attempts }) => [calls.explain(declaration, attempts, ROOM), ["explain", "declaration", "attempts"]],
  judge: ({ declaration, journal }) => [calls.judge(declaration, journal, ROOM), ["explain", "declaration", "--journal", "journal"]],
  explore: ({ declaration, script }) => [calls.explore(declaration, script, STATES),
    ["explore", "declaration", "script", "--most", String(STATES)]],
};

// Random texts: a journal is what was answered, sometimes with a forged reply.
function textsBy(random) {
  const declaration = declarationBy(random);
  const attempts = attemptsBy(random);
  const answered = calls.trace(declaration, attempts, false, ROOM).out;
  const journal = random.chance(3) ? answered.replace(/started \d+/, "started 7") : answered;
  return { declaration, attempts, journal, script: scriptBy(random) };
}

// What both have to agree on. The program names its files in the words of faults, and says where a wrong line stands; its status for too
// many states is another.
const inShort = ({ status, out, err }) => ({
  status: status === UNDECIDED ? TOO_MANY : status,
  out,
  err: status === UNSOUND && err.startsWith("journal:") ? "" : err.split("\n")[0].replace(/^\w+:\d+:\d+: /, "at "),
});

let differ = 0;
const statuses = new Map();
for (let seed = Number(first), made = 0; made < Number(number); seed++) {
  const texts = textsBy(randomOf(seed));
  for (const [name, text] of Object.entries(texts)) keep(name, text);
  for (const [command, both] of Object.entries(COMMANDS)) {
    const [is, words] = both(texts);
    const wanted = run(...words);
    statuses.set(`${command} ${is.status}`, (statuses.get(`${command} ${is.status}`) ?? 0) + 1);
    made++;
    if (JSON.stringify(inShort(is)) === JSON.stringify(inShort(wanted))) continue;
    differ++;
    const [one, other] = [is, wanted].map(it => JSON.stringify(inShort(it)).slice(0, 300));
    console.log(`seed ${seed}, ${command}: ${one}, and the program ${other}`);
  }
}
rmSync(folder, { recursive: true });
console.log(`${number} random calls, ${statuses.size} kinds of ends: ${differ} differ from the program's`);
process.exitCode = differ ? 1 : 0;
