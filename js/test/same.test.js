// The package answers as the program pathsys does: over all examples, and over calls that are drawn by lot. PATHSYS names the program.

import assert from "node:assert/strict";
import { spawnSync } from "node:child_process";
import { existsSync, mkdtempSync, readdirSync, readFileSync, rmSync, writeFileSync } from "node:fs";
import { tmpdir } from "node:os";
import { join } from "node:path";
import { after, test } from "node:test";
import { fileURLToPath } from "node:url";
import { audit, explore } from "wanzoche";
import * as codes from "../lib/codes.js";
import { System } from "../lib/system.js";
import { readDeclaration } from "../lib/texts.js";
import { lots } from "./slots.js";

const TOP = fileURLToPath(new URL("../..", import.meta.url));
const EXAMPLES = join(TOP, "examples");
const PROGRAM = process.env.PATHSYS ?? join(TOP, "out", "bin", "pathsys");
const ROOM = 4096;
const WITH_NUMBER = [codes.STARTED, codes.BLOCKED, codes.USED];

const work = mkdtempSync(join(tmpdir(), "wanzoche-"));
after(() => rmSync(work, { recursive: true }));

/** What the program writes of these texts, which it gets as files: its status, its standard output and its standard error. */
function told(command, texts, ...words) {
  const files = texts.map((text, at) => {
    const path = join(work, String(at));
    writeFileSync(path, text);
    return path;
  });
  const { status, stdout, stderr, error } = spawnSync(PROGRAM, [command, ...files, ...words], { encoding: "utf8", maxBuffer: 2 ** 26 });
  if (error) throw error;
  return { status, out: stdout, err: stderr };
}

/** What the program writes of all schedules of a script: those that go wrong end with a line for each process on standard error. */
function explored(declaration, script) {
  const { out, err } = told("explore", [declaration, script]);
  return out + err;
}

/** The answer of one attempt, as a line has it: `1 start deposit`, `1 use 0 put 7` or `1 finish 0`. */
function reply(system, numbers, line) {
  const [worker, what, which, verb, number] = line.split(" ");
  let code;
  if (what === "start") code = system.start(Number(worker), numbers.get(which));
  else if (what === "finish") code = system.finish(Number(worker), Number(which));
  else code = system.use(Number(worker), Number(which), codes.VERBS.indexOf(verb), BigInt(number ?? 0));
  return WITH_NUMBER.includes(code) ? `${system.words(code)} ${system.bigNumber}` : system.words(code);
}

/** What `pathsys trace --report` writes for attempts, made of the package's answers. */
function traced(declaration, attempts) {
  const system = new System(new TextEncoder().encode(declaration), ROOM, true);
  try {
    const numbers = new Map(readDeclaration(system.text("declaration")).operations.map((name, number) => [name, number]));
    const lines = attempts.map(line => `${line}: ${reply(system, numbers, line)}\n`).join("");
    return { journal: system.text("journal"), text: lines + system.text("report") };
  } finally {
    system.close();
  }
}

/** How a text is refused, or what is made of it. */
function outcome(call) {
  try {
    return String(call());
  } catch (error) {
    return error.name;
  }
}

for (const name of readdirSync(EXAMPLES).filter(it => existsSync(join(EXAMPLES, it, "declaration")))) {
  const read = part => (existsSync(join(EXAMPLES, name, part)) ? readFileSync(join(EXAMPLES, name, part), "utf8") : null);
  const [declaration, attempts, journal, script] = ["declaration", "attempts", "journal", "script"].map(read);

  test(`the example ${name}`, () => {
    const checked = told("check", [declaration]);
    if (checked.status !== 0) {
      assert.throws(() => audit(declaration, ""), error => checked.err.includes(`:${error.line}:${error.column}: `));
      return;
    }
    const system = new System(new TextEncoder().encode(declaration), 1, false);
    assert.equal(system.text("declaration"), checked.out);
    system.close();
    if (attempts !== null) {
      const lines = attempts.split("\n").filter(line => line.trim() !== "");
      const own = traced(declaration, lines);
      assert.equal(own.text, told("trace", [declaration, attempts], "--report").out);
      assert.equal(`${audit(declaration, own.journal)}\n`, told("audit", [declaration, own.journal]).out);
    }
    if (journal !== null) assert.equal(`${audit(declaration, journal)}\n`, told("audit", [declaration, journal], "--room", "1048576").out);
    if (script !== null) assert.equal(String(explore(declaration, script)), explored(declaration, script));
  });
}

const draw = lots(19);
const of = list => list[draw(list.length)];

/** An expression over these operations, in which braces stand in no braces. */
function expression(names, inBraces) {
  if (!inBraces && draw(4) === 0) return `{ ${expression(names, true)}${draw(2) ? ` : ${1 + draw(3)}` : ""} }`;
  if (names.length === 1) return names[0];
  const left = 1 + draw(names.length - 1);
  return `(${expression(names.slice(0, left), inBraces)} ${of([";", ","])} ${expression(names.slice(left), inBraces)})`;
}

function declarationOf(names) {
  const paths = Array.from({ length: draw(4) }, () => names.filter(() => draw(3)))
    .filter(it => it.length > 0)
    .map(it => `path ${expression(it, false)} end `);
  return `resource r ${of(["cell", "tally", "queue 2"])} operation ${names.join(", ")} ${paths.join("")}end\n`;
}

function attemptOf(names, count) {
  const worker = draw(3);
  const which = Math.max(0, count - draw(6));
  if (draw(2)) return `${worker} start ${of(names)}`;
  if (draw(3)) return `${worker} finish ${which}`;
  return `${worker} use ${which} ${of(["look", "take", "put 3", "put 18446744073709551615", "add 9223372036854775808", "add 1"])}`;
}

test("10,000 calls drawn by lot get the same replies, and the same audits and reports", () => {
  let calls = 0;
  for (let round = 0; calls < 10_000; round++) {
    const names = ["a", "b", "c", "d", "e"].slice(0, 1 + draw(5));
    const declaration = declarationOf(names);
    const lines = Array.from({ length: 100 }, (_, at) => attemptOf(names, at >> 1));
    const own = traced(declaration, lines);
    assert.equal(own.text, told("trace", [declaration, lines.join("\n") + "\n"], "--report").out, declaration);
    const forged = own.journal.replace(/: (finished|stale|not yours|blocked 0)\n/, draw(2) ? ": finished\n" : ": stale\n");
    assert.equal(`${audit(declaration, forged)}\n`, told("audit", [declaration, forged]).out);
    calls += lines.length + 1;
  }
});

test("texts that are refused are refused by both", () => {
  const kinds = { 1: "DeclarationError", 4: "JournalError" };
  for (let round = 0; round < 60; round++) {
    const declaration = declarationOf(["a", "b", "c"]).replace(of(["a", "path", "operation", "end", "r"]), of(["b", "", "é", "path"]));
    const journal = `1 start ${of(["a", "b", "z"])}: ${of(["started 0", "blocked 0", "hello"])}\n`;
    const { status, out } = told("audit", [declaration, journal]);
    assert.equal(outcome(() => audit(declaration, journal)), kinds[status] ?? out.trim(), declaration + journal);
  }
});

test("scripts drawn by lot come to the same", () => {
  for (let round = 0; round < 40; round++) {
    const names = ["a", "b", "c"];
    const declaration = declarationOf(names);
    const within = () => (draw(2) ? `enter ${of(names)}\nleave\n` : "");
    const script = ["p", "q", "r"]
      .map(it => `process ${it}\nenter ${of(names)}\nuse ${of(["look", "put 1", "take"])}\n${within()}leave\nend\n`)
      .join("");
    assert.equal(String(explore(declaration, script)), explored(declaration, script), declaration + script);
  }
});
