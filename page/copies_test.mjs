// Runs the programs that the page copies, as they stand, for the declaration of each example: copies_test.mjs TOP [LANGUAGE ..]
// Each operation has to have run, or to be said to be blocked; of those that the paths let begin at first at least one has run. A language
// that isn't here is left out, and said so.
import { execFileSync, spawn } from "node:child_process";
import { cpSync, existsSync, mkdirSync, mkdtempSync, readdirSync, readFileSync, rmSync, writeFileSync } from "node:fs";
import { availableParallelism, tmpdir } from "node:os";
import { dirname, join, resolve } from "node:path";
import { gunzipSync } from "node:zlib";
import { answersTo } from "./answers.js";
import { callsOf } from "./calls.js";
import { copies } from "./copies.js";
import { declaredIn } from "./texts.js";

const [given, ...languages] = process.argv.slice(2);
const top = resolve(given);
const folder = mkdtempSync(join(tmpdir(), "copies-"));
process.on("exit", () => rmSync(folder, { recursive: true, force: true }));
const packed = /<script id="module"[^>]*>([^<]*)<\/script>/.exec(readFileSync(join(top, "page/wanzoche.html"), "utf8"))[1];
const calls = callsOf(new WebAssembly.Module(gunzipSync(Buffer.from(packed, "base64"))));

// The examples whose declaration is read: { name, text, declared, operations, startable }.
const examples = readdirSync(join(top, "examples")).map(name => ({ name, path: join(top, "examples", name, "declaration") }))
  .filter(({ path }) => existsSync(path)).map(({ name, path }) => ({ name, text: readFileSync(path, "utf8") }))
  .filter(({ text }) => calls.check(text).status === 0).map(({ name, text }) => {
    const declared = declaredIn(calls.check(text).out);
    return { name, text, declared, operations: declared.operations.map(it => it.name),
      startable: answersTo(calls, text, "").report.startable };
  });

const has = (command, ...words) => {
  try {
    return execFileSync(command, words, { stdio: "pipe" }) && true;
  } catch {
    return false;
  }
};

// Python's package from its folder, over the library that `make` left.
const PYTHON = { ...process.env, PYTHONPATH: join(top, "python"), WANZOCHE_LIBRARY: join(top, "out/lib/libwanzoche.so.0") };

// The command `wanzoche`, as pip would put it.
function shellCommand() {
  mkdirSync(join(folder, "bin"));
  writeFileSync(join(folder, "bin/wanzoche"), `#!/bin/sh\nexec python3 -m wanzoche "$@"\n`, { mode: 0o755 });
  return { ...PYTHON, PATH: `${join(folder, "bin")}:${process.env.PATH}` };
}

// Builds all programs in Rust at once, and gives where they are.
function builtByCargo(programs) {
  const crate = join(folder, "rust");
  mkdirSync(join(crate, "src/bin"), { recursive: true });
  writeFileSync(join(crate, "Cargo.toml"), `[package]\nname = "copies"\nversion = "0.1.0"\nedition = "2021"\n\n[dependencies]\n`
    + `wanzoche = { path = "${join(top, "rust/wanzoche")}" }\n`);
  for (const { name, program } of programs) writeFileSync(join(crate, `src/bin/${name}.rs`), program);
  const environment = { ...process.env, CARGO_NET_OFFLINE: "true", CARGO_TARGET_DIR: join(crate, "target"), RUSTFLAGS: "-D warnings" };
  execFileSync("cargo", ["build", "-q", "--manifest-path", join(crate, "Cargo.toml")], { env: environment, stdio: "inherit" });
  return join(crate, "target/debug");
}

function compiledByCc(file) {
  execFileSync("cc", ["-Wall", "-Wextra", "-Werror", file, "-o", file + ".out", `-I${join(top, "include")}`,
    join(top, "out/lib/libwanzoche.a"), "-lpthread"],
    { stdio: "inherit" });
  return file + ".out";
}

// What JavaScript's package lacks here: itself, or the module that is made for it.
function packageLacks() {
  const module = join(top, "js/lib/module.js");
  if (!existsSync(module)) return "package js/";
  return readFileSync(module, "utf8").length < 1000 ? "module in js/lib" : "";
}

// JavaScript's package, where a program finds it.
function linkPackage() {
  const to = join(folder, "javascript/node_modules/wanzoche");
  mkdirSync(dirname(to), { recursive: true });
  cpSync(join(top, "js"), to, { recursive: true });
}

// For each language: why it can't be run here, or nothing; and how its programs { name, file, program } are run, as { command, env }.
const RUNNERS = {
  python: { lacks: () => has("python3", "--version") ? "" : "python3",
    runs: () => ({ file }) => ({ command: ["python3", file], env: PYTHON }) },
  shell: { lacks: () => has("python3", "--version") ? "" : "python3", runs: () => {
    const env = shellCommand();
    return ({ file }) => ({ command: ["sh", file], env });
  } },
  c: { lacks: () => has("cc", "--version") ? "" : "cc", runs: () => ({ file }) => ({ command: [compiledByCc(file)], env: process.env }) },
  rust: { lacks: () => has("cargo", "--version") ? "" : "cargo", runs: programs => {
    const built = builtByCargo(programs);
    return ({ name }) => ({ command: [join(built, name)], env: process.env });
  } },
  javascript: { lacks: packageLacks, runs: () => {
    linkPackage();
    return ({ file }) => ({ command: [process.execPath, file], env: process.env });
  } },
};

const SUFFIX = { python: "py", shell: "sh", c: "c", rust: "rs", javascript: "mjs" };

// How a command ends: its status, and what it writes.
const ended = ({ command: [command, ...words], env }) => new Promise(done => {
  const program = spawn(command, words, { env, stdio: ["ignore", "pipe", "pipe"] });
  let said = "";
  for (const stream of [program.stdout, program.stderr]) stream.on("data", data => { said += data; });
  program.on("close", status => done({ status, said }));
});

let failed = 0;
let ran = 0;

function check(language, { name, operations, startable }, { status, said }) {
  const lines = said.split("\n");
  const done = operations.filter(it => lines.includes(it));
  const told = operations.filter(it => done.includes(it) || lines.some(line => line.startsWith(it) || line.includes(` ${it} `)));
  const isRight = status === 0 && told.length === operations.length && (startable.length === 0 || done.length > 0);
  ran++;
  if (isRight) return;
  failed++;
  console.log(`${language}, ${name}: status ${status}\n${said}`);
}

// Runs the programs of a language, a few at a time.
async function runAll(language) {
  const runner = RUNNERS[language];
  const lacks = runner.lacks();
  if (lacks) return console.log(`copies_test: ${copies[language].name} is left out, since there is no ${lacks}`);
  const its = join(folder, language);
  mkdirSync(its, { recursive: true });
  const programs = examples.map(example => {
    const file = join(its, `${example.name}.${SUFFIX[language]}`);
    const program = copies[language].program(example.text, example.declared);
    writeFileSync(file, program);
    return { name: example.name, file, program, example };
  });
  const command = runner.runs(programs);
  const waiting = [...programs];
  const work = async () => {
    for (let it; (it = waiting.shift());) check(language, it.example, await ended(command(it)));
  };
  await Promise.all(Array.from({ length: Math.max(2, availableParallelism()) }, work));
}

for (const language of languages.length ? languages : Object.keys(RUNNERS)) await runAll(language);
console.log(`${ran} programs that the page copies ran as they stand, ${failed} of them wrong`);
process.exitCode = failed ? 1 : 0;
