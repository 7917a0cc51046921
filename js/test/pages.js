// Runs each block of JavaScript of the package's pages, and its examples, where the package is installed: node pages.js FOLDER

import { spawnSync } from "node:child_process";
import { copyFileSync, mkdirSync, readdirSync, readFileSync, writeFileSync } from "node:fs";
import { join } from "node:path";
import { fileURLToPath } from "node:url";

const TOP = fileURLToPath(new URL("../..", import.meta.url));
const EXAMPLES = join(TOP, "examples", "javascript");
const [installed] = process.argv.slice(2);

/** Runs a file in a folder of its own: what it writes. Ends this program if it fails. */
function ran(folder, file) {
  const { status, stdout, stderr } = spawnSync(process.execPath, [file], { cwd: folder, encoding: "utf8", timeout: 600_000 });
  if (status === 0) return stdout;
  console.log(`${file} ended with ${status}:\n${stdout}${stderr}`);
  process.exit(1);
}

function newFolder(name) {
  const folder = join(installed, name);
  mkdirSync(folder);
  return folder;
}

/** The blocks of a page, and what stands behind each in a block of `text`, if one follows at once. */
function blocks(page) {
  const text = readFileSync(join(TOP, page), "utf8");
  return [...text.matchAll(/^```js\n([^]*?)^```\n(?:\n?^```text\n([^]*?)^```$)?/gm)].map(([, code, output]) => ({ code, output }));
}

let count = 0;
for (const page of ["js/README.md", "docs/javascript.md"]) {
  for (const { code, output } of blocks(page)) {
    const folder = newFolder(`block${++count}`);
    writeFileSync(join(folder, "block.mjs"), code);
    const written = ran(folder, "block.mjs");
    if (output === undefined || output === written) continue;
    console.log(`block ${count}, on ${page}, writes\n${written}and not\n${output}`);
    process.exit(1);
  }
}
const examples = readdirSync(EXAMPLES).filter(it => it.endsWith(".js"));
const folder = newFolder("examples");
writeFileSync(join(folder, "package.json"), '{ "type": "module" }\n');
for (const name of examples) {
  copyFileSync(join(EXAMPLES, name), join(folder, name));
  const wanted = readFileSync(join(EXAMPLES, name.replace(/js$/, "out")), "utf8");
  const written = ran(folder, name);
  if (written === wanted) continue;
  console.log(`examples/javascript/${name} writes\n${written}and not\n${wanted}`);
  process.exit(1);
}
console.log(`${count} blocks of pages and ${examples.length} examples run where the package is installed`);
