// Tests the module of the page, and what the page makes of its answers, without a browser: node calls_test.mjs PAGE EXAMPLES
import { existsSync, readdirSync, readFileSync } from "node:fs";
import { gunzipSync } from "node:zlib";
import { checkCalls } from "./tests/calls.js";
import { checkParts } from "./tests/parts.js";
import { counts } from "./tests/same.js";

const [page, folder] = process.argv.slice(2);
const packed = /<script id="module"[^>]*>([^<]*)<\/script>/.exec(readFileSync(page, "utf8"))[1];
const module = await WebAssembly.compile(gunzipSync(Buffer.from(packed, "base64")));

// The files of each example with a declaration.
const filesIn = name => Object.fromEntries(readdirSync(`${folder}/${name}`, { withFileTypes: true }).filter(it => it.isFile())
  .map(({ name: file }) => [file, readFileSync(`${folder}/${name}/${file}`, "utf8")]));
const names = readdirSync(folder).filter(name => existsSync(`${folder}/${name}/declaration`));
const examples = Object.fromEntries(names.map(name => [name, filesIn(name)]));

counts.say = console.log;
const times = checkCalls(module, examples);
checkParts(module, examples);
console.log(`a trace of 10,000 attempts with its report: ${times[0]} ms at least, ${times[1]} by the median`);
console.log(`${counts.passed} passed, ${counts.failed} failed`);
process.exitCode = counts.failed ? 1 : 0;
