// The same checks in jsc, the engine of Safari without a browser, which has no encoders of its own. What stands before this in its script
// gives MODULE, the bytes of the module, and EXAMPLES.

import { checkCalls } from "./calls.js";
import { checkParts } from "./parts.js";
import { counts } from "./same.js";

counts.say = globalThis.print;
const compiled = new WebAssembly.Module(Uint8Array.from(globalThis.MODULE));
checkCalls(compiled, globalThis.EXAMPLES);
checkParts(compiled, globalThis.EXAMPLES);
globalThis.print(`jsc: ${counts.passed} passed, ${counts.failed} failed`);
