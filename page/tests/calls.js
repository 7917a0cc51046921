// What the module answers, and how the page reads it: in Node, and in the engine of Safari.
//  - the module has no imports, and exports what the page calls;
//  - each example answers what its files say, byte for byte;
//  - faults, buffers that are too short, and memory that is too small, down to none.

import { answersTo, standingIn, whyLast } from "../answers.js";
import { callOnce, callsOf } from "../calls.js";
import { lanesOf } from "../lanes.js";
import { watchedSchedule } from "../scripts.js";
import { trimmedIn } from "../tables.js";
import { declarationFault, declaredIn, Lines, pathPlaces } from "../texts.js";
import { exploredBy, reachedBy, verdictOn } from "../verdicts.js";
import { same } from "./same.js";

const SLOT = "resource slot cell operation deposit, remove path deposit ; remove end end";
const PRINT = "resource slot cell operation deposit, remove path deposit; remove end end\n";
const LOCKS = "resource a cell operation x path x end end resource b queue 1 operation y path y end end";
const CROSSWISE = "process p\nenter x\nenter y\nleave\nleave\nend\nprocess q\nenter y\nenter x\nleave\nleave\nend\n";

const done = out => ({ status: 0, out, err: "" });

function checkInterface(module) {
  same("imports", WebAssembly.Module.imports(module), []);
  const names = ["audit", "check", "compile", "explain", "explore", "judge", "reach", "trace"].map(it => "path_page_" + it);
  same("exports", WebAssembly.Module.exports(module).map(it => it.name).sort(), ["__heap_base", "memory", ...names]);
}

// ---- the examples, each of which has the texts of its files

function checkTrace(calls, name, { declaration, attempts, trace, printed, report }) {
  if (trace === undefined) return;
  same(`${name}: trace`, calls.trace(declaration, attempts, false), done(trace));
  same(`${name}: trace in the program's room`, calls.trace(declaration, attempts, false, 4096), done(trace));
  same(`${name}: audit of its trace`, calls.audit(declaration, trace), done("sound\n"));
  const answered = answersTo(calls, declaration, attempts);
  same(`${name}: entries`, answered.entries.map(it => `${it.line}: ${it.reply}\n`).join(""), trace);
  same(`${name}: lanes`, lanesOf(answered.entries).lines, answered.entries.length);
  same(`${name}: paths`, pathPlaces(declaration).length, declaredIn(printed).paths.length);
  if (report !== undefined) same(`${name}: report`, calls.trace(declaration, attempts, true), done(trace + report));
}

function checkSearch(calls, name, { declaration, script, explored }) {
  if (explored === undefined) return;
  const found = calls.explore(declaration, script, 100000);
  same(`${name}: explored`, found.out + found.err, explored);
  if (found.status === 5) return same(`${name}: its schedule`, calls.audit(declaration, found.out).out, "sound\n");
  const answered = answersTo(calls, declaration, watchedSchedule(calls, declaration, script));
  const ends = script.split("\n").filter(it => it === "leave").length;
  same(`${name}: one in which all end`, [answered.fault, answered.entries.filter(it => it.kind === "finished").length,
    answered.report.live], [null, ends, []]);
}

function checkExample(calls, name, files) {
  const { declaration, attempts, printed, listing, explained, judged, journal, trace, verdict } = files;
  if (printed !== undefined) same(`${name}: check`, calls.check(declaration), done(printed));
  if (explained !== undefined) same(`${name}: explained`, calls.explain(declaration, attempts), done(explained));
  if (judged !== undefined) {
    const status = judged.startsWith("sound") ? 0 : 5;
    same(`${name}: judged`, calls.judge(declaration, journal ?? trace, 4096), { status, out: judged, err: "" });
  }
  if (listing !== undefined) {
    same(`${name}: compile`, calls.compile(declaration), done(listing));
    same(`${name}: semaphores`, trimmedIn(listing).map(it => it.path), declaredIn(printed).paths.map((_, i) => i));
  }
  if (verdict !== undefined) {
    same(`${name}: verdict`, calls.audit(declaration, journal, 4096), { status: verdict === "sound\n" ? 0 : 5, out: verdict, err: "" });
  }
  checkTrace(calls, name, files);
  checkSearch(calls, name, files);
}

// ---- every order of a declaration

function checkHistories(calls) {
  const once = "resource r cell operation a, b, c path a ; (b , c) end path b ; c end path c ; b end end";
  const never = "resource r cell operation a, b, c path a , b end path b ; c end path c ; b end end";
  same("what goes on", reachedBy(calls, SLOT, 2, 100), { kind: "goes", states: 4 });
  same("as the program says it", calls.reach(SLOT, 2, 100), done("every operation begins, the resources never all freeze\nstates 4\n"));
  same("with more workers there is more", reachedBy(calls, "resource b cell operation read path { read } end end", 3, 100).states, 4);
  same("more than was to be looked at", reachedBy(calls, SLOT, 2, 3), { kind: "undecided", states: 3 });
  same("what never begins", reachedBy(calls, never, 2, 100), { kind: "never", never: ["b", "c"], states: 2 });
  const frozen = reachedBy(calls, once, 2, 100);
  same("where the paths freeze", frozen, { kind: "frozen", attempts: "0 start a\n0 finish 0\n", admitted: 2 });
  same("which is frozen", answersTo(calls, once, frozen.attempts).report.frozen, true);
  same("of no declaration", reachedBy(calls, "resource", 2, 100), { kind: "fault", says: "declaration: unexpected at 8" });
}

// ---- faults, and where they are shown

const refused = (status, err) => ({ status, out: "", err: err + "\n" });

function checkRefusals(calls) {
  same("a refused declaration", calls.check("resource r cell operation a path b end end"), refused(1, "declaration: undeclared at 33"));
  same("an empty text", calls.check(""), refused(1, "declaration: unexpected at 0"));
  same("a text past ASCII", calls.check("resource é"), refused(1, "declaration: bad byte at 9"));
  same("no room", calls.trace(SLOT, "", false, 0), refused(2, "open: bad room"));
  same("a bad line", calls.trace(SLOT, "1 start deposit\n1 strat", false), refused(4, "text: bad line 1"));
  same("a wrong line", calls.audit(SLOT, "1 start remove: started 0\n"), { status: 5, out: "wrong line 0\n", err: "" });
}

// Where declarations are refused: the text at fault.
function checkPlaces(calls) {
  const marked = text => {
    const { says, from, to } = declarationFault(new Lines(text), calls.check(text).err, calls.explain(text, "").err);
    return [says, text.slice(from, to)];
  };
  same("a name that isn't declared", marked("resource r cell operation a\npath a ; b end end"),
    ["declaration: undeclared at 37 (line 2, column 10)", "b"]);
  same("a sign past ASCII", marked("resource 😀r"), ["declaration: bad byte at 9 (line 1, column 10)", "😀r"]);
  same("an end behind line feeds", marked("resource r cell\noperation a\n\n\n"),
    ["declaration: unexpected at 30 (line 2, column 12)", "\n"]);
  same("nothing", marked(""), ["declaration: unexpected at 0 (line 1, column 1)", ""]);
  same("a name again", declarationFault(new Lines("resource r cell operation a, a end"), "declaration: x",
    calls.explain("resource r cell operation a, a end", "").err).why,
    ["an earlier operation has this name", "expected a name of its own"]);
}

function checkLineFaults(calls) {
  const half = answersTo(calls, SLOT, "1 start deposit\n1 start remvoe\n");
  same("lines before a fault are answered", [half.entries.map(it => it.reply), half.fault], [["started 0"], {
    says: "text: undeclared in line 2", line: 1, from: 8, to: 14, isName: true,
    why: ["this isn't a declared operation", "expected the name of a declared operation", "nearest name: remove"],
  }]);
  const typed = answersTo(calls, SLOT, "1 start deposit\n2 sta", answersTo(calls, SLOT, "1 start deposit\n"));
  same("while a line is typed", [typed.entries.map(it => it.reply), typed.fault.says, typed.report.blocked.get("deposit")],
    [["started 0"], "text: bad line 2", 0]);
  const bad = verdictOn(calls, SLOT, "journal 2 room 9\n1 strat\n");
  same("a bad line behind a head", [bad.says, bad.line, bad.quoted, bad.isSound], ["text: bad line 2", 1, "1 strat", false]);
  const wrong = verdictOn(calls, SLOT, "journal 2 room 9\n1 start remove: started 0\n");
  same("a wrong line behind a head", [wrong.says, wrong.line, wrong.why[0]], ["wrong line 2", 1, "owed: blocked 0"]);
  same("a journal whose line has no reply", verdictOn(calls, SLOT, "1 start deposit\n").why,
    ["this line can't be read", "expected `: ` and the reply"]);
}

function checkWhy(calls) {
  const why = attempts => whyLast(standingIn(calls.explain(SLOT, attempts).out).front, attempts.split("\n").length - 1);
  same("why the last attempt is refused", why("1 start deposit\n2 start remove\n"),
    ["in progress: deposit (activation 0, worker 1); may begin next: nothing"]);
  same("why not another one", why("1 start deposit\n2 start remove\n1 finish 0\n"), []);
  same("without attempts", [why(""), standingIn(calls.explain(SLOT, "").out).resources.map(it => [it.name, it.isStuck])],
    [[], [["slot", false]]]);
}

function checkLines() {
  for (const text of ["", "\n", "a", "a\n", "a\n\nbc"]) {
    const lines = new Lines(text);
    const places = Array.from({ length: text.length + 1 }, (_, i) => i);
    same("lines", Array.from({ length: lines.length }, (_, i) => lines.at(i)), text.split("\n"));
    same("lines that are counted", lines.counted, text.split("\n").length - (text === "" || text.endsWith("\n") ? 1 : 0));
    same("lines of places", places.map(i => lines.lineOf(i)), places.map(i => text.slice(0, i).split("\n").length - 1));
  }
}

// ---- every schedule of a script

function checkSchedules(calls) {
  const explored = (script, most = 100) => exploredBy(calls, LOCKS, script, most);
  same("a schedule that stalls", explored(CROSSWISE), {
    kind: "stalled", attempts: "0 start x\n1 start y\n0 start y\n1 start x\n", admitted: 2, processes: ["p: stalled y", "q: stalled x"],
  });
  same("a step that is refused", explored("process p\nenter y\nuse take\nleave\nend\n"), {
    kind: "refused", attempts: "0 start y\n0 use 0 take\n", admitted: 1, processes: ["p: faulted empty"],
  });
  same("no schedule goes wrong", explored("process p\nenter x\nleave\nend\n"), { kind: "done", states: 3 });
  same("an empty script", explored(""), { kind: "empty" });
  same("too many states to say", explored("process p\nenter x\nleave\nend\n", 2), { kind: "undecided", states: 2 });
  same("what the module says of that", calls.explore(LOCKS, CROSSWISE, 2), { status: 8, out: "", err: "undecided after 2 states\n" });
  same("a script at fault", explored("process p\nenter xy\nleave\nend\n"), {
    kind: "fault", says: "script: undeclared in line 2", line: 1,
    why: ["this isn't a declared operation", "expected the name of a declared operation", "nearest name: x"],
  });
  same("one that isn't over", [explored("process p\n").says, explored("process p\n").line, explored("process p").line],
    ["script: bad line 2", 1, 0]);
  same("one that is too long", [explored("\n".repeat(262145)).says, explored("\n".repeat(262145)).why],
    ["script: too long", ["the text has more than 262,144 bytes"]]);
  same("a declaration at fault", exploredBy(calls, "resource", CROSSWISE, 9).says, "declaration: unexpected at 8");
  same("memory that is too small for a search at first", calls.call("explore", [LOCKS, CROSSWISE, 100], 256, 16).status, 5);
}

// ---- buffers and memory

function checkMemory(module, calls) {
  const bytes = Uint8Array.from(SLOT, it => it.charCodeAt(0));
  const once = (work, out, err) => callOnce(module, "path_page_check", [bytes], out, err, work);
  same("a buffer that just fits", once(1 << 20, PRINT.length, 1).status, 0);
  const short = once(1 << 20, PRINT.length - 1, 1);
  same("a buffer that is too short", [short.status, short.outLength, short.errLength], [7, PRINT.length, 0]);
  const statuses = new Set();
  for (let work = 0; work < 65536; work += work < 2048 ? 16 : 512) {
    const told = once(work, 256, 256);
    statuses.add(told.status);
    if (told.status === 6 && work >= 64) same(`a fault in ${work} bytes`, told.err, "out of memory\n");
  }
  same("statuses in memory from none to enough", [...statuses], [6, 0]);
  same("memory that is too small at first", calls.call("check", [SLOT], 256, 16).out, PRINT);
  same("more memory than there is", once(2 ** 32, 256, 256), { status: 6, outLength: 0, errLength: 0, out: "", err: "out of memory\n" });
}

// Returns what a trace of 10,000 attempts takes, least and median, in milliseconds.
function timeTrace(calls) {
  const line = i => i % 2 ? `${i % 7} finish ${(i - 1) / 2}\n` : `${(i + 1) % 7} start ${i % 4 ? "remove" : "deposit"}\n`;
  const many = Array.from({ length: 10000 }, (_, i) => line(i)).join("");
  const times = Array.from({ length: 21 }, () => {
    const began = performance.now();
    same("a long trace", calls.trace(SLOT, many, true).status, 0);
    return performance.now() - began;
  }).sort((a, b) => a - b);
  return [times[0], times[10]].map(it => it.toFixed(1));
}

// Checks a compiled module with examples { name: { file: text } }. Returns the times of a long trace.
export function checkCalls(module, examples) {
  const calls = callsOf(module);
  checkInterface(module);
  for (const [name, files] of Object.entries(examples)) checkExample(calls, name, files);
  for (const check of [checkRefusals, checkPlaces, checkLineFaults, checkWhy, checkLines, checkSchedules, checkHistories]) check(calls);
  checkMemory(module, calls);
  return timeTrace(calls);
}
