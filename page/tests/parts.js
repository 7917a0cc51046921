// The parts of the page that need no browser: a path in words and its states, what is taken back, quick clicks, the picture, programs.

import { callsOf } from "../calls.js";
import { pictureFile } from "../drawing.js";
import { differenceOf, History } from "../history.js";
import { lanesOf, spokenOf } from "../lanes.js";
import { Slips } from "../slips.js";
import { eventsIn, PathStates, stateDiagram } from "../states.js";
import { answersTo } from "../answers.js";
import { declaredIn } from "../texts.js";
import { sentenceOf, treeOf } from "../words.js";
import { same } from "./same.js";

// ---- a path in words

// Each form, and paths of the examples.
const SENTENCES = {
  "a": "One a at a time.",
  "a; b": "A and b take turns, a first.",
  "a; b; c": "A, b and c take turns in this order, a first.",
  "a, b": "One at a time of a and b.",
  "a, b, c": "One at a time of a, b and c.",
  "{ a }": "Any number of a at once.",
  "{ a: 3 }": "At most 3 a at once.",
  "{ a: 1 }": "One a at a time.",
  "{ read }, write": "Either any number of read at once, or one write alone.",
  "{ query: 3 }, backup": "Either at most 3 query at once, or one backup alone.",
  "{ a; b: 8 }": "At most 8 rounds at once of: first a, then b.",
  "{ a, b }": "Any number of rounds at once of: either a or b.",
  "{ fill }; ship": "First any number of fill at once, then ship; then again from the beginning.",
  "open; ask, tell; close": "First open, then either ask or tell, then close; then again from the beginning.",
  "( a; b ), c": "Either first a, then b, or one c alone.",
  "a; ( b; c )": "First a, then first b, then c; then again from the beginning.",
};

function checkWords() {
  for (const [path, sentence] of Object.entries(SENTENCES)) same(`${path} in words`, sentenceOf(path), sentence);
  same("a tree", treeOf("a; { b, c: 2 }"), { kind: "sequence", parts: [{ kind: "name", name: "a" },
    { kind: "burst", of: { kind: "selection", parts: [{ kind: "name", name: "b" }, { kind: "name", name: "c" }] }, most: 2 }] });
}

// Each path of an example has a sentence with each of its operations; its states, where there are few, agree with the module.
function checkExamplePaths(calls, name, { declaration, attempts = "" }) {
  const { status, out } = calls.check(declaration);
  if (status !== 0) return;
  const declared = declaredIn(out);
  for (const { text } of declared.paths) {
    const sentence = sentenceOf(text).toLowerCase();
    same(`${name}: ${text} in words`, text.match(/[A-Za-z]\w*/g).filter(it => !sentence.includes(it.toLowerCase())), []);
    const path = new PathStates(calls, text);
    const found = path.all();
    if (!found) continue;
    same(`${name}: ${text}: every state has its own`, new Set(found.states.map(it => path.keyOf(it.state))).size, found.states.length);
    const { entries } = answersTo(calls, declaration, attempts);
    const behind = Array.from({ length: entries.length + 1 },
      (_, lines) => path.present(eventsIn(entries.slice(0, lines), declared.operations)));
    same(`${name}: ${text}: each moment is one of them`, behind.filter(it => it === undefined), []);
    same(`${name}: ${text}: drawn`, (stateDiagram(found, 0).svg.match(/class="state/g) ?? []).length, found.states.length);
  }
}

function checkStates(calls) {
  const sizes = text => new PathStates(calls, text).all()?.states.length;
  same("states", ["a", "a; b", "a, b", "{ a: 3 }, b", "{ a; b: 2 }", "a; b; c", "{ a }", "{ a: 12 }", "{ a: 11 }"].map(sizes),
    [2, 4, 3, 5, 10, 6, undefined, undefined, 12]);
  const { states, steps } = new PathStates(calls, "a; b").all();
  same("each with what may start", states.map(it => it.starts), [["a"], [], ["b"], []]);
  same("and its steps", steps.map(it => [it.from, it.to, it.name, it.isStart]),
    [[0, 1, "a", true], [1, 2, "a", false], [2, 3, "b", true], [3, 0, "b", false]]);
}

// ---- what is written, and taken back

function checkHistory() {
  same("a text behind another", differenceOf("ab", "abc"), { at: 2, removed: "", inserted: "c" });
  same("a difference in the middle", differenceOf("abcd", "axd"), { at: 1, removed: "bc", inserted: "x" });
  same("none", differenceOf("ab", "ab"), { at: 2, removed: "", inserted: "" });
  const letter = (at, text) => ({ id: "one", at, removed: "", inserted: text });
  const history = new History();
  history.typed(letter(0, "a"), 0);
  history.typed(letter(1, "b"), 900);
  history.typed(letter(2, "c"), 2500);
  same("letters that follow each other are one step", history.done.map(it => it.changes[0].inserted), ["ab", "c"]);
  same("the last one is taken back first", history.undo(), [{ id: "one", at: 2, removed: "c", inserted: "" }]);
  same("and made again", history.redo(), [letter(2, "c")]);
  history.undo();
  history.note([letter(2, "x")]);
  same("what was taken back is gone once another is made", [history.redo(), history.done.length], [[], 2]);
  const deleting = new History();
  deleting.typed({ id: "one", at: 2, removed: "c", inserted: "" }, 0);
  deleting.typed({ id: "one", at: 1, removed: "b", inserted: "" }, 10);
  deleting.typed({ id: "one", at: 1, removed: "d", inserted: "" }, 20);
  same("what is taken away before and behind is one, too", deleting.done.map(it => it.changes),
    [[{ id: "one", at: 1, removed: "bcd", inserted: "" }]]);
  history.note([]);
  same("nothing is no step", history.done.length, 2);
}

function checkSlips() {
  const click = (time, detail = 1, x = 0) => ({ detail, timeStamp: time, clientX: x, clientY: 0 });
  const made = clicks => {
    const slips = new Slips();
    return clicks.filter(([event, key]) => !slips.isSlip(event, key)).map(([, key]) => key);
  };
  const four = details => details.map((detail, i) => [click(i * 300, detail), `finish ${i}`]);
  same("four quick clicks press one button", made(four([1, 2, 3, 4])), ["finish 0"]);
  same("also if the browser counts anew", made(four([1, 2, 3, 1])), ["finish 0"]);
  same("the same button goes on", made([[click(0), "a"], [click(100, 2), "a"]]), ["a", "a"]);
  same("so does one elsewhere", made([[click(0), "a"], [click(100, 1, 200), "b"]]), ["a", "b"]);
  same("and a slow one", made([[click(0), "a"], [click(600), "b"]]), ["a", "b"]);
  same("and a key", made([[click(0, 0), "a"], [click(1, 0), "b"]]), ["a", "b"]);
}

// ---- the picture

function checkPicture(calls, { declaration, attempts }) {
  const { entries } = answersTo(calls, declaration, attempts);
  const picture = lanesOf(entries);
  const file = pictureFile(picture, "svg { fill: red }");
  const count = pattern => (file.match(pattern) ?? []).length;
  same("a bar for each start, and a tick for each refusal", [count(/class="bar/g), count(/class="tick"/g)],
    [entries.filter(it => it.kind === "started").length, entries.filter(it => it.kind === "blocked").length]);
  same("with its style", [count(/<style>svg \{ fill: red \}<\/style>/g), file.startsWith("<svg xmlns="), file.endsWith("</svg>\n")],
    [1, true, true]);
  same("names of workers", lanesOf(entries, it => `w<${it}>`).lanes[0].name.startsWith("w<"), true);
  same("which are escaped", pictureFile(lanesOf(entries, it => `w<${it}>`), "").includes("w<"), false);
  same("in words", spokenOf(picture)[0], "Worker 0: eat0 in lines 1 to 6.");
}

// Checks the parts with a compiled module and examples { name: { file: text } }.
export function checkParts(module, examples) {
  const calls = callsOf(module);
  checkWords();
  for (const [name, files] of Object.entries(examples)) checkExamplePaths(calls, name, files);
  checkStates(calls);
  checkHistory();
  checkSlips();
  checkPicture(calls, examples.philosophers);
}
