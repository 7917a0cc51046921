// What is said of texts that aren't what they should be, and of schedules.

import assert from "node:assert/strict";
import { test } from "node:test";
import { explore, Paths } from "wanzoche";
import { SLOT } from "./slots.js";

const CROSSWISE = "resource a cell operation left path left end end resource b cell operation right path right end end";
const PROCESSES = "process kant\nenter left\nenter right\nleave\nleave\nend\nprocess hume\nenter right\nenter left\nleave\nleave\nend\n";

for (const { text, message, line, column, offset } of [
  {
    text: "resource slot cell operation deposit, remove\n  path deposit ; remoove end end",
    message: "undeclared in line 2, column 18: this isn't an operation of the path's resource\n    path deposit ; remoove end end\n" +
      "                   ^^^^^^^\n  expected an operation that the resource declares\n  nearest name: remove",
    line: 2, column: 18, offset: 62,
  },
  { text: "", message: /^unexpected in line 1, column 1: /, line: 1, column: 1, offset: 0 },
  { text: "é€😀", message: /^bad byte in line 1, column 1: /, line: 1, column: 1, offset: 0 },
  {
    text: "slot.txt",
    message: /^bad byte \(is this the name of a file\? It takes the file's text\) in line 1, column 5/,
    line: 1, column: 5, offset: 4,
  },
  { text: "x".repeat(65537), message: "text too long", line: null, column: null, offset: null },
]) {
  test(`a declaration that is ${JSON.stringify(text.slice(0, 20))} is refused with its place`, () => {
    assert.throws(() => new Paths(text), { name: "DeclarationError", message, line, column, offset });
  });
}

test("every schedule that ends done is said to", () => {
  const script = "process one\nenter deposit\nuse put 7\nleave\nend\nprocess two\nenter remove\nuse look\nleave\nend\n";
  const found = explore(SLOT, script);
  assert.deepEqual([found.outcome, found.done, found.stalled, found.refused, found.undecided], ["done", true, false, false, false]);
  assert.deepEqual([found.journal, found.processes], ["", []]);
  assert.equal(String(found), `every schedule ends done\nstates ${found.states}\n`);
});

test("a schedule that stalls is shown", () => {
  const found = explore(CROSSWISE, PROCESSES);
  assert.deepEqual([found.outcome, found.stalled, found.states], ["stalled", true, null]);
  assert.deepEqual(found.processes, ["kant: stalled right", "hume: stalled left"]);
  assert.equal(String(found), "journal 2 room 1048576\n0 start left: started 0\n1 start right: started 1\n0 start right: blocked 1\n" +
    "1 start left: blocked 0\nkant: stalled right\nhume: stalled left\n");
});

test("a schedule with a step that is refused is shown", () => {
  const found = explore("resource a queue 1 operation get path get end end", "process one\nenter get\nuse take\nleave\nend\n");
  assert.deepEqual([found.outcome, found.refused, found.processes], ["refused", true, ["one: faulted empty"]]);
});

test("a search that isn't to look at more states is undecided", () => {
  const found = explore(CROSSWISE, PROCESSES, { most: 2 });
  assert.deepEqual([found.undecided, found.states, String(found)], [true, 2, "undecided after 2 states\n"]);
  for (const most of [-1, 1.5, 2 ** 32, "1"]) assert.throws(() => explore(CROSSWISE, PROCESSES, { most }), RangeError);
});

for (const { script, message, line } of [
  { script: "process a\nenter lef\nend\n", message: "undeclared in line 1, which is line 2 counted from 1:\n  enter lef", line: 2 },
  { script: "hello\n", message: "bad line 0, which is line 1 counted from 1:\n  hello", line: 1 },
  { script: "process a\nenter left\n", message: /\(the text ends inside a process\)$/, line: 3 },
  { script: "x".repeat(262145), message: "too long", line: null },
]) {
  test(`a script that is ${JSON.stringify(script.slice(0, 20))} is refused with its line`, () => {
    assert.throws(() => explore(CROSSWISE, script), { name: "ScriptError", message, line });
  });
}

test("a declaration that is none is refused before the script", () => {
  assert.throws(() => explore("nothing", "nothing"), { name: "DeclarationError" });
  assert.throws(() => explore(SLOT, null), TypeError);
});
