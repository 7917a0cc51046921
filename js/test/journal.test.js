// Lines: journals, logs, and paths that go on behind a journal.

import assert from "node:assert/strict";
import { test } from "node:test";
import { audit, JournalError, OutOfRoom, Paths } from "wanzoche";
import { isSettled, LOCK, opened, QUEUE, SLOT, turn } from "./slots.js";

/** Enters and leaves so many times. */
async function pass(paths, times, operation = "hold") {
  for (let time = 0; time < times; time++) (await paths.enter(operation)).leave();
}

test("without a log old lines are dropped when the room is used up", async t => {
  const paths = opened(t, LOCK, { room: 6 });
  await pass(paths, 10);
  assert.equal(paths.journal().split("\n").length - 1 <= 6, true);
  assert.match(paths.journal(), /finish 9: finished\n$/);
  assert.throws(() => paths.audit(), { name: "WanzocheError", message: /was rotated/ });
});

for (const [kind, make] of [
  ["a function", to => ({ log: text => to.push(text) })],
  ["an array", to => ({ log: to })],
  ["what has a method write", to => ({ log: { write: text => to.push(text) } })],
]) {
  test(`a log that is ${kind} and the journal are one journal`, async t => {
    const log = [];
    const paths = opened(t, LOCK, { room: 6, ...make(log) });
    await pass(paths, 10);
    const all = log.join("") + paths.journal();
    assert.equal(all.split("\n").length, 21);
    assert.equal(String(paths.audit(all)), "sound");
    paths.rotate();
    assert.equal(paths.journal(), "");
    assert.equal(log.join(""), all);
    paths.rotate();
    assert.equal(log.join(""), all);
  });
}

test("a log that throws is given the same lines again", async t => {
  const log = [];
  let fails = true;
  const write = text => {
    if (fails) throw new RangeError("the disk is full");
    log.push(text);
  };
  const paths = opened(t, LOCK, { room: 4, log: write });
  await pass(paths, 2);
  await assert.rejects(paths.enter("hold"), { name: "RangeError", message: "the disk is full" });
  assert.throws(() => paths.tryEnter("hold"), RangeError);
  assert.deepEqual([paths.report().live, paths.report().startable], [[], ["hold"]]);
  fails = false;
  await pass(paths, 1);
  assert.equal(String(audit(LOCK, log.join("") + paths.journal())), "sound");
  assert.equal(log.join("").split("\n").length, 5);
});

test("one who waits gets what the log throws, and others go on", async t => {
  let fails = 0;
  const log = () => { if (fails-- > 0) throw new RangeError("the disk is full"); };
  const paths = opened(t, LOCK, { room: 7, log, patience: Infinity });
  await pass(paths, 1);
  const entry = await paths.enter("hold");
  const waits = [paths.enter("hold"), paths.enter("hold")];
  fails = 1;
  entry.leave();
  await assert.rejects(waits[0], RangeError);
  (await waits[1]).leave();
  assert.deepEqual(paths.waiting(), {});
});

test("a log may leave what is in progress, and others begin behind it", async t => {
  const held = [];
  const log = [];
  const paths = opened(t, "resource pair cell operation hold, other path hold end path other end end", {
    room: 7,
    log: text => {
      log.push(text);
      held.pop()?.leave();
    },
  });
  held.push(await paths.enter("hold"));
  const waits = paths.enter("hold");
  await pass(paths, 4, "other");
  assert.equal((await waits).operation, "hold");
  assert.equal(held.length, 0);
  assert.equal(String(audit(TEXT(paths), log.join("") + paths.journal())), "sound");
});

/** The declaration of paths without devices, from what they tell. */
function TEXT(paths) {
  return `resource pair cell operation ${paths.operations.join(", ")} ${paths.paths.map(it => `path ${it.text} end`).join(" ")} end`;
}

test("a log that needs room itself is told so", async t => {
  const errors = [];
  const paths = opened(t, LOCK, {
    room: 4,
    log: () => {
      for (const call of [() => paths.rotate(), () => paths.tryEnter("hold")]) {
        try {
          call();
        } catch (error) {
          errors.push(error.name, error.message);
        }
      }
    },
  });
  await pass(paths, 3);
  const wanted = ["WanzocheError", "these paths are rotating: their log has to do without what needs room"];
  assert.deepEqual(errors, [...wanted, ...wanted]);
});

test("a log may close the paths", async () => {
  const paths = new Paths(LOCK, { room: 7, log: () => paths.close(), patience: Infinity });
  await pass(paths, 1);
  const entry = await paths.enter("hold");
  const waits = [paths.enter("hold"), paths.enter("hold")];
  entry.leave();
  for (const each of waits) await assert.rejects(each, { name: "Closed" });
  await assert.rejects(paths.enter("hold"), { name: "Closed" });
});

test("a log may abort the one for whom it makes room", async t => {
  const controller = new AbortController();
  const paths = opened(t, LOCK, { room: 7, log: () => controller.abort(), patience: Infinity });
  await pass(paths, 1);
  const entry = await paths.enter("hold");
  const [first, second] = [paths.enter("hold", { signal: controller.signal }), paths.enter("hold")];
  entry.leave();
  await assert.rejects(first, { name: "AbortError" });
  (await second).leave();
  assert.deepEqual(paths.report().live, []);
});

test("an audit names the first wrong line", t => {
  const paths = opened(t, SLOT);
  const sound = "1 start deposit: started 0\n2 start remove: blocked 0\n1 finish 0: finished\n";
  assert.deepEqual({ ...paths.audit(sound) }, { wrongLine: null, sound: true });
  assert.equal(String(audit(SLOT, sound.replace("blocked 0", "started 1"))), "wrong line 1");
  assert.equal(audit(SLOT, new TextEncoder().encode(sound)).sound, true);
  assert.equal(audit(SLOT, "journal 2 room 2\n" + sound).wrongLine, 1);
  assert.equal(audit(SLOT, "journal 3 room 20\n" + sound.replaceAll(/^/gm, "+") + "1 sta").sound, true);
  assert.deepEqual([audit(SLOT, sound, { room: 4 }).sound, audit(SLOT, sound, { room: 3 }).sound], [true, false]);
});

test("what is no journal says where", () => {
  assert.throws(() => audit(SLOT, "1 start deposit: started 0\nhello\n"), {
    name: "JournalError",
    message: "bad line 1, which is line 2 counted from 1:\n  hello",
    line: 2,
    owed: null,
  });
  assert.throws(() => audit(SLOT, "1 start insert: started 0\n"), { name: "JournalError", message: /^undeclared in line 0/ });
  assert.throws(() => audit("nothing", ""), { name: "DeclarationError" });
  for (const room of [0, 1.5, "1"]) assert.throws(() => audit(SLOT, "", { room }), RangeError);
  assert.throws(() => audit(SLOT, 5), TypeError);
});

test("paths go on behind a journal", async t => {
  const first = opened(t, SLOT);
  await first.run("deposit", entry => entry.put(7));
  await first.enter("remove");
  const journal = first.journal();
  const paths = opened(t, SLOT, { resume: journal + "2 finish" });
  assert.equal(paths.resumed, journal.length);
  assert.equal(paths.journal(), "");
  assert.deepEqual(paths.report().lost, [{ token: 1, worker: 1, operation: "remove" }]);
  const waits = paths.enter("deposit");
  assert.equal(await isSettled(waits), false);
  assert.equal(paths.recover(1), 1);
  const entry = await waits;
  assert.deepEqual([entry.token, entry.worker, entry.look()], [2, 2, 7n]);
  assert.throws(() => paths.recover(2), RangeError);
  assert.equal(paths.recover(1), 0);
  assert.equal(String(audit(SLOT, journal + paths.journal())), "sound");
  assert.throws(() => paths.audit(), { name: "WanzocheError", message: /go on behind a journal/ });
});

test("a journal that is long goes into a small room, and its log gets only new lines", async t => {
  const lines = [];
  for (let token = 0; token < 4000; token++) lines.push(`1 start hold: started ${token}\n`, `1 finish ${token}: finished\n`);
  const text = lines.join("");
  for (const room of [4, 100, 65536]) {
    const log = [];
    const paths = opened(t, LOCK, { resume: text, room, log });
    await pass(paths, 1);
    assert.deepEqual([paths.resumed, paths.journal()], [text.length, "1 start hold: started 4000\n1 finish 4000: finished\n"]);
    assert.deepEqual(log, []);
  }
  assert.equal(opened(t, LOCK, { resume: text, journal: false, room: 2 }).resumed, text.length);
  assert.throws(() => new Paths("resource a cell operation hold path { hold } end end", {
    resume: "1 start hold: started 0\n1 start hold: started 1\n1 start hold: started 2\n",
    room: 3,
  }), { name: "OutOfRoom", message: "no room for line 3 of the journal: 2 in progress, in a room of 3" });
});

test("a journal behind which no paths go on names its line", () => {
  const sound = "1 start deposit: started 0\n1 finish 0: finished\n";
  assert.throws(() => new Paths(SLOT, { resume: sound + "2 start remove: blocked 0\n3 start remove: started 2\n" }), error => {
    assert.ok(error instanceof JournalError);
    assert.equal(error.message, "wrong line 2, which is line 3 counted from 1:\n  2 start remove: blocked 0\n`started 1` is owed");
    assert.deepEqual([error.line, error.owed], [3, "started 1"]);
    return true;
  });
  const headed = { resume: "journal 2 room 9\n" + sound + "2 start deposit: started 1\n" };
  assert.throws(() => new Paths(SLOT, headed), { line: 4, owed: "blocked 0", message: /^wrong line 2, which is line 4/ });
  assert.throws(() => new Paths(SLOT, { resume: sound + "hello\n" + sound }), { message: /^bad line 2, which is line 3/ });
  assert.throws(() => new Paths(SLOT, { resume: "1 start insert: started 0\n" }), { message: /^undeclared in line 0/ });
});

test("a journal may be cut anywhere", t => {
  const paths = opened(t, QUEUE);
  const entry = paths.tryEnter("send");
  entry.put(5);
  entry.leave();
  const journal = paths.journal();
  for (let end = 0; end <= journal.length; end++) {
    const behind = new Paths(QUEUE, { resume: journal.slice(0, end) });
    assert.equal(behind.resumed, journal.slice(0, end).lastIndexOf("\n") + 1);
    behind.close();
  }
});

test("a journal of version 3, as processes share it, is gone on behind", async t => {
  const paths = opened(t, SLOT, { resume: "journal 3 room 9\n+1 start deposit: started 0\n+1 finish 0: finished\n" });
  assert.equal((await paths.enter("remove")).token, 1);
  await turn();
});

test("room that is full of what is in progress is said to be", async t => {
  const paths = opened(t, "resource book cell operation read path { read } end end", { room: 4 });
  const entries = [await paths.enter("read"), await paths.enter("read"), await paths.enter("read")];
  await assert.rejects(paths.enter("read"), OutOfRoom);
  assert.throws(() => paths.tryEnter("read"), { message: "no room for more: 3 in progress, or 4,294,967,295 were started" });
  for (let time = 0; time < 10; time++) entries[0].put(time);
  entries[0].leave();
  (await paths.enter("read")).leave();
  entries[1].leave();
  entries[2].leave();
});
