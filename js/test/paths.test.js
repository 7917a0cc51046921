// Paths and entries, one call at a time.

import assert from "node:assert/strict";
import { test } from "node:test";
import { Closed, NotInProgress, OutOfRoom, Paths, UnknownOperation, UseRefused, WanzocheError } from "wanzoche";
import { BOOK, isSettled, LOCK, opened, POOL, QUEUE, SLOT, TALLY } from "./slots.js";

test("a deposit and a removal take turns", async t => {
  const paths = opened(t, SLOT);
  const deposit = await paths.enter("deposit");
  assert.equal(deposit.put(7), 0n);
  const removal = paths.enter("remove");
  assert.equal(await isSettled(removal), false);
  deposit.leave();
  const entry = await removal;
  assert.equal(entry.look(), 7n);
  entry.leave();
  assert.equal(paths.journal(), [
    "1 start deposit: started 0",
    "1 use 0 put 7: used 0",
    "2 start remove: blocked 0",
    "1 finish 0: finished",
    "2 start remove: started 1",
    "2 use 1 look: used 7",
    "2 finish 1: finished",
    "",
  ].join("\n"));
  assert.equal(String(paths.audit()), "sound");
});

test("an entry says what it is", async t => {
  const paths = opened(t, BOOK);
  const [first, second] = [await paths.enter("read"), await paths.enter("read")];
  assert.deepEqual([first.operation, first.token, first.worker, first.inProgress], ["read", 0, 1, true]);
  assert.deepEqual([second.token, second.worker], [1, 2]);
  first.leave();
  assert.equal(first.inProgress, false);
  assert.deepEqual([(await paths.enter("read")).worker, second.worker], [1, 2]);
});

test("what isn't admitted now isn't tried twice", t => {
  const paths = opened(t, SLOT);
  assert.equal(paths.tryEnter("remove"), null);
  const entry = paths.tryEnter("deposit");
  assert.equal(paths.tryEnter("deposit"), null);
  entry.leave();
  assert.equal(paths.tryEnter("remove").token, 1);
});

test("an entry is left once", async t => {
  const paths = opened(t, LOCK);
  const entry = await paths.enter("hold");
  entry.leave();
  assert.throws(() => entry.leave(), NotInProgress);
  assert.throws(() => entry.look(), { name: "NotInProgress", message: "this entry of hold isn't in progress" });
  assert.equal(paths.canStart("hold"), true);
});

test("to dispose of an entry that is over does nothing", async t => {
  const paths = opened(t, LOCK);
  const dispose = Symbol.dispose ?? Symbol.for("Symbol.dispose");
  const asyncDispose = Symbol.asyncDispose ?? Symbol.for("Symbol.asyncDispose");
  const first = await paths.enter("hold");
  first[dispose]();
  first[dispose]();
  const second = await paths.enter("hold");
  await second[asyncDispose]();
  await second[asyncDispose]();
  const third = await paths.enter("hold");
  paths.close();
  third[dispose]();
  await third[asyncDispose]();
});

test("run leaves its entry when the body has ended, also by an error", async t => {
  const paths = opened(t, LOCK);
  assert.equal(await paths.run("hold", entry => entry.token + 5), 5);
  assert.equal(await paths.run("hold", async () => "done"), "done");
  await assert.rejects(paths.run("hold", () => { throw new RangeError("at once"); }), RangeError);
  await assert.rejects(paths.run("hold", async () => { throw new RangeError("later"); }), RangeError);
  await paths.run("hold", entry => entry.leave());
  assert.equal(paths.canStart("hold"), true);
  await assert.rejects(paths.run("hold", () => assert.fail("it isn't admitted"), { signal: AbortSignal.abort() }), { name: "AbortError" });
});

test("why says what forbids an operation", async t => {
  const paths = opened(t, POOL);
  assert.equal(paths.why("query"), null);
  const entries = [await paths.enter("query"), await paths.enter("query")];
  const why = paths.why("backup");
  assert.equal(why.name, "Blocked");
  assert.equal(why.message,
    "backup is blocked: path 0 of pool: { query : 3 } , backup; in progress: query by worker 1, query by worker 2");
  assert.deepEqual([why.operation, why.path, why.resource, why.text], ["backup", 0, "pool", "{ query : 3 } , backup"]);
  assert.deepEqual(why.mayBegin, ["query"]);
  assert.deepEqual(why.inProgress, entries.map(it => ({ token: it.token, worker: it.worker, operation: "query" })));
  assert.match(opened(t, SLOT).why("remove").message, /in progress: nothing of it; may begin next: deposit$/);
});

test("a report says what can happen next", async t => {
  const paths = opened(t, SLOT);
  await paths.enter("deposit");
  const report = paths.report();
  assert.deepEqual(report.startable, []);
  assert.deepEqual(report.blocked, { deposit: 0, remove: 0 });
  assert.deepEqual(report.live, [{ token: 0, worker: 1, operation: "deposit" }]);
  assert.deepEqual([report.frozen, report.lost], [false, []]);
  assert.equal(String(report), "startable\nblocked deposit 0\nblocked remove 0\nlive 0 1 deposit\nfrozen no\n");
});

test("operations and paths are told in the order of the text", t => {
  const paths = opened(t, "resource a tally operation b, c path {b}, c end path c end end resource d queue 3 operation e end");
  assert.deepEqual(paths.operations, ["b", "c", "e"]);
  assert.deepEqual(paths.paths, [
    { resource: "a", text: "{ b } , c", operations: ["b", "c"] },
    { resource: "a", text: "c", operations: ["c"] },
  ]);
});

test("devices answer", async t => {
  const cell = await opened(t, LOCK).enter("hold");
  const queue = await opened(t, QUEUE).enter("send");
  const tally = await opened(t, TALLY).enter("serve");
  assert.deepEqual([cell.put(2n ** 64n - 1n), cell.look(), cell.put(Number.MAX_SAFE_INTEGER)], [0n, 2n ** 64n - 1n, 2n ** 64n - 1n]);
  assert.deepEqual([queue.put(5), queue.use("put", 6n), queue.look(), queue.use("take"), queue.take()], [1n, 2n, 5n, 5n, 6n]);
  assert.deepEqual([tally.add(2n ** 33n), tally.use("add", 1), tally.use("look")], [2n ** 33n, 2n ** 33n + 1n, 2n ** 33n + 1n]);
  assert.throws(() => queue.take(), { name: "UseRefused", message: "take is refused: empty" });
  assert.throws(() => cell.add(1), { name: "UseRefused", message: "add is refused: not offered" });
  queue.put(1);
  queue.put(2);
  assert.throws(() => queue.put(3), { message: "put is refused: full" });
  assert.throws(() => tally.add(2n ** 64n - 1n), UseRefused);
});

test("what is no number of a device is refused", async t => {
  const entry = await opened(t, LOCK).enter("hold");
  for (const number of [-1, -1n, 2n ** 64n, 1.5, 2 ** 53, NaN, Infinity]) assert.throws(() => entry.put(number), RangeError);
  for (const number of ["7", null, {}]) assert.throws(() => entry.put(number), TypeError);
  for (const verb of ["push", undefined, 0]) assert.throws(() => entry.use(verb, 1), TypeError);
  assert.equal(entry.look(), 0n);
});

test("an operation that isn't declared is named", async t => {
  const paths = opened(t, SLOT);
  const wanted = { name: "UnknownOperation", message: "no operation 'insert' is declared; there are deposit, remove" };
  for (const call of ["tryEnter", "canStart", "why"]) assert.throws(() => paths[call]("insert"), wanted);
  await assert.rejects(paths.enter("insert"), wanted);
  await assert.rejects(paths.run("insert", () => {}), UnknownOperation);
  assert.throws(() => paths.tryEnter(Symbol("deposit")), UnknownOperation);
  assert.throws(() => paths.tryEnter(undefined), WanzocheError);
});

test("what is asked for has to be of its kind", async t => {
  for (const text of [undefined, null, 5, {}]) assert.throws(() => new Paths(text), TypeError);
  for (const room of [0, 1048577, 1.5, "5", NaN]) assert.throws(() => new Paths(SLOT, { room }), RangeError);
  assert.throws(() => new Paths(SLOT, { journal: false, log: [] }), TypeError);
  assert.throws(() => new Paths(SLOT, { log: 5 }), TypeError);
  assert.throws(() => new Paths(SLOT, { resume: 5 }), TypeError);
  const paths = opened(t, SLOT);
  for (const timeout of ["1", NaN, {}]) await assert.rejects(paths.enter("deposit", { timeout }), TypeError);
  await assert.rejects(paths.enter("deposit", { signal: {} }), TypeError);
  assert.equal(paths.report().live.length, 0);
  (await paths.enter("deposit", { timeout: null, signal: null })).leave();
});

test("a declaration may be bytes", t => {
  assert.deepEqual(opened(t, new TextEncoder().encode(SLOT)).operations, ["deposit", "remove"]);
});

test("closed paths say so", async () => {
  const paths = new Paths(SLOT);
  const entry = await paths.enter("deposit");
  const waits = [paths.enter("remove"), paths.enter("deposit", { timeout: 1e9 })];
  paths.close();
  for (const each of waits) await assert.rejects(each, { name: "Closed", message: "these paths were closed" });
  assert.throws(() => entry.leave(), Closed);
  assert.throws(() => entry.leave(), NotInProgress);
  await assert.rejects(paths.enter("deposit"), Closed);
  for (const call of ["report", "waiting", "journal", "audit", "rotate"]) assert.throws(() => paths[call](), Closed);
  for (const call of ["tryEnter", "canStart", "why"]) assert.throws(() => paths[call]("deposit"), Closed);
  paths.close();
  paths[Symbol.dispose ?? Symbol.for("Symbol.dispose")]();
});

test("a use of an entry whose paths were closed says so", async () => {
  const paths = new Paths(LOCK);
  const entry = await paths.enter("hold");
  paths.close();
  assert.throws(() => entry.put(1), Closed);
});

test("paths without a journal keep no lines, and have room for what is in progress", async t => {
  const paths = opened(t, "resource book cell operation read path { read } end end", { journal: false, room: 3 });
  const entries = [await paths.enter("read"), await paths.enter("read")];
  await assert.rejects(paths.enter("read"), OutOfRoom);
  assert.throws(() => paths.tryEnter("read"), { message: "no room for more: 2 in progress, or 4,294,967,295 were started" });
  entries[0].leave();
  assert.equal((await paths.enter("read")).token, 2);
  assert.throws(() => paths.journal(), { name: "NoJournal", message: "these paths were opened without a journal" });
  assert.throws(() => paths.audit(), { name: "NoJournal" });
  assert.equal(String(paths.audit("1 start read: started 0\n")), "sound");
  paths.rotate();
});

test("errors are of the kinds that they extend", () => {
  const error = new Closed("x");
  assert.ok(error instanceof WanzocheError && error instanceof Error);
  assert.equal(String(error), "Closed: x");
  assert.match(error.stack, /^Closed: x\n/);
});
