// Who comes next: in which order those who wait go on, and from whom a start is withheld. The clock goes on when a test says so.

import assert from "node:assert/strict";
import { after, test } from "node:test";
import { Blocked, Paths, Timeout } from "wanzoche";
import { clock } from "../lib/timer.js";
import { BOOK, isSettled, LOCK, opened, SLOT } from "./slots.js";

const PATIENCE = 5;
const MOST = 200;
const DESK = `${BOOK} resource desk cell operation sit path sit end end`;
const CHOICE = "resource r cell operation x, y, z, q path (x ; z) , y end path { q } , y end end";
const BUFFER = "resource b cell operation deposit, remove path { deposit ; remove : 2 } end path deposit end path remove end end";

/** A clock that stands until it is moved. */
const hand = {
  time: 1000,
  calls: new Map(),
  ids: 0,
  /** Moves it, and calls what is due. */
  goesOn(milliseconds) {
    hand.time += milliseconds;
    for (const [id, { at, call }] of [...hand.calls]) if (at <= hand.time && hand.calls.delete(id)) call();
  },
};

const { ...own } = clock;
Object.assign(clock, {
  now: () => hand.time,
  start(call, milliseconds) {
    hand.calls.set(++hand.ids, { at: hand.time + milliseconds, call });
    return hand.ids;
  },
  stop: id => hand.calls.delete(id),
});
after(() => Object.assign(clock, own));

const strict = { patience: 0 };

/** Who waits, by operations, in order. */
function standing(paths) {
  return paths.waiters().map(it => it.operation);
}

/** The operation is withheld for one who waits for another. */
function isShut(paths, operation, behind) {
  const why = paths.why(operation);
  assert.ok(why instanceof Blocked);
  assert.deepEqual([why.behind.operation, why.path, why.text, why.inProgress], [behind, null, null, []]);
  assert.equal(paths.canStart(operation), false);
  assert.equal(paths.tryEnter(operation), null);
}

test("a reader stands behind a writer that waits", async t => {
  const paths = opened(t, BOOK, strict);
  const reading = paths.tryEnter("read");
  const [writer, reader] = [paths.enter("write"), paths.enter("read")];
  isShut(paths, "read", "write");
  assert.deepEqual(standing(paths), ["write", "read"]);
  reading.leave();
  assert.deepEqual(standing(paths), ["read"]);
  (await writer).leave();
  (await reader).leave();
});

test("with endless patience nothing is withheld", async t => {
  const paths = opened(t, BOOK, { patience: Infinity });
  const reading = paths.tryEnter("read");
  const writer = paths.enter("write");
  hand.goesOn(1e9);
  assert.deepEqual([paths.why("read"), paths.canStart("read")], [null, true]);
  paths.tryEnter("read").leave();
  (await paths.enter("read")).leave();
  reading.leave();
  (await writer).leave();
});

test("nothing is withheld before patience ends", async t => {
  const paths = opened(t, BOOK);
  const reading = paths.tryEnter("read");
  const writer = paths.enter("write");
  hand.goesOn(PATIENCE - 1);
  paths.tryEnter("read").leave();
  hand.goesOn(1);
  isShut(paths, "read", "write");
  reading.leave();
  (await writer).leave();
});

test("a reader within a reader doesn't stall, if it says so", async t => {
  const paths = opened(t, BOOK, strict);
  let writer;
  await paths.run("read", async holding => {
    writer = paths.enter("write");
    isShut(paths, "read", "write");
    paths.tryEnter("read", { holding }).leave();
    assert.deepEqual([paths.canStart("read", { holding }), paths.why("read", { holding: [holding] })], [true, null]);
    await paths.run("read", () => {}, { holding });
  });
  (await writer).leave();
});

test("what one holds who begins to wait runs no more, so others pass", async t => {
  const paths = opened(t, DESK, strict);
  const [sitting, reading] = [paths.tryEnter("sit"), paths.tryEnter("read")];
  const [writer, reader] = [paths.enter("write"), paths.enter("read")];
  assert.deepEqual(standing(paths), ["write", "read"]);
  const sitter = paths.enter("sit", { holding: reading });
  assert.deepEqual(standing(paths), ["write", "sit"]);
  sitting.leave();
  (await sitter).leave();
  isShut(paths, "read", "write");
  reading.leave();
  (await reader).leave();
  (await writer).leave();
});

test("so does what one holds who waits at other paths", async t => {
  const [book, lock] = [opened(t, BOOK, strict), opened(t, LOCK, strict)];
  const [held, reading] = [lock.tryEnter("hold"), book.tryEnter("read")];
  const [writer, reader] = [book.enter("write"), book.enter("read")];
  const holder = lock.enter("hold", { holding: [reading] });
  assert.deepEqual(standing(book), ["write"]);
  held.leave();
  (await holder).leave();
  isShut(book, "read", "write");
  for (const entry of [await reader, reading]) entry.leave();
  (await writer).leave();
});

test("an entry runs again when nobody waits any more who holds it", async t => {
  const paths = opened(t, DESK, strict);
  const [sitting, reading] = [paths.tryEnter("sit"), paths.tryEnter("read")];
  const writer = paths.enter("write");
  const controller = new AbortController();
  const first = paths.enter("sit", { holding: [reading, reading], signal: controller.signal });
  const second = paths.enter("sit", { holding: reading });
  controller.abort();
  await assert.rejects(first, { name: "AbortError" });
  paths.tryEnter("read").leave();
  sitting.leave();
  (await second).leave();
  isShut(paths, "read", "write");
  reading.leave();
  (await writer).leave();
});

test("one who gives up lets others pass", async t => {
  const paths = opened(t, BOOK, strict);
  const reading = paths.tryEnter("read");
  const controller = new AbortController();
  const writers = [paths.enter("write", { signal: controller.signal }), paths.enter("write", { timeout: 50 })];
  const reader = paths.enter("read");
  controller.abort();
  await assert.rejects(writers[0], { name: "AbortError" });
  assert.deepEqual(standing(paths), ["write", "read"]);
  hand.goesOn(50);
  await assert.rejects(writers[1], { name: "Timeout", message: /^write is blocked for 50 ms: path 0 of book/ });
  assert.deepEqual(standing(paths), []);
  assert.equal(hand.calls.size, 0);
  (await reader).leave();
  reading.leave();
});

test("the start of one may let others pass", async t => {
  const paths = opened(t, CHOICE, strict);
  const first = paths.tryEnter("q");
  const [y, q] = [paths.enter("y"), paths.enter("q")];
  isShut(paths, "x", "y");
  const x = paths.tryEnter("x", { priority: 1 }); // y can't follow any more, before z
  assert.deepEqual(standing(paths), ["y"]);
  for (const entry of [await q, first, x]) entry.leave();
  paths.tryEnter("z").leave();
  (await y).leave();
});

test("a remover that waits first keeps no deposit out", async t => {
  const paths = opened(t, SLOT, strict);
  const removers = [paths.enter("remove"), paths.enter("remove")];
  for (const remover of removers) {
    paths.tryEnter("deposit").leave();
    (await remover).leave();
  }
});

test("a buffer runs in order", async t => {
  const paths = opened(t, BUFFER, strict);
  const depositing = paths.tryEnter("deposit");
  const [first, second, remover] = ["deposit", "deposit", "remove"].map(it => paths.enter(it));
  depositing.leave();
  (await first).leave();
  assert.deepEqual(standing(paths), ["deposit"]);
  (await remover).leave();
  (await second).leave();
  for (let time = 0; time < 2; time++) paths.tryEnter("remove").leave();
});

test("who has a higher priority comes first", async t => {
  const paths = opened(t, LOCK, strict);
  const holding = paths.tryEnter("hold");
  const order = [];
  const all = [0, 5, null, 4294967295, 5].map((priority, at) => paths.run("hold", () => order.push(at), { priority }));
  assert.deepEqual(paths.waiters().map(it => it.priority), [4294967295, 5, 5, 0, 0]);
  holding.leave();
  await Promise.all(all);
  assert.deepEqual(order, [3, 1, 4, 0, 2]);
});

test("who has a higher priority passes those who wait", async t => {
  const paths = opened(t, BOOK, strict);
  const reading = paths.tryEnter("read");
  const writer = paths.enter("write", { priority: 3 });
  assert.equal(paths.tryEnter("read", { priority: 3 }), null);
  paths.tryEnter("read", { priority: 4 }).leave();
  reading.leave();
  (await writer).leave();
});

test("a door opens for those who came meanwhile", async t => {
  const paths = opened(t, BOOK);
  const reading = paths.tryEnter("read");
  const writer = paths.enter("write");
  hand.goesOn(PATIENCE);
  const second = paths.enter("read"); // the first waits for it, and nothing says so
  hand.goesOn(MOST - 1);
  assert.deepEqual(standing(paths), ["write", "read"]);
  hand.goesOn(1);
  assert.deepEqual(standing(paths), ["write"]);
  hand.goesOn(1);
  isShut(paths, "read", "write");
  const third = paths.enter("read");
  hand.goesOn(MOST);
  for (const entry of [await second, await third, reading]) entry.leave();
  (await writer).leave();
  assert.equal(hand.calls.size, 0);
});

test("a door opens also for one who was blocked before", async t => {
  const paths = opened(t, "resource b cell operation read, write, list path { read , list } , write end path list end end");
  const [reading, listing] = [paths.tryEnter("read"), paths.tryEnter("list")];
  const writer = paths.enter("write");
  hand.goesOn(PATIENCE);
  const lister = paths.enter("list");
  listing.leave();
  assert.deepEqual(standing(paths), ["write", "list"]);
  hand.goesOn(MOST);
  for (const entry of [await lister, reading]) entry.leave();
  (await writer).leave();
});

test("a time that is over says behind whom a start was", async t => {
  const paths = opened(t, BOOK, strict);
  const reading = paths.tryEnter("read");
  const writer = paths.enter("write", { priority: 2 });
  hand.goesOn(100);
  const late = paths.enter("read", { timeout: 42 });
  hand.goesOn(42);
  await assert.rejects(late, error => {
    assert.ok(error instanceof Timeout);
    assert.equal(error.message, "read is withheld for 42 ms: behind write by worker 2, which has waited 142 ms");
    assert.deepEqual(error.behind, { operation: "write", worker: 2, priority: 2, waited: 142 });
    return true;
  });
  const message = "read is withheld: behind write by worker 2, which has waited 142 ms";
  await assert.rejects(paths.enter("read", { timeout: 0 }), { message });
  reading.leave();
  (await writer).leave();
});

test("closed paths release whom they shut out, and call no more", async () => {
  const paths = new Paths(BOOK, strict);
  paths.tryEnter("read");
  const waits = [paths.enter("write"), paths.enter("read")];
  assert.equal(hand.calls.size, 1);
  paths.close();
  for (const each of waits) await assert.rejects(each, { name: "Closed" });
  assert.equal(hand.calls.size, 0);
  assert.throws(() => paths.waiters(), { name: "Closed" });
});

test("what is no patience, no priority and no entry is refused", async t => {
  for (const patience of ["5", null, NaN]) assert.throws(() => new Paths(BOOK, { patience }), TypeError);
  for (const patience of [-1, -Infinity]) assert.throws(() => new Paths(BOOK, { patience }), RangeError);
  const paths = opened(t, BOOK);
  for (const priority of [-1, 1.5, 2 ** 32, "1", NaN]) {
    await assert.rejects(paths.enter("read", { priority }), RangeError);
    assert.throws(() => paths.tryEnter("read", { priority }), RangeError);
  }
  for (const holding of [{}, "read", 5, [null]]) await assert.rejects(paths.enter("read", { holding }), TypeError);
  assert.equal(await isSettled(paths.enter("read", { priority: null, holding: null })), true);
});
