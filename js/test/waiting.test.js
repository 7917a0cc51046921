// Who waits: thousands at once, in which order they begin, and what ends a wait.

import assert from "node:assert/strict";
import { test } from "node:test";
import { Timeout } from "wanzoche";
import { BOOK, isSettled, LOCK, lots, opened, POOL, SLOT, turn } from "./slots.js";

/** Does `work` in all of so many promises at once. */
function together(count, work) {
  return Promise.all(Array.from({ length: count }, (_, number) => work(number)));
}

test("thousands of queries and backups keep to the path", async t => {
  const paths = opened(t, POOL);
  const draw = lots(3);
  let [queries, backups, most, done] = [0, 0, 0, 0];
  await together(4000, async number => {
    const isQuery = number % 7 > 0;
    for (let before = draw(4); before > 0; before--) await turn();
    await paths.run(isQuery ? "query" : "backup", async () => {
      if (isQuery) queries++;
      else backups++;
      most = Math.max(most, queries);
      assert.ok(queries <= 3 && backups <= 1 && !(queries > 0 && backups > 0));
      for (let during = draw(3); during > 0; during--) await turn();
      if (isQuery) queries--;
      else backups--;
      done++;
    });
  });
  assert.deepEqual([queries, backups, most, done], [0, 0, 3, 4000]);
  assert.deepEqual(paths.waiting(), {});
  assert.equal(String(paths.audit()), "sound");
});

test("what is put in first is got first", async t => {
  const paths = opened(t, SLOT);
  const [box, got] = [[], []];
  await Promise.all([
    together(2000, () => paths.run("remove", () => got.push(box.pop()))),
    together(2000, number => paths.run("deposit", async () => {
      await null;
      box.push(number);
    })),
  ]);
  assert.deepEqual(got, Array.from({ length: 2000 }, (_, number) => number));
});

test("who waits for the same begins in the order of coming", async t => {
  const paths = opened(t, LOCK);
  const order = [];
  const first = await paths.enter("hold");
  const all = together(3000, number => paths.run("hold", () => order.push(number)));
  assert.deepEqual(paths.waiting(), { hold: 3000 });
  first.leave();
  await all;
  assert.deepEqual(order, Array.from({ length: 3000 }, (_, number) => number));
});

test("of those who may begin, who came first is asked first", async t => {
  const paths = opened(t, BOOK, { patience: Infinity });
  const order = [];
  const writer = await paths.enter("write");
  const all = ["read", "write", "read", "write"].map((name, at) => paths.run(name, () => order.push(at)));
  writer.leave();
  await Promise.all(all);
  assert.deepEqual(order, [0, 2, 1, 3]);
});

test("whoever may begin does so in the call that makes way", async t => {
  const paths = opened(t, BOOK);
  const writer = await paths.enter("write");
  const readers = [paths.enter("read"), paths.enter("read")];
  writer.leave();
  assert.deepEqual([paths.waiting(), paths.report().live.length], [{}, 2]);
  for (const each of await Promise.all(readers)) each.leave();
});

test("a time that is over starts nothing, and says what is in the way", async t => {
  const paths = opened(t, SLOT);
  const entry = await paths.enter("deposit");
  await assert.rejects(paths.enter("remove", { timeout: 5 }), error => {
    assert.ok(error instanceof Timeout);
    assert.equal(error.message, "remove is blocked for 5 ms: path 0 of slot: deposit ; remove; in progress: deposit by worker 1");
    return true;
  });
  for (const timeout of [0, -1, -Infinity]) await assert.rejects(paths.enter("remove", { timeout }), /^Timeout: remove is blocked: path 0/);
  assert.deepEqual(paths.waiting(), {});
  const late = paths.enter("remove", { timeout: 0 });
  entry.leave();
  await assert.rejects(late, Timeout);
  assert.equal((await paths.enter("remove", { timeout: 0 })).worker, 1);
  assert.equal(paths.tryEnter("deposit"), null);
  assert.match(paths.journal(), /\n2 start deposit: blocked 0\n$/, "who gave up gave its number back");
});

test("times that no timer takes are waited for", async t => {
  const paths = opened(t, LOCK);
  const entry = await paths.enter("hold");
  const long = [2 ** 31, 2 ** 40, Number.MAX_VALUE, Infinity].map(timeout => paths.enter("hold", { timeout }));
  for (const each of long) assert.equal(await isSettled(each), false);
  entry.leave();
  for (const each of long) (await each).leave();
});

test("a signal that has aborted starts nothing", async t => {
  const paths = opened(t, LOCK);
  await assert.rejects(paths.enter("hold", { signal: AbortSignal.abort() }), { name: "AbortError" });
  const reason = { any: "thing" };
  await assert.rejects(paths.enter("hold", { signal: AbortSignal.abort(reason) }), it => it === reason);
  assert.equal(paths.journal(), "");
});

test("a wait that is aborted passes its turn on", async t => {
  const paths = opened(t, LOCK);
  const entry = await paths.enter("hold");
  const controller = new AbortController();
  const [first, second] = [paths.enter("hold", { signal: controller.signal }), paths.enter("hold")];
  controller.abort(new RangeError("enough"));
  await assert.rejects(first, RangeError);
  assert.deepEqual(paths.waiting(), { hold: 1 });
  entry.leave();
  (await second).leave();
});

test("an abort behind the admission changes nothing", async t => {
  const paths = opened(t, LOCK);
  const entry = await paths.enter("hold");
  const controller = new AbortController();
  const waits = paths.enter("hold", { signal: controller.signal });
  entry.leave();
  controller.abort();
  (await waits).leave();
  const free = paths.enter("hold", { signal: controller.signal });
  await assert.rejects(free, { name: "AbortError" });
  assert.equal(paths.canStart("hold"), true);
});

test("an abort at each moment loses no turn and starts nothing twice", async t => {
  const paths = opened(t, LOCK);
  for (let moment = 0; moment < 12; moment++) {
    const controllers = Array.from({ length: 5 }, () => new AbortController());
    const ends = { entered: 0, aborted: 0 };
    const all = controllers.map(({ signal }) =>
      paths.run("hold", async () => {
        await null;
        await null;
      }, { signal }).then(() => ends.entered++, error => {
        assert.equal(error.name, "AbortError");
        ends.aborted++;
      }),
    );
    for (let step = 0; step < moment; step++) await null;
    controllers[2].abort();
    controllers[3].abort();
    await Promise.all(all);
    assert.equal(ends.entered + ends.aborted, 5);
    assert.ok(ends.entered >= 3);
    assert.deepEqual([paths.waiting(), paths.report().live, paths.canStart("hold")], [{}, [], true]);
  }
  assert.equal(String(paths.audit()), "sound");
});

test("thousands that enter, give up and go away at random leave all free", async t => {
  const paths = opened(t, BOOK);
  const draw = lots(5);
  const counts = { entered: 0, gone: 0 };
  await together(3000, async number => {
    const controller = new AbortController();
    const waits = paths.run(number % 5 ? "read" : "write", () => turn(), { signal: controller.signal });
    const ends = waits.then(() => counts.entered++, () => counts.gone++);
    for (let before = draw(6); before > 0; before--) await turn();
    if (draw(2)) controller.abort();
    await ends;
  });
  assert.equal(counts.entered + counts.gone, 3000);
  assert.ok(counts.entered > 0 && counts.gone > 0);
  assert.deepEqual([paths.waiting(), paths.report().live, paths.report().startable], [{}, [], ["read", "write"]]);
  assert.equal(String(paths.audit()), "sound");
});

test("what ends a wait is forgotten with it", async t => {
  const paths = opened(t, LOCK);
  const entry = await paths.enter("hold");
  const counts = { added: 0, removed: 0 };
  const signal = { aborted: false, addEventListener: () => counts.added++, removeEventListener: () => counts.removed++ };
  const waits = [paths.enter("hold", { signal }), paths.enter("hold", { signal, timeout: 1 })];
  await assert.rejects(waits[1], Timeout);
  entry.leave();
  (await waits[0]).leave();
  assert.deepEqual(counts, { added: 2, removed: 2 });
});
