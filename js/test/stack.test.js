// A stack that overflows in the middle of a call leaves nothing half done.

import assert from "node:assert/strict";
import { test } from "node:test";
import { Paths } from "wanzoche";
import { Library } from "../lib/library.js";
import { BOOK, LOCK, opened } from "./slots.js";

/** Calls itself until the stack overflows, and `work` at each of the last depths on the way back: how often that overflowed, too. */
function overflow(work, padding) {
  let overflows = 0;
  let left = 1500;
  const deeper = (...numbers) => {
    try {
      deeper(...numbers);
    } catch (error) {
      if (!(error instanceof RangeError)) throw error;
    }
    if (left-- <= 0) return;
    try {
      work();
    } catch (error) {
      if (!(error instanceof RangeError)) throw error;
      overflows++;
    }
  };
  deeper(...Array(padding).fill(0));
  return overflows;
}

for (const [name, journal] of [["with", true], ["without", false]]) {
  test(`paths ${name} a journal are whole after calls whose stack overflowed`, async t => {
    const paths = opened(t, LOCK, { journal, room: 100 });
    const held = [];
    let overflows = 0;
    for (let padding = 0; padding < 40; padding++) {
      overflows += overflow(() => {
        const entry = held.pop() ?? paths.tryEnter("hold");
        if (entry === null) return;
        try {
          entry.put(padding);
          entry.leave();
        } finally {
          if (entry.inProgress) held.push(entry);
        }
      }, padding);
      const live = paths.report().live.length;
      assert.equal(live, held.length, "what is in progress is what there is an entry of");
      held.splice(0).forEach(it => it.leave());
      (await paths.enter("hold")).leave();
    }
    assert.ok(overflows > 0);
  });
}

test("paths are whole after calls whose stack overflowed while somebody waited", async t => {
  const paths = opened(t, BOOK, { patience: 0 });
  const held = [];
  let overflows = 0;
  for (let padding = 0; padding < 40; padding++) {
    const holding = paths.tryEnter("read");
    const writer = paths.enter("write");
    paths.tryEnter("read", { holding }).leave(); // so that nothing has to be compiled any more, which takes more of the stack
    overflows += overflow(() => {
      const entry = held.pop() ?? paths.tryEnter("read", { holding });
      if (entry === null) return;
      try {
        entry.leave();
      } finally {
        if (entry.inProgress) held.push(entry);
      }
    }, padding);
    assert.equal(paths.report().live.length, held.length + 1, "what is in progress is what there is an entry of");
    assert.deepEqual(paths.waiting(), { write: 1 });
    held.splice(0).forEach(it => it.leave());
    holding.leave();
    (await writer).leave();
  }
  assert.ok(overflows > 0);
});

test("texts and paths that are opened where the stack overflows take no memory with them", t => {
  const paths = opened(t, LOCK);
  const calls = [() => new Paths(LOCK).close(), () => paths.report(), () => paths.journal()];
  let overflows = 0;
  let size = 0;
  let turn = 0;
  for (let padding = 0; padding < 40; padding++) {
    overflows += overflow(() => calls[turn++ % 3](), padding);
    if (padding === 3) ({ size } = Library.shared());
  }
  assert.ok(overflows > 0);
  assert.equal(Library.shared().size, size);
  assert.equal(String(paths.report()), "startable hold\nfrozen no\n");
});
