// Entries and paths that nobody has any more.

import assert from "node:assert/strict";
import { test } from "node:test";
import { setFlagsFromString } from "node:v8";
import { runInNewContext } from "node:vm";
import { Paths } from "wanzoche";
import { Library } from "../lib/library.js";
import { LOCK, opened, turn } from "./slots.js";

setFlagsFromString("--expose-gc");
const collect = runInNewContext("gc");

/** Collects what nobody has, until something is so. It always comes to be so, but a finalizer isn't owed at any one moment. */
async function until(isSo) {
  while (!isSo()) {
    collect();
    await turn();
  }
}

/** Does `work` while the console's errors go to a list. */
async function withErrors(work) {
  const { error } = console;
  const errors = [];
  console.error = text => errors.push(text);
  try {
    await work(errors);
  } finally {
    console.error = error;
  }
}

test("an entry that is dropped in progress is ended, and the console says so", async t => {
  const paths = opened(t, LOCK);
  await withErrors(async errors => {
    (() => paths.tryEnter("hold"))();
    const waits = paths.enter("hold");
    await until(() => errors.length > 0);
    (await waits).leave();
    assert.deepEqual(errors, ["wanzoche: an entry of hold was dropped in progress, and is ended now: keep what enter gives, and leave it"]);
  });
});

test("an entry that was left is dropped in silence", async t => {
  const paths = opened(t, LOCK);
  await withErrors(async errors => {
    let gone = 0;
    const registry = new FinalizationRegistry(() => gone++);
    await (async () => {
      for (let time = 0; time < 100; time++) {
        const entry = await paths.enter("hold");
        registry.register(entry);
        if (time % 2) entry.leave();
        else entry[Symbol.dispose ?? Symbol.for("Symbol.dispose")]();
      }
    })();
    await until(() => gone === 100);
    await turn();
    assert.deepEqual(errors, []);
  });
});

test("an entry keeps its paths", async () => {
  let collected = false;
  const registry = new FinalizationRegistry(() => (collected = true));
  const entry = await (async () => {
    registry.register({});
    return new Paths(LOCK).enter("hold");
  })();
  await until(() => collected);
  await turn();
  assert.equal(entry.put(5), 0n);
  entry.leave();
});

/** Where the first small piece of memory is free: at the beginning, if nothing is reserved. */
function firstFree(library) {
  const at = library.reserve(40);
  library.calls.release(at);
  return at;
}

test("paths that nobody has give all their memory back, also with somebody who waits", async () => {
  const open = () => {
    const paths = new Paths(LOCK, { room: 1000 });
    paths.tryEnter("hold");
    paths.enter("hold");
  };
  await withErrors(async () => {
    for (let time = 0; time < 30; time++) open();
    assert.notEqual(firstFree(Library.shared()), Library.alone(firstFree));
    await until(() => firstFree(Library.shared()) === Library.alone(firstFree));
  });
});
