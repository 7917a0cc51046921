// Memory that is used up, to the last of its 4 GB.

import assert from "node:assert/strict";
import { test } from "node:test";
import { Paths } from "wanzoche";
import { Library } from "../lib/library.js";
import { LOCK, opened } from "./slots.js";

test("paths for which there is no memory aren't opened, and others go on", async t => {
  const paths = opened(t, LOCK);
  const held = [];
  try {
    assert.throws(() => {
      for (;;) held.push(new Paths(LOCK, { room: 1048576 }));
    }, { name: "OutOfMemory", message: /no memory for paths with room for 1048576 lines/ });
    assert.ok(held.length > 20, "150 MB each, of 4 GB");
    (await paths.enter("hold")).leave();
  } finally {
    held.forEach(it => it.close());
  }
  const { size } = Library.shared();
  new Paths(LOCK, { room: 1048576 }).close();
  assert.equal(Library.shared().size, size);
});
