// The memory of the module: what is reserved lies apart, and what is given back is used again.

import assert from "node:assert/strict";
import { test } from "node:test";
import { OutOfMemory, Paths } from "wanzoche";
import { Library } from "../lib/library.js";
import { BOOK, LOCK, lots, opened } from "./slots.js";

/** How much memory there is, and where of it a small piece is free: the same, if all was given back that was reserved since. */
function state() {
  const library = Library.shared();
  const free = library.reserve(40);
  library.calls.release(free);
  return [library.size, free];
}

/** Fills some bytes of reserved memory with a mark, or says that they have it. */
function marked({ library, at, size, mark }, checks) {
  const bytes = library.bytesAt(at, size);
  for (const place of size === 0 ? [] : [0, size >> 1, size - 1]) {
    if (checks) assert.equal(bytes[place], mark, `byte ${place} of ${size}`);
    else bytes[place] = mark;
  }
}

test("memory that is reserved lies apart, whatever is given back between", () => {
  Library.alone(library => {
    const draw = lots(11);
    const held = [];
    for (let step = 0; step < 40000; step++) {
      if (held.length > 300 || (held.length > 0 && draw(2))) {
        const [it] = held.splice(draw(held.length), 1);
        marked(it, true);
        library.calls.release(it.at);
      } else {
        const size = draw(10) ? draw(300) : draw(50) ? draw(20000) : draw(2000000);
        const it = { library, size, at: library.reserve(size), mark: draw(256) };
        assert.equal(it.at % 16, 0);
        marked(it, false);
        held.push(it);
      }
    }
    for (const it of held) library.calls.release(it.at);
    const { size } = library;
    library.calls.release(library.reserve(size - 2 ** 21));
    assert.equal(library.size, size, "all that was given back became one piece");
  });
});

test("memory that there isn't is said not to be, and what there is stays", () => {
  Library.alone(library => {
    const at = library.reserve(100);
    library.bytesAt(at, 100).fill(7);
    for (const size of [0xffffffff, 0xffff0000, 0xfffeffff]) assert.throws(() => library.reserve(size), OutOfMemory);
    assert.deepEqual([...library.bytesAt(at, 100)], Array(100).fill(7));
    library.calls.release(library.reserve(1000));
  });
});

test("paths that are opened and closed again and again take no more memory", () => {
  let before;
  for (let time = 0; time < 2000; time++) {
    const paths = new Paths(time % 2 ? BOOK : LOCK, { journal: time % 3 > 0, room: 2 + ((time * 37) % 5000) });
    paths.tryEnter(time % 2 ? "read" : "hold");
    paths.why("write".slice(0, time % 2 ? 5 : 0) || "hold");
    paths.close();
    if (time === 1000) before = state();
  }
  assert.deepEqual(state(), before);
});

test("refused declarations and journals take no memory with them", () => {
  const refused = [["nothing", {}], [LOCK, { resume: "hello\n1 start hold: started 0\n" }], [LOCK, { log: 5 }]];
  let before;
  for (let time = 0; time < 600; time++) {
    const [text, options] = refused[time % 3];
    assert.throws(() => new Paths(text, options));
    if (time === 300) before = state();
  }
  assert.deepEqual(state(), before);
});

test("without a journal hundreds of thousands of entries take no memory", async t => {
  const paths = opened(t, BOOK, { journal: false, room: 100 });
  const { size } = Library.shared();
  for (let time = 0; time < 300000; time++) paths.tryEnter("read").leave();
  assert.equal(Library.shared().size, size);
  assert.equal((await paths.enter("write")).token, 300000);
});
