// What an entry and its leave cost, alone and where others wait, beside the same by hand: node js/bench.js [TURNS]
// Each figure is of one entry with its leave, in microseconds: the least and the median of so many turns, which are taken one after the
// other, so that what else the machine does meets all alike.

import { Paths } from "wanzoche";

const TURNS = Number(process.argv[2] ?? 9);
const TIMES = 20_000;
const TEXT = "resource lock cell operation hold path hold end end";

/** A lock by hand: each holder waits for the promise of the one before. */
class Chain {
  #last = Promise.resolve();

  enter() {
    let leave;
    const before = this.#last;
    this.#last = new Promise(resolve => (leave = resolve));
    return before.then(() => ({ leave }));
  }
}

/** A lock by hand, with a queue of those who wait. */
class Mutex {
  #held = false;
  #waiting = [];

  enter() {
    if (!this.#held) {
      this.#held = true;
      return Promise.resolve(this);
    }
    return new Promise(resolve => this.#waiting.push(resolve));
  }

  leave() {
    const next = this.#waiting.shift();
    if (next === undefined) this.#held = false;
    else next(this);
  }
}

async function alone(lock) {
  for (let time = 0; time < TIMES; time++) (await lock.enter("hold")).leave();
}

async function runs(lock) {
  for (let time = 0; time < TIMES; time++) await lock.run("hold", () => {});
}

/** A hundred at once, each of whom waits for those before. */
async function contended(lock) {
  for (let time = 0; time < TIMES; time += 100) {
    await Promise.all(Array.from({ length: 100 }, async () => (await lock.enter("hold")).leave()));
  }
}

/** Paths behind so many entries. */
function behind(entries, options) {
  const paths = new Paths(TEXT, options);
  for (let time = 0; time < entries; time++) paths.tryEnter("hold").leave();
  return paths;
}

const [young, old] = [behind(1_000), behind(1_000_000)];
const bare = behind(1_000_000, { journal: false });
const [chain, mutex] = [new Chain(), new Mutex()];
const kinds = [
  ["await enter, leave; 1,000 entries before", () => alone(young)],
  ["await enter, leave; 1,000,000 entries before", () => alone(old)],
  ["the same without a journal", () => alone(bare)],
  ["await run", () => runs(old)],
  ["tryEnter, leave", async () => { for (let time = 0; time < TIMES; time++) old.tryEnter("hold").leave(); }],
  ["a promise chain by hand", () => alone(chain)],
  ["a mutex by hand", () => alone(mutex)],
  ["100 at once: await enter, leave", () => contended(old)],
  ["100 at once: the same without a journal", () => contended(bare)],
  ["100 at once: a promise chain by hand", () => contended(chain)],
  ["100 at once: a mutex by hand", () => contended(mutex)],
];
const found = kinds.map(() => []);
for (const [, work] of kinds) await work();
for (let turn = 0; turn < TURNS; turn++) {
  for (const [at, [, work]] of kinds.entries()) {
    const begun = performance.now();
    await work();
    found[at].push(((performance.now() - begun) * 1000) / TIMES);
  }
}
for (const [at, [name]] of kinds.entries()) {
  const sorted = found[at].sort((one, other) => one - other);
  console.log(`${name.padEnd(48)} ${sorted[0].toFixed(2).padStart(6)} ${sorted[TURNS >> 1].toFixed(2).padStart(6)}`);
}
