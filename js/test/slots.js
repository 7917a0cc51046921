// What several tests need: declarations, and a wait for what comes by itself.

import { Paths } from "wanzoche";

export const SLOT = "resource slot cell operation deposit, remove path deposit ; remove end end";
export const LOCK = "resource lock cell operation hold path hold end end";
export const POOL = "resource pool cell operation query, backup path { query : 3 } , backup end end";
export const BOOK = "resource book cell operation read, write path { read } , write end end";
export const QUEUE = "resource line queue 2 operation send path send end end";
export const TALLY = "resource total tally operation serve path serve end end";

/** A promise that is settled behind all that is due now. */
export function turn() {
  return new Promise(resolve => setImmediate(resolve));
}

/** Whether a promise is settled, once all that is due now has been done. */
export async function isSettled(promise) {
  let settled = false;
  promise.then(
    () => (settled = true),
    () => (settled = true),
  );
  await turn();
  return settled;
}

/** Paths that are closed when a test is over. */
export function opened(test, text, options) {
  const paths = new Paths(text, options);
  test.after(() => paths.close());
  return paths;
}

/** Numbers that look drawn by lot, and are the same each time. */
export function lots(seed) {
  let state = seed;
  return below => {
    state = (Math.imul(state, 1103515245) + 12345) & 0x7fffffff;
    return (state >> 8) % below;
  };
}
