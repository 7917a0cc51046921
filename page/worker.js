// What takes long, in a worker: every schedule of a script, every history of a declaration, and the verdict on a long journal. A message brings the module first, and then
// work; an answer is { progress } while it goes on, and { done } at its end.

import { callsOf } from "./calls.js";
import { watchedSchedule } from "./scripts.js";
import { exploredBy, reachedBy, verdictOn } from "./verdicts.js";

// So many states are looked at first; if there are more, so many times as many, from the beginning, until all that may be.
const FIRST = 5000;
const TIMES = 4;

// What is found when more and more states are looked at.
function foundBy(look, most) {
  for (let some = Math.min(FIRST, most); ; some = Math.min(most, some * TIMES)) {
    const found = look(some);
    if (found.kind !== "undecided" || some === most) return found;
    postMessage({ progress: some });
  }
}

function explored({ calls, declaration, script, most }) {
  const found = foundBy(some => exploredBy(calls, declaration, script, some), most);
  return found.kind === "done" ? { ...found, attempts: watchedSchedule(calls, declaration, script) } : found;
}

const WORK = {
  explore: explored,
  reach: ({ calls, declaration, workers, most }) => foundBy(some => reachedBy(calls, declaration, workers, some), most),
  judge: ({ calls, declaration, journal }) => verdictOn(calls, declaration, journal),
};

let calls = null;

addEventListener("message", ({ data }) => {
  if (data.module) calls = callsOf(new WebAssembly.Module(data.module));
  else postMessage({ done: WORK[data.work]({ ...data, calls }) });
});
