// Every history of the declaration, without a script: which operations never begin, and whether its paths can freeze.

import { $, announce, FIRST_MEND, MOST_LISTED, say, tell } from "./dom.js";
import { counted, itemsOf, told } from "./html.js";
import { now } from "./now.js";
import { MOST_STATES, putSchedule, states, watch } from "./schedules.js";
import { handOut } from "./workers.js";

// What was found, while that is known; and what stops a search, while there is one.
let histories = null;
let stopReaching = null;

function historyWords() {
  switch (histories.kind) {
    case "goes": return `${told("Every operation begins somewhere, and the resources never all freeze", "yes")}: ${states(histories.states)}.`;
    case "never": return `${told(`${counted(histories.never.length, "operation")} never ${histories.never.length === 1 ? "begins" : "begin"}`, "no")}, whatever came before: ${states(histories.states)}.`;
    case "frozen": return `${told(`The paths freeze after ${counted(histories.admitted, "step")}`, "no")}, and never sooner: nothing is in progress then, and nothing may begin.`;
    case "late": return told("The paths freeze, behind more steps than a journal has room for.", "no");
    case "undecided": return `${told(`Undecided after ${states(histories.states)}`, "no")}: there are more. pathsys explore looks at as many as its --most says.`;
    case "stopped": return `Stopped: more than ${states(histories.states)} were looked at, and nothing is said of the others.`;
    default: return told(histories.says, "no");
  }
}

// Looks at every history of the declaration, or stops doing so.
export function reachOrStop() {
  if (stopReaching) return stopReach();
  if (!now.declared.isRead) return tell("histories-said", told(FIRST_MEND, "no"));
  let looked = 0;
  const stop = handOut({ work: "reach", declaration: now.declared.text, workers: Number($("at-once").value), most: MOST_STATES }, result => {
    stopReaching = null;
    showHistories(result);
  }, progress => {
    looked = progress;
    say("histories-said", `More than ${states(progress)}. Going on ..`);
  });
  stopReaching = () => {
    stop();
    return looked;
  };
  histories = null;
  say("histories-said", "Looking at every order ..");
  say("histories-why", "");
  showReach();
}

function stopReach() {
  const looked = stopReaching();
  stopReaching = null;
  showHistories({ kind: "stopped", states: looked });
}

function showReach() {
  $("reach").textContent = stopReaching ? "Stop" : "Explore";
  $("watch-freeze").hidden = histories?.kind !== "frozen";
}

function showHistories(result) {
  histories = result;
  tell("histories-said", historyWords());
  say("histories-why", itemsOf(histories.never ?? histories.attempts?.trim().split("\n").slice(0, MOST_LISTED) ?? []));
  announce("histories-why");
  showReach();
}

// Puts the history that freezes the paths in the place of the attempts, and plays it.
export function watchFreeze() {
  putSchedule(histories.attempts, null);
  watch();
}

// Forgets what was found: of another declaration nothing is known.
export function forgetHistories() {
  stopReaching?.();
  stopReaching = histories = null;
  say("histories-said", "");
  say("histories-why", "");
  showReach();
}
