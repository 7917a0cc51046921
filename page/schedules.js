// Every schedule of a script; and the attempts step by step.

import { $, announce, FIRST_MEND, say, tell } from "./dom.js";
import { counted, itemsOf, told } from "./html.js";
import { keepDraft } from "./cases.js";
import { now } from "./now.js";
import { show } from "./page.js";
import { goTo } from "./state.js";
import { processesIn } from "./scripts.js";
import { Lines } from "./texts.js";
import { asOneStep, rewrite, textOf } from "./writing.js";
import { handOut } from "./workers.js";

// So many states are looked at, as by the program.
export const MOST_STATES = 1000000;
// Milliseconds from one step that is played to the next.
const BEAT = 900;

// What the schedules of the script came to, while that is known; the schedule that was found, with the names of its processes; and what
// stops a search, while there is one.
let found = null;
let schedule = null;
let stopping = null;

// The names of the workers of these attempts, if they begin with the schedule that was found.
export const namesFor = attempts => schedule !== null && attempts.startsWith(schedule.attempts) ? schedule.names : null;

export const states = number => counted(number, "state");

function wordsOf() {
  const where = namesFor(textOf("attempts")) ? " It is under Attempts now." : "";
  const steps = found.kind === "stalled" || found.kind === "refused" ? counted(found.admitted, "step") : "";
  switch (found.kind) {
    case "empty": return "The script is empty: no process is in it.";
    case "done": return `${told("No schedule stalls", "yes")}, and in none is a step refused: ${states(found.states)}.`
      + (where && " One of them is under Attempts now.");
    case "undecided": return `${told(`Undecided after ${states(found.states)}`, "no")}: there are more. `
      + "pathsys explore looks at as many as its --most says.";
    case "stopped": return `Stopped: more than ${states(found.states)} were looked at, and nothing is said of the others.`;
    case "fault": return told(found.says, "no");
    case "stalled": return `${told(`A schedule stalls after ${steps}`, "no")}, and none sooner.${where}`;
    default: return `${told(`A schedule has a step refused after ${steps}`, "no")}, and none goes wrong sooner.${where}`;
  }
}

// Looks at every schedule of the script, or stops doing so.
export function exploreOrStop() {
  if (stopping) return stopSearch();
  if (!now.declared.isRead) return tell("script-said", told(FIRST_MEND, "no"));
  const script = textOf("script");
  let looked = 0;
  const stop = handOut({ work: "explore", declaration: now.declared.text, script, most: MOST_STATES }, result => {
    stopping = null;
    showFound(result);
  }, progress => {
    looked = progress;
    say("script-said", `More than ${states(progress)}. Going on ..`);
  });
  stopping = () => {
    stop();
    return looked;
  };
  say("script-said", "Looking at every schedule ..");
  say("script-why", "");
  showSearch();
}

function stopSearch() {
  const looked = stopping();
  stopping = null;
  showFound({ kind: "stopped", states: looked });
}

function showSearch() {
  $("explore").textContent = stopping ? "Stop" : "Explore";
  $("watch").hidden = stopping !== null || !namesFor(textOf("attempts"));
}

// Shows what was found. A schedule takes the place of the attempts.
function showFound(result) {
  found = result;
  const script = textOf("script");
  if (found.attempts !== undefined) putSchedule(found.attempts, processesIn(script).map(it => it.name));
  tell("script-said", wordsOf());
  say("script-why", itemsOf(found.processes ?? found.why ?? []));
  announce("script-why");
  $("script").setAttribute("aria-invalid", found.kind === "fault" && found.line !== undefined);
  const sheet = now.sheets.script;
  sheet.show(new Lines(script), new Map(found.line === undefined ? [] : [[found.line, "fault"]]));
  if (found.line !== undefined) sheet.reveal(found.line);
  showSearch();
}

// Puts a schedule in the place of the attempts, which are kept.
export function putSchedule(attempts, names) {
  if (textOf("attempts") !== "" && textOf("attempts") !== attempts) keepDraft();
  now.isTyping = now.isBefore = false;
  schedule = { attempts, names };
  asOneStep(() => rewrite("attempts", attempts));
  $("attempts").setSelectionRange(attempts.length, attempts.length);
  show();
  now.sheets.attempts.reveal(now.answered.length - 1);
}

// Forgets what was found: of another script or declaration nothing is known.
export function showScript() {
  stopping?.();
  stopping = found = null;
  say("script-said", "");
  say("script-why", "");
  $("script").setAttribute("aria-invalid", false);
  now.sheets.script.show(new Lines(textOf("script")), new Map());
  $("save-script").disabled = textOf("script") === "";
  showSearch();
}

// ---- step by step

// The next step that is played, if one is.
let beat = 0;

export const isPlaying = () => beat !== 0;

export function showPlay() {
  if (found) say("script-said", wordsOf());
  showSearch();
  if (now.answered.length === 0) stopPlaying();
  $("play").disabled = now.answered.length === 0;
  $("play").textContent = beat ? "Stop" : "Play";
}

function stopPlaying() {
  clearTimeout(beat);
  beat = 0;
}

// Plays the attempts from before the first line, at the slider; or stops.
export function play() {
  if (beat) {
    stopPlaying();
    return showPlay();
  }
  playFrom(now.state.lines < now.answered.length ? now.state.lines : 0);
}

// Goes to the picture, and plays there, with the button that stops it at hand.
export function watch() {
  $("picture-head").scrollIntoView({ block: "nearest" });
  $("play").scrollIntoView({ block: "nearest" });
  $("play").focus({ preventScroll: true });
  stopPlaying();
  playFrom(0);
}

// Shows the moment after so many lines, and a beat later the next, unless another is shown by then.
function playFrom(lines) {
  const { answered } = now;
  goTo(lines);
  beat = lines < answered.length ? setTimeout(() => {
    if (now.state.lines === lines && now.answered === answered) return playFrom(lines + 1);
    stopPlaying();
    showPlay();
  }, BEAT) : 0;
  showPlay();
}
