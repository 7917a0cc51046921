// The picture in the page: how it fills its place, and what a click and a key in it do.

import { $, MOST_DRAWN } from "./dom.js";
import { drawn, labels, labelWidth, momentMark, stepFor } from "./drawing.js";
import { itemsOf } from "./html.js";
import { LANE, spokenOf, summaryOf } from "./lanes.js";
import { now } from "./now.js";
import { viewOf } from "./sheet.js";
import { goTo } from "./state.js";

let view = null;
// The width of a line in the picture.
let step = 0;

const parts = () => $("picture").querySelectorAll("svg");

export function beginPicture() {
  view = viewOf($("picture"));
  $("picture").addEventListener("scroll", follow);
  $("picture").addEventListener("click", pictureClicked);
  $("picture").addEventListener("keydown", pictureKeyed);
  new ResizeObserver(follow).observe($("picture"));
}

export function showPicture() {
  const { picture } = now;
  const [labelled, lanes] = parts();
  const beside = labelWidth(picture);
  $("picture").classList.toggle("empty", picture.lines === 0);
  step = stepFor(picture.lines, view.clientWidth - beside - 2 * LANE.margin);
  for (const [svg, width] of [[labelled, beside], [lanes, picture.lines * step + 2 * LANE.margin]]) {
    svg.setAttribute("width", width);
    svg.setAttribute("height", picture.height);
  }
  lanes.setAttribute("aria-label", summaryOf(picture));
  draw();
  $("spoken").innerHTML = itemsOf(picture.lines <= MOST_DRAWN ? spokenOf(picture) : [summaryOf(picture)]);
}

// Whether it is for paper, where nothing scrolls.
let isForPaper = false;

// Draws all of a picture that isn't long for paper, and again what is in view.
export function drawForPaper(isPaper) {
  isForPaper = isPaper;
  draw();
}

// What is drawn: what is in view, and some of what is beside it; or all.
function windowNow({ lines, height }) {
  if (isForPaper && lines <= MOST_DRAWN) return { from: 0, to: lines + 1, left: 0, top: 0, bottom: height };
  const { scrollLeft, scrollTop, clientWidth, clientHeight } = view;
  return {
    from: Math.max(0, Math.floor(scrollLeft / step) - 20),
    to: Math.min(lines + 1, Math.ceil((scrollLeft + clientWidth) / step) + 20),
    left: scrollLeft,
    top: scrollTop - 100,
    bottom: scrollTop + clientHeight + 100,
  };
}

function draw() {
  const { picture } = now;
  const [labelled, lanes] = parts();
  const window = windowNow(picture);
  lanes.innerHTML = drawn(picture, step, window) + `<g id="now"></g>`;
  labelled.innerHTML = labels(picture, window);
  markMoment();
}

// Marks the moment that is shown.
export function markMoment() {
  if ($("now")) $("now").innerHTML = momentMark(now.picture, step, now.state.lines);
}

// Scrolls the picture so that the moment is in view.
export function revealMoment() {
  if (step === 0) return;
  const { scrollLeft, clientWidth } = viewOf($("picture"));
  const beside = labelWidth(now.picture);
  const at = beside + now.state.lines * step;
  if (at < scrollLeft + beside + step || at > scrollLeft + clientWidth - LANE.margin) $("picture").scrollLeft = at - clientWidth / 2;
}

// Draws again what is in view, or all if there is more or less room.
function follow() {
  const { clientWidth } = view;
  view = viewOf($("picture"));
  if (view.clientWidth !== clientWidth) showPicture();
  else draw();
}

// A click goes to the line of what is there: of a bar to that of its start, and from there to that of its finish.
function pictureClicked({ target, clientX }) {
  const lanes = target.closest(".lanes");
  if (!lanes) return;
  const { line, end } = target.closest("[data-line]")?.dataset ?? {};
  const at = Math.ceil((clientX - lanes.getBoundingClientRect().left) / step);
  const from = line === undefined ? at : Number(line) + 1;
  goTo(end !== undefined && from === now.state.lines ? Number(end) + 1 : from);
}

// The arrow keys go from line to line.
function pictureKeyed(event) {
  const { key, ctrlKey, altKey, metaKey } = event;
  const to = { ArrowLeft: now.state.lines - 1, ArrowRight: now.state.lines + 1, Home: 0, End: now.answered.length }[key];
  if (to === undefined || ctrlKey || altKey || metaKey) return;
  event.preventDefault();
  goTo(to);
}

// The width of a line, for whoever reads the picture.
export const stepNow = () => step;
