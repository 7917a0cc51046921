// The picture as SVG, in one way for the page and for a file. Lines are shown with numbers from 1. Nothing here knows of the page.

import { counted, escaped } from "./html.js";
import { LANE, summaryOf } from "./lanes.js";

// The width of the workers' names.
export const labelWidth = ({ lanes }) => Math.max(LANE.label, 8 + LANE.letter * Math.max(0, ...lanes.map(lane => lane.name.length)));

// The width of a line, so that a short picture fills its place and a long one can be read.
export const stepFor = (lines, width) => Math.max(10, Math.min(44, Math.floor(width / Math.max(1, lines))));

const isSeen = (lane, window) => lane.top + lane.height >= window.top && lane.top <= window.bottom;
const isWithin = (line, window) => line >= window.from && line < window.to;

// Numbers above the lines, and a rule above each lane.
function frame(picture, step, window) {
  const out = [];
  const every = step >= 16 ? 1 : 5;
  for (let line = Math.ceil((window.from + 1) / every) * every - 1; line < Math.min(window.to, picture.lines); line += every) {
    out.push(`<text class="axis" x="${line * step + 2}" y="12">${line + 1}</text>`);
  }
  const rules = picture.lanes.filter(lane => isSeen(lane, window)).map(({ top }) =>
    `<line class="lane" x1="${window.from * step}" x2="${window.to * step}" y1="${top - 4}" y2="${top - 4}"/>`);
  return out.concat(rules).join("");
}

// A name, or as much of it as fits into a width.
function fitted(name, width) {
  const letters = Math.floor((width - 8) / LANE.letter);
  if (name.length <= letters) return name;
  return letters > 1 ? name.slice(0, letters - 1) + "…" : "";
}

// The bar of an activation. Of one that begins left of the window the name stands where the window begins.
function bar(run, picture, step, window) {
  const end = Math.min(run.to, picture.lines);
  if (run.from >= window.to || end < window.from || !isSeen(run.lane, window)) return "";
  const isLive = run.to === Infinity;
  const left = run.from * step;
  const right = isLive ? end * step + 10 : end * step + step * 0.75;
  const top = run.lane.top + run.row * LANE.row;
  const lines = isLive ? `live since line ${run.from + 1}` : `lines ${run.from + 1} to ${end + 1}`;
  const begin = Math.max(left, window.left ?? 0);
  const name = fitted(run.name, right - begin);
  return `<g data-line="${run.from}"${isLive ? "" : ` data-end="${end}"`}>`
    + `<title>${escaped(`activation ${run.activation}: ${run.name}, ${lines}`)}</title>`
    + `<rect class="bar${isLive ? " live" : ""}" x="${left}" y="${top}" width="${right - left}" height="${LANE.bar}" rx="3"/>`
    + (name && `<text class="name${isLive ? " live" : ""}" x="${begin + 5}" y="${top + 15}">${escaped(name)}</text>`) + "</g>";
}

function dot({ run, line, says }, step, window) {
  if (!isWithin(line, window) || !isSeen(run.lane, window)) return "";
  const y = run.lane.top + run.row * LANE.row + LANE.bar - 3;
  return `<circle data-line="${line}" class="use${run.to === Infinity ? " live" : ""}" cx="${line * step + step / 2}" cy="${y}" r="2">`
    + `<title>${escaped(says)}</title></circle>`;
}

function tick({ lane, line, path, name }, step, window) {
  if (!isWithin(line, window) || !isSeen(lane, window)) return "";
  const at = line * step + Math.min(step / 2, 8);
  const low = lane.top + lane.height - LANE.ticks + 5;
  const ends = `x1="${at}" x2="${at}" y1="${lane.top - 1}" y2="${low}"`;
  return `<g data-line="${line}"><title>${escaped(`line ${line + 1}: ${name} blocked by path ${path}`)}</title>`
    + `<line class="halo" ${ends}/><line class="tick" ${ends}/><text class="path" x="${at + 3}" y="${low}">${path}</text></g>`;
}

// The part of the picture in a window of it: lines [from, to), and lanes between two heights. `left` is where what is seen begins.
export function drawn(picture, step, window) {
  return frame(picture, step, window)
    + picture.runs.map(it => bar(it, picture, step, window)).join("")
    + picture.uses.map(it => dot(it, step, window)).join("")
    + picture.ticks.map(it => tick(it, step, window)).join("");
}

// The moment behind so many lines: a line, and a veil over what comes later.
export function momentMark(picture, step, lines) {
  const x = lines * step;
  const later = (picture.lines - lines) * step + LANE.margin * 2;
  const width = lines < picture.lines ? later : 0;
  return `<rect class="veil" x="${x}" y="${LANE.head - 5}" width="${width}" height="${picture.height - LANE.head + 5}"/>`
    + `<line class="now" x1="${x}" x2="${x}" y1="0" y2="${picture.height}"/>`;
}

// The names of the lanes between two heights.
export function labels(picture, window) {
  return picture.lanes.filter(lane => isSeen(lane, window))
    .map(lane => `<text x="4" y="${lane.top + 17}">${escaped(lane.name)}</text>`).join("");
}

// Of a picture in a file so many lines are drawn.
const MOST_SAVED = 2000;

// The picture as a file: the first lines of it, with its names, its style and what it shows in words.
export function pictureFile(picture, style) {
  const lines = Math.min(picture.lines, MOST_SAVED);
  const step = stepFor(lines, 800);
  const beside = labelWidth(picture);
  const all = { from: 0, to: lines, top: 0, bottom: picture.height, left: 0 };
  const width = Math.ceil(beside + lines * step + 2 * LANE.margin);
  const words = lines < picture.lines ? `The first ${lines} of ${counted(picture.lines, "line")}.` : summaryOf(picture);
  const size = `width="${width}" height="${picture.height}" viewBox="0 0 ${width} ${picture.height}"`;
  return `<svg xmlns="http://www.w3.org/2000/svg" ${size} role="img">\n`
    + `<title>${words}</title>\n<style>${style}</style>\n<rect class="ground" width="${width}" height="${picture.height}"/>\n`
    + `${labels(picture, all)}\n<g transform="translate(${beside} 0)">${drawn(picture, step, all)}</g>\n</svg>\n`;
}
