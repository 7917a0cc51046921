// Text areas with what is beside their lines: numbers, marks and replies. Nothing here knows of declarations or attempts.

import { $, MOST_DRAWN } from "./dom.js";
import { escaped } from "./html.js";
import { Lines } from "./texts.js";

// Of more lines, so many come into view, or go, at a time.
const STEP_DRAWN = 20;

// What is in view of an element that scrolls. To read it makes the browser lay the page out, so it is read when it changes, and kept.
export function viewOf({ scrollTop, scrollLeft, clientWidth, clientHeight }) {
  return { scrollTop, scrollLeft, clientWidth, clientHeight };
}

// A column of rows, beside a text area or under it. What is as before, above and below, isn't touched.
class Column {
  constructor(element) {
    this.element = element;
    this.rows = [];
  }

  // Shows these rows, each the text of one element, below as much room as `padding` says.
  show(rows, padding) {
    const { element, rows: before } = this;
    const most = Math.min(rows.length, before.length);
    let above = 0;
    while (above < most && rows[above] === before[above]) above++;
    let below = 0;
    while (below < most - above && rows[rows.length - 1 - below] === before[before.length - 1 - below]) below++;
    this.rows = rows;
    this.replace(above, before.length - below, rows.slice(above, rows.length - below).join(""));
    if (padding !== this.padding) element.style.paddingTop = this.padding = padding;
  }

  // Puts other rows in the place of [from, to).
  replace(from, to, html) {
    const { element } = this;
    const rows = element.children;
    if (from === 0 && to === rows.length) {
      if (html || to) element.innerHTML = html;
      return;
    }
    for (let row = to - 1; row >= from; row--) rows[row].remove();
    if (!html) return;
    if (from < rows.length) rows[from].insertAdjacentHTML("beforebegin", html);
    else element.insertAdjacentHTML("beforeend", html);
  }

  place(x, y) {
    this.element.style.transform = `translate(${-x}px, ${-y}px)`;
  }
}

export class Sheet {
  constructor(id) {
    this.id = id;
    this.area = $(id);
    const column = name => {
      const element = $(id + "-sheet").querySelector(`.${name} .rows`);
      return element && new Column(element);
    };
    this.numbers = column("numbers");
    this.marks = column("marks");
    this.replies = column("replies");
    this.lines = new Lines("");
    this.marked = new Map();
    this.reply = _ => undefined;
    this.at = -1;
    this.first = this.last = 0;
    this.row = parseFloat(getComputedStyle(this.area).lineHeight);
    this.view = viewOf(this.area);
    this.area.addEventListener("scroll", () => this.follow());
    new ResizeObserver(() => this.follow()).observe(this.area);
    for (const beside of [this.numbers, this.replies]) beside?.element.parentElement.addEventListener("wheel", it => this.wheeled(it));
  }

  // Scrolls the text area by the wheel over what is beside it.
  wheeled(event) {
    if (event.ctrlKey || event.deltaY === 0) return;
    const before = this.area.scrollTop;
    this.area.scrollTop += event.deltaMode === WheelEvent.DOM_DELTA_LINE ? event.deltaY * this.row : event.deltaY;
    if (this.area.scrollTop !== before) event.preventDefault();
  }

  // Scrolls to a line, if it isn't in view.
  reveal(line) {
    const { area, row } = this;
    const above = line * row;
    const below = (line + 2) * row - area.clientHeight;
    if (below > area.scrollTop) area.scrollTop = below;
    else if (above < area.scrollTop) area.scrollTop = above;
  }

  // Makes the column of numbers wide enough for so many lines. A text whose place becomes narrower is laid out anew, which takes seconds
  // if it is long: so this is done before it is there.
  widen(lines) {
    const digits = String(lines).length;
    if (digits === this.digits) return;
    this.digits = digits;
    this.numbers.element.style.minWidth = `calc(${digits}ch + .8rem)`;
  }

  // Shows the marks and replies of a text's lines. `marked` has for a line pieces { from, to, kind } of it, or the kind of the whole
  // line; `reply` gives for a line its reply { text, kind }, if it has one; `at` is the line that is explained.
  show(lines, marked, reply = () => undefined, at = -1) {
    Object.assign(this, { lines, marked, reply, at });
    this.draw();
  }

  draw() {
    Object.assign(this, this.toDraw());
    const { first, last, marked } = this;
    this.widen(this.lines.length);
    const padding = `calc(.6rem + ${first * this.row}px)`;
    const fill = (column, row) => column?.show(Array.from({ length: last - first }, (_, i) => row(first + i)), padding);
    fill(this.numbers, i => i === this.at ? `<div class="at">${i + 1}</div>` : `<div>${i + 1}</div>`);
    fill(this.marks, i => this.markedRow(i, marked.get(i)));
    fill(this.replies, i => this.repliedRow(i, this.reply(i)));
    this.place();
  }

  // The lines to draw, [first, last).
  toDraw() {
    const { length } = this.lines;
    if (length <= MOST_DRAWN) return { first: 0, last: length };
    const { first, last } = this.inView();
    return {
      first: Math.max(0, Math.floor(first / STEP_DRAWN - 1) * STEP_DRAWN),
      last: Math.min(length, Math.ceil(last / STEP_DRAWN + 1) * STEP_DRAWN),
    };
  }

  markedRow(i, marks) {
    if (marks === undefined) return "<div></div>";
    if (typeof marks === "string") return `<div class="${marks}"> </div>`;
    const line = this.lines.at(i);
    let at = 0;
    const pieces = marks.map(({ from, to, kind }) => {
      const before = line.slice(at, from);
      at = to;
      return `${escaped(before)}<mark class="${kind}">${escaped(line.slice(from, to)) || " "}</mark>`;
    });
    return `<div>${pieces.join("")}</div>`;
  }

  repliedRow(i, reply) {
    if (reply === undefined) return "<div></div>";
    const kind = i === this.at ? reply.kind + " at" : reply.kind;
    return `<div data-line="${i}" class="${kind}"><span class="spoken">line ${i + 1}: </span>${escaped(reply.text)}`
      + `${reply.more ? `<small> ${escaped(reply.more)}</small>` : ""}</div>`;
  }

  // Moves with the text area, and draws what came into view.
  follow() {
    this.view = viewOf(this.area);
    const { first, last } = this.inView();
    if (first < this.first || last > this.last) return this.draw();
    this.place();
  }

  // The lines in view, [first, last).
  inView() {
    const { scrollTop, clientHeight } = this.view;
    const first = Math.floor(scrollTop / this.row);
    return { first: Math.min(first, this.lines.length), last: Math.min(this.lines.length, first + Math.ceil(clientHeight / this.row) + 1) };
  }

  place() {
    const { scrollTop, scrollLeft } = this.view;
    this.numbers?.place(0, scrollTop);
    this.replies?.place(0, scrollTop);
    this.marks.place(scrollLeft, scrollTop);
  }

  // The line of the caret.
  caretLine() {
    return this.lines.lineOf(this.area.selectionStart);
  }

  // Puts the caret at the end of a line, and before the first line for -1.
  select(line) {
    const at = line < 0 ? 0 : this.lines.endOf(line);
    this.area.setSelectionRange(at, at);
  }
}

// Marks [from, to) of a text in each of its lines.
export function markInto(marked, lines, from, to, kind) {
  for (let i = lines.lineOf(from); i < lines.length && lines.starts[i] < to; i++) {
    const start = lines.starts[i];
    const end = lines.endOf(i);
    const piece = { from: Math.max(0, from - start), to: Math.min(end, to) - start, kind };
    if (piece.to > piece.from || from >= end) marked.set(i, [...(marked.get(i) ?? []), piece]);
  }
}
