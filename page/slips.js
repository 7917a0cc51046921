// Clicks that weren't meant: those behind a click that has moved another button to its place. Nothing here knows of the page.

// How soon and how near a click follows another, to be a slip.
const SLIP = { time: 500, space: 16 };

export class Slips {
  constructor() {
    this.last = { key: "", time: -Infinity, x: 0, y: 0 };
  }

  // Whether a click, as the second or a later one of several quick ones, meets another button than the first. A key that clicks never
  // slips.
  isSlip({ detail, timeStamp, clientX, clientY }, key) {
    const { key: before, time, x, y } = this.last;
    const isNear = Math.hypot(clientX - x, clientY - y) < SLIP.space;
    const isSoon = detail > 1 || timeStamp - time < SLIP.time;
    const isSlip = detail > 0 && isNear && isSoon && key !== before;
    // As long as they follow each other, the first button counts.
    this.last = isSlip ? { ...this.last, time: timeStamp } : { key, time: timeStamp, x: clientX, y: clientY };
    return isSlip;
  }
}
