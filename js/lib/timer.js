// A timer for any number of milliseconds.

/** The longest time that setTimeout takes. */
const LONGEST = 2 ** 31 - 1;

/** What the time is told by, in milliseconds, and what calls later. Tests put others in their place. */
export const clock = {
  now: () => performance.now(),
  start: (call, milliseconds) => setTimeout(call, milliseconds),
  stop: id => clearTimeout(id),
};

class Timer {
  id;

  constructor(milliseconds, call) {
    this.end = clock.now() + milliseconds;
    this.call = call;
    this.start();
  }

  start() {
    const left = Math.max(this.end - clock.now(), 0);
    this.id = clock.start(() => (left > LONGEST ? this.start() : this.call()), Math.min(left, LONGEST));
  }
}

/** Calls once after so many milliseconds, unless it is stopped before. */
export function startTimer(milliseconds, call) {
  return new Timer(milliseconds, call);
}

export function stopTimer(timer) {
  clock.stop(timer.id);
}
