// What was written, so that it can be taken back: steps, each a list of changes { id, at, removed, inserted } of the texts. Nothing here
// knows of the page.

// How two texts differ: where, what the first has there, and what the other.
export function differenceOf(before, after) {
  if (after.startsWith(before)) return { at: before.length, removed: "", inserted: after.slice(before.length) };
  const most = Math.min(before.length, after.length);
  let at = 0;
  while (at < most && before.charCodeAt(at) === after.charCodeAt(at)) at++;
  let below = 0;
  while (below < most - at && before.charCodeAt(before.length - 1 - below) === after.charCodeAt(after.length - 1 - below)) below++;
  return { at, removed: before.slice(at, before.length - below), inserted: after.slice(at, after.length - below) };
}

// Whether a change goes on with another one: letters behind letters, or one more that is taken away.
function goesOn(change, last) {
  if (change.id !== last.id || /\n/.test(last.inserted + change.inserted)) return false;
  if (change.removed === "" && last.removed === "") return change.at === last.at + last.inserted.length;
  return change.inserted === "" && last.inserted === "" && (change.at === last.at || change.at + change.removed.length === last.at);
}

// Letters that follow each other within so many milliseconds are one step.
const ONE_STEP = 1000;

export class History {
  constructor() {
    this.done = [];
    this.undone = [];
    this.time = -Infinity;
  }

  // Notes a change of a text, which was typed at this time.
  typed(change, time) {
    const last = this.done.at(-1);
    const isOn = time - this.time < ONE_STEP && last?.isTyped && goesOn(change, last.changes[0]);
    this.time = time;
    if (isOn) {
      const { at, removed, inserted } = last.changes[0];
      const before = change.at < at ? change.removed : "";
      const behind = change.at < at ? "" : change.removed;
      last.changes = [{ id: change.id, at: Math.min(at, change.at), removed: before + removed + behind,
        inserted: inserted + change.inserted }];
      this.undone = [];
    } else {
      this.note([change], true);
    }
  }

  // Notes changes that are one step.
  note(changes, isTyped = false) {
    if (changes.length === 0) return;
    this.done.push({ changes, isTyped });
    this.undone = [];
  }

  // Takes the last step back: the changes that do so.
  undo() {
    const step = this.done.pop();
    if (!step) return [];
    this.undone.push(step);
    return step.changes.map(({ id, at, removed, inserted }) => ({ id, at, removed: inserted, inserted: removed })).reverse();
  }

  // Makes the step again that was taken back last.
  redo() {
    const step = this.undone.pop();
    if (!step) return [];
    this.done.push(step);
    return step.changes;
  }
}
