// Who ran when: a lane for each worker, with a bar for each activation and a tick for each refused start; and the same in words. Nothing
// here knows of the page.

import { counted } from "./html.js";

// Heights of a lane's parts, in the units of the picture.
export const LANE = { row: 26, bar: 21, ticks: 14, head: 20, label: 84, margin: 12, letter: 7.3 };

// Who ran when: workers with their rows, activations from line to line, refused starts and uses. `nameOf` gives a worker's name.
export function lanesOf(entries, nameOf = worker => `worker ${worker}`) {
  const workers = new Map();
  const runs = [];
  const ticks = [];
  const uses = [];
  const live = new Map();
  entries.forEach((entry, line) => {
    if (!workers.has(entry.worker)) workers.set(entry.worker,
      { worker: entry.worker, name: nameOf(entry.worker), ends: [], top: 0, height: 0 });
    const lane = workers.get(entry.worker);
    if (entry.kind === "started") {
      let row = lane.ends.findIndex(end => end < line);
      if (row < 0) row = lane.ends.length;
      lane.ends[row] = Infinity;
      const run = { lane, row, from: line, to: Infinity, name: entry.what, activation: entry.number };
      runs.push(run);
      live.set(entry.number, run);
    } else if (entry.kind === "blocked") {
      ticks.push({ lane, line, path: entry.number, name: entry.what });
    } else if (entry.kind === "finished") {
      const run = live.get(entry.what);
      run.to = line;
      run.lane.ends[run.row] = line;
      live.delete(entry.what);
    } else if (entry.kind === "used") {
      uses.push({ run: live.get(entry.what), line, says: `${entry.line}: ${entry.reply}` });
    }
  });
  const lanes = [...workers.values()].sort((a, b) => a.worker - b.worker);
  let top = LANE.head;
  for (const lane of lanes) {
    lane.top = top;
    lane.height = Math.max(1, lane.ends.length) * LANE.row + LANE.ticks;
    top += lane.height;
  }
  return { lanes, runs, ticks, uses, lines: entries.length, height: top + 4 };
}

// The picture in one sentence.
export function summaryOf(picture) {
  const live = picture.runs.filter(run => run.to === Infinity).length;
  return `${counted(picture.lines, "line")}: ${counted(picture.lanes.length, "worker")}, `
    + `${counted(picture.runs.length, "activation")} of which ${live} live, `
    + `${counted(picture.ticks.length, "refused start")}.`;
}

// The picture in words, a sentence for each worker.
export function spokenOf(picture) {
  const said = new Map(picture.lanes.map(lane => [lane, []]));
  for (const run of picture.runs) {
    const lines = run.to === Infinity ? `live since line ${run.from + 1}` : `in lines ${run.from + 1} to ${run.to + 1}`;
    said.get(run.lane).push([run.from, `${run.name} ${lines}`]);
  }
  for (const { lane, line, path, name } of picture.ticks) {
    said.get(lane).push([line, `${name} blocked by path ${path} in line ${line + 1}`]);
  }
  const begun = name => name[0].toUpperCase() + name.slice(1);
  const inOrder = list => list.sort((a, b) => a[0] - b[0]).map(it => it[1]).join(", ");
  return picture.lanes.map(lane => `${begun(lane.name)}: ${inOrder(said.get(lane)) || "nothing started"}.`);
}
