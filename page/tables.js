// What the program writes in lines of words, as tables: the report, and the semaphores. Nothing here knows of the page.

import { coded, counted, escaped, itemsOf } from "./html.js";
import { linesOf } from "./texts.js";

// A table with a caption for screen readers; its cells are HTML, and the first of each row is its head.
function tableOf(caption, heads, rows) {
  const row = ([first, ...rest]) => `<tr><th scope="row">${first}</th>${rest.map(it => `<td>${it}</td>`).join("")}</tr>`;
  return `<table><caption>${caption}</caption><thead><tr>${heads.map(it => `<th scope="col">${it}</th>`).join("")}</tr></thead>`
    + `<tbody>${rows.map(row).join("")}</tbody></table>`;
}

// The first of a list, and how many more there are.
export function firstOf(list, most, what, show) {
  const more = list.length > most ? `<p class="faint">and ${counted(list.length - most, `more ${what}`)}</p>` : "";
  return show(list.slice(0, most)) + more;
}

// ---- the report

const STUCK = "nothing of it is live, and none of its operations can start";

// Whether each resource is stuck, and who waits, by what `explain` says.
export function standingTables({ resources, waits }, most) {
  const stuck = list => tableOf("Resources", ["Resource", "Stuck for ever"],
    list.map(it => [coded(it.name), it.isStuck ? `<span class="no">yes</span>, ${STUCK}` : "no"]));
  const waiting = waits.length ? `<p class="no">All that is live waits.</p><ul class="why">${itemsOf(waits)}</ul>` : "";
  return (resources.length ? firstOf(resources, most, "resource", stuck) : "") + waiting;
}

// What can start and what is live, by a report; `startOf` gives for an activation the line that started it, from 1.
export function nextTables(report, { operations, paths }, startOf, most) {
  const now = ({ name }) => {
    const path = report.blocked.get(name);
    return path === undefined ? [`<span class="yes">can start</span>`, ""]
      : [`<span class="no">blocked</span>`, `path ${path}: ${coded(paths[path].text)}`];
  };
  const starts = list => tableOf("Operations", ["Operation", "Now", "Forbidden by"], list.map(it => [coded(it.name), ...now(it)]));
  const live = list => tableOf("Live activations", ["Live", "Operation", "Worker", "Since line"],
    list.map(it => [it.activation, coded(it.operation), it.worker, startOf(it.activation)]));
  return (operations.length ? firstOf(operations, most, "operation", starts) : "")
    + (report.live.length ? firstOf(report.live, most, "live activation", live) : `<p class="faint">Nothing is live.</p>`);
}

// ---- the semaphores

// A listing of paths: { path, resource, same, removed, values, operations }, each operation with its prologue and epilogue; `same` is the
// earlier path that has the same tree, if there is one.
export function pathsIn(lines) {
  const paths = [];
  for (const line of lines) {
    const head = /^path (\d+) of (\w+)(?: same as (\d+))?$/.exec(line);
    const value = /^(\w+) = (\d+)$/.exec(line);
    const operation = /^(\w+): (.*) \| (.*)$/.exec(line);
    const removed = /^removed (.*)$/.exec(line);
    const path = paths.at(-1);
    if (head) paths.push({ path: Number(head[1]), resource: head[2], same: head[3], removed: [], values: [], operations: [] });
    else if (value) path.values.push({ name: value[1], value: value[2] });
    else if (operation) path.operations.push({ name: operation[1], before: operation[2], after: operation[3] });
    else if (removed) path.removed.push(...removed[1].split(" "));
  }
  return paths;
}

// The paths as they are trimmed, in what `compile` writes.
export function trimmedIn(text) {
  const lines = linesOf(text);
  return pathsIn(lines.slice(lines.indexOf("trimmed") + 1));
}

// What a prologue or an epilogue does, in words.
function termsInWords(terms) {
  if (terms === "-") return "nothing";
  return terms.split("; ").map(term => {
    const burst = /^(PP|VV)\((c\d+)(?:,m\d+)?(?:,([PV])\((s\d+)\))?\)$/.exec(term);
    const plain = /^([PV])\((s\d+)\)$/.exec(term);
    if (plain) return plain[1] === "P" ? `takes 1 from ${plain[2]}` : `gives 1 to ${plain[2]}`;
    if (burst?.[1] === "PP") return `adds 1 to ${burst[2]}; the first in takes 1 from ${burst[4]}`;
    if (burst) return `takes 1 from ${burst[2]}; the last out gives 1 to ${burst[4]}`;
    return term;
  }).join("; ");
}

const KINDS = { s: "semaphore", c: "counter", m: "mutex" };

// What a path opens with, in words.
const valuesInWords = values => values.map(({ name, value }) => `${KINDS[name[0]]} ${name} opens with ${value}`).join(", ");

// One path's semaphores.
export function pathTable({ path, resource, same, removed, values, operations }, text) {
  const head = `<h3>Path ${path} of ${escaped(resource)}: ${coded(text)}</h3>`;
  if (same !== undefined) return `${head}<p class="faint">It says the same as path ${same}, which is asked first.</p>`;
  const said = [values.length ? valuesInWords(values) : "",
    removed.length ? `trimmed: ${removed.join(", ")}` : ""].filter(it => it).join("; ");
  const cell = terms => `${terms === "-" ? "" : coded(terms) + "<br>"}<span class="faint">${termsInWords(terms)}</span>`;
  const rows = operations.map(({ name, before, after }) => [coded(name), cell(before), cell(after)]);
  return `${head}${said ? `<p class="faint">${said}</p>` : ""}`
    + tableOf(`Path ${path}`, ["Operation", "Its start", "Its finish"], rows);
}
