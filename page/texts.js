// What the program's texts say: lines, places of faults, and declarations as they are printed. Nothing here knows of the page.

// The lines of a text, as the program counts them, from 0.
export function linesOf(text) {
  const lines = text.split("\n");
  if (lines.at(-1) === "") lines.pop();
  return lines;
}

// The lines of a text, with the empty one behind its last line feed. Each is cut out when it is asked for.
export class Lines {
  constructor(text) {
    this.text = text;
    this.starts = [0];
    for (let end = text.indexOf("\n"); end >= 0; end = text.indexOf("\n", end + 1)) this.starts.push(end + 1);
  }

  get length() {
    return this.starts.length;
  }

  // How many the program counts: not the empty one behind the last line feed.
  get counted() {
    return this.starts.at(-1) === this.text.length ? this.length - 1 : this.length;
  }

  endOf(line) {
    return line + 1 < this.length ? this.starts[line + 1] - 1 : this.text.length;
  }

  at(line) {
    return this.text.slice(this.starts[line], this.endOf(line));
  }

  // The line that a place of the text is in.
  lineOf(index) {
    let low = 0;
    for (let high = this.length; high - low > 1;) {
      const middle = (low + high) >> 1;
      if (this.starts[middle] <= index) low = middle;
      else high = middle;
    }
    return low;
  }
}

// Where the program says that a text is at fault, by the first lines of what it says: { line, column, length, says }, or nothing. The line
// counts from 0, the column from 1; the length is in the text's own characters. `says` are the words of the fault and below it.
export function faultPlace(err, lines) {
  const [first = "", shown = "", marks = "", ...more] = linesOf(err);
  const place = /^\w+:(\d+):(\d+): (.*)$/.exec(first);
  if (!place) return undefined;
  const line = Math.min(Number(place[1]), lines.length) - 1;
  const column = Number(place[2]);
  const pointed = [...lines.at(line).slice(column - 1)].slice(0, marks.trim().length).join("");
  return { line, column, length: pointed.length, says: [place[3], ...more], shown };
}

// Where a declaration is refused: { says, from, to }, or with no place, { says }; `err` is what `check` says of it, and `explained` what
// `explain` does. At the end of a line one place is marked.
export function declarationFault(lines, err, explained) {
  const says = err.trim();
  const place = faultPlace(explained, lines);
  if (!place) return { says, why: [] };
  const from = lines.starts[place.line] + place.column - 1;
  return { says: `${says} (line ${place.line + 1}, column ${place.column})`, from, to: from + Math.max(1, place.length), why: place.says };
}

// A message of the program in which lines count from 1, and not from 0.
export const fromOne = (says, more = 1) => says.replace(/(?<=line )\d+$/, line => Number(line) + more);

// Which line of attempts or of a journal is refused: { says, line, from, to, isName, why }; `line` counts from 0, and `says` from 1; what
// is
// at fault in the line is [from, to), which is the undeclared name, if there is one. `explained` is what `explain` says of the text.
export function lineFault(lines, err, explained) {
  const says = err.trim();
  const found = /^text: (bad line|undeclared in line) (\d+)$/.exec(says);
  const place = faultPlace(explained, lines);
  if (!found) return { says, why: [] };
  const line = Number(found[2]);
  const isName = found[1] !== "bad line" && place !== undefined;
  const { column = 1, length = lines.at(line).length } = isName ? place : {};
  return { says: fromOne(says), line, from: column - 1, to: column - 1 + length, isName, why: place?.says ?? [] };
}

// A printed declaration: its operations and paths, in order, each with its resource.
export function declaredIn(printed) {
  const operations = [];
  const paths = [];
  const words = printed.trim().split(" ");
  let resource = null;
  for (let at = 0; at < words.length; at++) {
    if (words[at] === "resource") {
      resource = { name: words[at + 1], law: words[at + 2] };
    } else if (words[at] === "operation") {
      for (let more = true; more; at++) {
        more = words[at + 1].endsWith(",");
        operations.push({ name: words[at + 1].replace(",", ""), resource });
      }
    } else if (words[at] === "path") {
      const end = words.indexOf("end", at);
      paths.push({ resource, text: words.slice(at + 1, end).join(" ") });
      at = end;
    }
  }
  return { operations, paths };
}

// Where each path stands in the text of a declaration: [from, to), from the word `path` to its `end`.
export function pathPlaces(text) {
  return [...text.matchAll(/\bpath\b[^]*?\bend\b/g)].map(it => [it.index, it.index + it[0].length]);
}
