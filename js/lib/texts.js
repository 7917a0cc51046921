// What goes to the library as bytes, and what its texts say.

const encoder = new TextEncoder();
const decoder = new TextDecoder();

/** The bytes of a text: a string in UTF-8, and bytes as they are. Throws TypeError for what is neither; `what` names it. */
export function bytesOf(text, what) {
  if (typeof text === "string") return encoder.encode(text);
  if (text instanceof Uint8Array) return text;
  throw new TypeError(`${what} is a string or a Uint8Array, and not ${text === null ? "null" : typeof text}`);
}

/** The text of bytes in UTF-8. */
export function textOf(bytes) {
  return decoder.decode(bytes);
}

/** What can happen next. As a string it is the library's text. */
export class Report {
  constructor(text, gone) {
    this.text = text;
    this.startable = [];
    this.blocked = {};
    this.live = [];
    this.frozen = false;
    for (const line of text.split("\n")) this.#read(line.split(" "));
    this.lost = this.live.filter(it => gone.has(it.worker));
  }

  #read([word, ...rest]) {
    if (word === "startable") this.startable = rest;
    else if (word === "blocked") this.blocked[rest[0]] = Number(rest[1]);
    else if (word === "live") this.live.push({ token: Number(rest[0]), worker: Number(rest[1]), operation: rest[2] });
    else if (word === "frozen") this.frozen = rest[0] === "yes";
  }

  toString() {
    return this.text;
  }
}

/** What an audit says. As a string it is `sound` or `wrong line N`. */
export class Verdict {
  constructor(wrongLine) {
    this.wrongLine = wrongLine;
    this.sound = wrongLine === null;
  }

  toString() {
    return this.sound ? "sound" : `wrong line ${this.wrongLine}`;
  }
}

/** A journal of version 3, up to its last line feed, as one of version 2; any other as it is. */
export function withoutMarks(journal) {
  if (!journal.startsWith("journal 3 ")) return journal;
  const [head, ...lines] = journal.slice(0, journal.lastIndexOf("\n") + 1).split("\n");
  return [head.replace("3", "2"), ...lines.map(it => it.replace(/^\+/, ""))].join("\n");
}

/** The operations, in the order of their numbers, and the paths, of a declaration as the library writes it. */
export function readDeclaration(text) {
  const operations = [];
  const paths = [];
  for (const part of text.split(/(?:^| )resource /).slice(1)) {
    const [, resource, names] = /^(\w+) .*?\boperation ((?:\w+, )*\w+)/.exec(part);
    operations.push(...names.split(", "));
    for (const [, path] of part.matchAll(/ path (.*?) end(?= )/g)) {
      const words = path.match(/\w+|[^\s\w]/g);
      paths.push({ resource, text: words.join(" "), operations: words.filter(it => /^[A-Za-z]/.test(it)) });
    }
  }
  return { operations, paths };
}
