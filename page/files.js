// Files: what is opened, saved, copied and printed.

import { standingIn } from "./answers.js";
import { caseNow, noteAddress, openCase } from "./cases.js";
import { copies } from "./copies.js";
import { $, announce, say, showLong } from "./dom.js";
import { pictureFile } from "./drawing.js";
import { escaped } from "./html.js";
import { journalText } from "./journals.js";
import { now } from "./now.js";
import { textOf } from "./writing.js";

// Says it, also if the same was said before.
function sayOfFiles(text) {
  say("files-said", escaped(text));
  announce("files-said");
}

// Puts a text on the clipboard. Returns whether the browser lets the page do so.
async function isCopied(text) {
  try {
    await navigator.clipboard.writeText(text);
    return true;
  } catch {
    return false;
  }
}

// Copies the address of the case.
export async function copyLink() {
  noteAddress();
  const where = location.protocol === "file:" ? " It names a file of this machine, and works nowhere else." : "";
  if (await isCopied(location.href)) sayOfFiles(`The link is copied.${where}`);
  else sayOfFiles(`The browser doesn't let this page copy. Copy the address of the tab: it is the link.${where}`);
}

// Shows a whole program for the declaration in the chosen language, and copies it.
export async function copyAs(language) {
  if (!now.declared.isRead) return sayOfFiles("First mend the declaration.");
  const { name, file, program, run } = copies[language];
  const text = program(textOf("declaration"), now.declared);
  $("copied").textContent = text;
  $("copied").hidden = false;
  sayOfFiles(await isCopied(text) ? `Copied: a program in ${name}. Keep it as ${file}, and run: ${run}.`
    : `The browser doesn't let this page copy. Here is a program in ${name}. Keep it as ${file}, and run: ${run}.`);
}

// A longer file isn't read.
const MOST_READ = 2 ** 24;

// Which of the four texts a file has.
function kindOf(text) {
  if (/^process /.test(text)) return "script";
  if (/^(journal \d|\d+ [^\n:]*: )/.test(text)) return "journal";
  return /^\d+ /.test(text) ? "attempts" : "declaration";
}

// The text of a file, or nothing if it has none: other bytes than UTF-8, or zeros.
async function textIn(file) {
  try {
    const text = new TextDecoder("utf-8", { fatal: true }).decode(await file.arrayBuffer());
    return text.includes("\0") ? undefined : text;
  } catch {
    return undefined;
  }
}

// Shows the files that were chosen, each in the place of its kind; none of them, if one can't be shown.
export async function openFiles(files) {
  const read = new Map();
  for (const file of files) {
    if (file.size > MOST_READ) return sayOfFiles(`Nothing is opened: ${file.name} is too long, more than ${MOST_READ / 2 ** 20} MiB.`);
    const text = await textIn(file);
    if (text === undefined) return sayOfFiles(`Nothing is opened: ${file.name} isn't a text.`);
    const kind = kindOf(text);
    const other = read.get(kind);
    if (other) return sayOfFiles(`Nothing is opened: ${other.name} and ${file.name} are both ${kind === "attempts" ? kind : `a ${kind}`}.`);
    read.set(kind, { text, name: file.name });
  }
  if (read.size === 0) return;
  openCase({ ...caseNow(), ...Object.fromEntries([...read].map(([kind, { text }]) => [kind, text])) });
  sayOfFiles(`Opened: ${[...read].map(([kind, { name }]) => `${name}, ${kind}`).join("; ")}.`);
}

function save(name, type, text) {
  const address = URL.createObjectURL(new Blob([text], { type }));
  const link = Object.assign(document.createElement("a"), { href: address, download: name });
  link.click();
  setTimeout(() => URL.revokeObjectURL(address), 1000);
}

// The picture as a file, in the page's own style.
export const pictureNow = () => pictureFile(now.picture, $("picture-style").textContent);

const SAVED = {
  declaration: () => save("declaration", "text/plain", textOf("declaration")),
  attempts: () => save("attempts", "text/plain", textOf("attempts")),
  journal: () => save("journal", "text/plain", journalText()),
  script: () => save("script", "text/plain", textOf("script")),
  picture: () => save("picture.svg", "image/svg+xml", pictureNow()),
};

export function saveClicked({ target }) {
  const kind = target.id?.replace(/^save-/, "");
  if (Object.hasOwn(SAVED, kind)) SAVED[kind]();
}

// Writes out the texts for paper, where a text area would show a part of them: attempts with their numbers and why they were refused.
export function layOutForPaper() {
  const { declared, answered, calls } = now;
  const { out } = declared.isRead ? calls.explain(declared.text, answered.answeredText) : { out: "" };
  showLong($("declaration-printed"), textOf("declaration"));
  showLong($("attempts-printed"), `${standingIn(out).front}\n${answered.lines.text.slice(answered.answeredText.length)}`.trim());
  showLong($("journal-printed"), textOf("journal"));
  showLong($("script-printed"), textOf("script"));
}
