// The page itself: what is typed and clicked, and what follows from it.

import { callsOf } from "./calls.js";
import { choose, drafts, exampleOf, examples, isElsewhere, noteSoon, openAddress, openCase, showCase } from "./cases.js";
import { $, say } from "./dom.js";
import { copyAs, copyLink, layOutForPaper, openFiles, pictureNow, saveClicked } from "./files.js";
import { forgetHistories, reachOrStop, watchFreeze } from "./histories.js";
import { auditTrace, journalText, judge } from "./journals.js";
import { lanesOf } from "./lanes.js";
import { now, workerName } from "./now.js";
import { pathClicked } from "./paths.js";
import { beginPicture, drawForPaper, showPicture, stepNow } from "./picture.js";
import { exploreOrStop, isPlaying, play, showPlay, showScript, watch } from "./schedules.js";
import { Sheet } from "./sheet.js";
import { caretMoved, countAttempts, goTo, isLarge, judgeTyped, readAttempts, readDeclaration, showAttempts, showMoment, showSemaphores,
  showWhy } from "./state.js";
import { clicked, showSteps } from "./steps.js";
import { giveModule } from "./workers.js";
import { canRedo, canUndo, heard, isOwn, PARTS, textOf, travel, write } from "./writing.js";

// A text at fault is judged after so many milliseconds without a keystroke, or when its line is left.
const PAUSE = 1000;

let following = 0;
let resting = 0;

// Shows what follows from a keystroke. What is at fault is judged later.
function typed() {
  now.isTyping = true;
  clearTimeout(resting);
  resting = setTimeout(judgeTyped, PAUSE);
  show();
}

// Reads both texts, and shows what follows from them: of a long text or a large declaration the replies at once, and the rest when nobody
// types.
export function show() {
  const { text } = now.declared;
  readDeclaration();
  readAttempts();
  showAttempts();
  if (text !== now.declared.text && text !== null) {
    judge();
    showScript();
    forgetHistories();
  }
  clearTimeout(following);
  if (isLarge()) following = setTimeout(showRest, 100);
  else showRest();
}

export function showRest() {
  const { answered } = now;
  now.picture = lanesOf(answered.entries, workerName);
  showSemaphores();
  countAttempts();
  showPicture();
  showMoment();
  $("save-declaration").disabled = textOf("declaration") === "";
  $("save-attempts").disabled = answered.lines.text === "";
  $("save-journal").disabled = $("save-picture").disabled = $("audit-trace").disabled = answered.length === 0;
  showPlay();
  showWhole();
}

// Shows which case this is, in the list and soon in the address, and whether something can be taken back.
function showWhole() {
  showCase();
  $("undo").disabled = !canUndo();
  $("redo").disabled = !canRedo();
  noteSoon();
}

// Takes the last step back, or makes one again.
function travelled(isBack) {
  const ids = travel(isBack);
  if (ids.length === 0) return;
  now.isTyping = now.isBefore = false;
  show();
  if (ids.includes("journal")) judge();
  if (ids.includes("script")) showScript();
  now.sheets.attempts.reveal(now.sheets.attempts.caretLine());
}

// The keys that take back and make again, wherever the focus is but in a field of its own.
function keyed(event) {
  const { key, ctrlKey, metaKey, altKey, shiftKey, target } = event;
  if (!(ctrlKey || metaKey) || altKey || target.id === "number") return;
  const isUndo = key.toLowerCase() === "z" && !shiftKey;
  const isRedo = key.toLowerCase() === "y" || key.toLowerCase() === "z" && shiftKey;
  if (!isUndo && !isRedo) return;
  event.preventDefault();
  travelled(isUndo);
}

// What a browser would take back by itself, as by its menu.
function beforeInput(event) {
  const { inputType } = event;
  if (inputType !== "historyUndo" && inputType !== "historyRedo") return;
  event.preventDefault();
  travelled(inputType === "historyUndo");
}

const FOLLOWS = {
  declaration: typed,
  attempts: typed,
  journal: () => { judge(); showWhole(); },
  script: () => { showScript(); showWhole(); },
};

function listenToTexts() {
  for (const id of PARTS) {
    $(id).addEventListener("beforeinput", beforeInput);
    $(id).addEventListener("input", () => {
      if (isOwn()) return;
      heard(id);
      FOLLOWS[id]();
    });
    $(id).addEventListener("blur", () => isOwn() || judgeTyped());
  }
  document.addEventListener("keydown", keyed);
  document.addEventListener("selectionchange", () => {
    if (document.activeElement === $("attempts") && !isOwn()) caretMoved();
  });
}

function listenToMoments() {
  $("attempts-sheet").querySelector(".replies").addEventListener("click", event => {
    const row = event.target.closest("[data-line]");
    if (!row) return;
    $("attempts").focus();
    goTo(Number(row.dataset.line) + 1);
  });
  $("explaining").addEventListener("toggle", showWhy);
  $("moment").addEventListener("input", ({ target }) => goTo(Number(target.value)));
  $("earlier").addEventListener("click", () => goTo(now.state.lines - 1));
  $("later").addEventListener("click", () => goTo(now.state.lines + 1));
  $("play").addEventListener("click", play);
  $("watch").addEventListener("click", watch);
}

function listenToButtons() {
  $("undo").addEventListener("click", () => travelled(true));
  $("redo").addEventListener("click", () => travelled(false));
  $("example").addEventListener("change", ({ target: { value } }) => choose(value));
  $("problems").addEventListener("click", ({ target }) => { if (target.dataset.example) openCase(exampleOf(target.dataset.example)); });
  $("paths").addEventListener("click", pathClicked);
  $("workers").addEventListener("change", showSteps);
  $("starts").addEventListener("click", clicked);
  $("live").addEventListener("click", clicked);
  $("explore").addEventListener("click", exploreOrStop);
  $("reach").addEventListener("click", reachOrStop);
  $("watch-freeze").addEventListener("click", watchFreeze);
  $("at-once").addEventListener("change", forgetHistories);
  $("audit-trace").addEventListener("click", () => { auditTrace(); showWhole(); });
}

function listenToFiles() {
  $("link").addEventListener("click", copyLink);
  $("copy-as").addEventListener("change", ({ target }) => { copyAs(target.value); target.value = ""; });
  $("open-files").addEventListener("click", () => $("files").click());
  $("files").addEventListener("change", async ({ target }) => { await openFiles(target.files); target.value = ""; });
  document.addEventListener("dragover", event => { if (event.dataTransfer.types.includes("Files")) event.preventDefault(); });
  document.addEventListener("drop", event => {
    if (event.dataTransfer.files.length === 0) return;
    event.preventDefault();
    openFiles(event.dataTransfer.files);
  });
  $("saving").addEventListener("click", saveClicked);
  $("print").addEventListener("click", () => print());
  window.addEventListener("beforeprint", () => { layOutForPaper(); drawForPaper(true); });
  window.addEventListener("afterprint", () => drawForPaper(false));
  window.addEventListener("hashchange", () => { if (isElsewhere()) openAddress(); });
}

// The bytes of the module, which are in the page by gzip and base64.
async function moduleBytes() {
  const packed = Uint8Array.from(atob($("module").textContent.trim()), it => it.charCodeAt(0));
  const stream = new Blob([packed]).stream().pipeThrough(new (/** @type {any} */ (globalThis).DecompressionStream)("gzip"));
  return new Uint8Array(await new Response(stream).arrayBuffer());
}

async function begin() {
  let bytes;
  try {
    bytes = await moduleBytes();
    now.calls = callsOf(await WebAssembly.compile(bytes));
  } catch (error) {
    const needs = $("cannot").textContent;
    $("cannot").textContent = `${needs} (${error})`;
    return;
  }
  giveModule(bytes);
  for (const it of document.querySelectorAll("main, .choice, .files")) /** @type {any} */ (it).hidden = false;
  for (const id of PARTS) now.sheets[id] = new Sheet(id);
  beginPicture();
  for (const listen of [listenToTexts, listenToMoments, listenToButtons, listenToFiles]) listen();
  // A long case is shown a little later, and the list of examples at once.
  showCase();
  openAddress();
  const size = Math.round(bytes.length / 1024);
  say("about", "The replies and why, reports, semaphores and verdicts come from the proved program, "
    + `${size} KiB of WebAssembly in this page. `
    + "What is drawn in the page is plain JavaScript. Nothing is sent anywhere.");
}

// What the page shows now, for its tests and for whoever looks behind it.
Object.assign(globalThis, { page: { $, now, examples, drafts, openCase, journalText, pictureNow, show, judge, showRest, write, textOf,
  isPlaying, stepNow } });
begin();
