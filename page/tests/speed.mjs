// Long texts, and what keystrokes and clicks take. Times are printed, and decide nothing.
import { click, openPage, send, shoot, start, until, value, visit } from "./chromium.mjs";
import { choose, counts, lastReply, on, replies, same, shows, starts, text, write } from "./seen.mjs";

// So many attempts, each of which is admitted.
const attempts = number => `Array.from({ length: ${number} }, (_, i) => i % 2 ? (i % 7) + " finish " + (i - 1) / 2
  : ((i + 1) % 7) + (i % 4 ? " start remove" : " start deposit")).join("\\n") + "\\n"`;
const MANY = attempts(10000);
// Puts them into a text area, with the caret behind them.
const FILLED = `it => {
  it.value = ${MANY};
  it.setSelectionRange(it.value.length, it.value.length);
  it.scrollTop = it.scrollHeight;
}`;
// A page with a text area alone.
const ALONE = `document.body.innerHTML =
  '<textarea id="alone" wrap="off" spellcheck="false" style="width: 18rem; height: 19rem"></textarea>'`;

const sorted = times => [...times].sort((a, b) => a - b);
const inShort = times => `${sorted(times)[0].toFixed(1)} ms at least, ${sorted(times)[times.length >> 1].toFixed(1)} by the median`;

// The time of a keystroke in a text area, with all that follows from it at once, and the layout.
const keystroke = (id, what) => value(`(began => {
  document.getElementById("${id}").focus();
  document.execCommand("insertText", false, ${JSON.stringify(what)});
  document.body.getBoundingClientRect();
  return performance.now() - began;
})(performance.now())`);

// The time in which a line goes in as HTML before the last line feed of a text area, as a click writes it, with the layout.
const insertion = (id, line) => value(`(began => {
  const area = document.getElementById("${id}");
  area.focus();
  area.setSelectionRange(area.value.length - 1, area.value.length - 1);
  document.execCommand("insertHTML", false, ${JSON.stringify(line)});
  document.body.getBoundingClientRect();
  return performance.now() - began;
})(performance.now())`);

// Times keystrokes at the end of a text area, of three kinds.
async function keystrokes(id) {
  const times = { "a letter": [], "an attempt in an empty line": [], "a line feed": [] };
  for (let i = 0; i < 20; i++) {
    times["an attempt in an empty line"].push(await keystroke(id, "1 start deposit"));
    times["a line feed"].push(await keystroke(id, "\n"));
  }
  await keystroke(id, "1 ");
  for (const letter of "start deposit, and then some more letters") times["a letter"].push(await keystroke(id, letter));
  return times;
}

// Prints what keystrokes and clicks in the page take, and what they take in a text area alone, where nothing listens: of a click that is
// its attempt with the line feed, as it goes in, and as a text.
async function measureKeystrokes(inPage, clicks) {
  await visit("about:blank");
  await value(ALONE);
  await value(`(${FILLED})(document.getElementById("alone"))`);
  const alone = await keystrokes("alone");
  await keystroke("alone", "\n");
  const [written, asHtml] = [[], []];
  for (let i = 0; i < 20; i++) written.push(await keystroke("alone", "1 start deposit\n"));
  for (let i = 0; i < 20; i++) asHtml.push(await insertion("alone", "\n1 start deposit"));
  console.log("in a text of 10,000 attempts");
  for (const kind in alone) console.log(`${kind}: ${inShort(inPage[kind])}; in a text area alone ${inShort(alone[kind])}`);
  console.log(`a click: ${inShort(clicks)}; in a text area alone ${inShort(asHtml)}, and as text ${inShort(written)}`);
}

// The time of a click on a button, with all that follows from it at once, and the layout.
const timedClick = selector => value(`(began => {
  document.querySelector('${selector}').click();
  document.body.getBoundingClientRect();
  return performance.now() - began;
})(performance.now())`);

// Times clicks, with the buttons of a slot in turn.
async function timesOfClicks() {
  const times = [];
  for (let i = 0; i < 20; i++) {
    const before = await value("now.answered.length");
    times.push(await timedClick(i % 2 ? `#live [data-key^="finish"]` : `#starts button:not(.forbidden)`));
    await until(`now.answered.length === ${before + 1} && now.state.lines === now.answered.length
      && ($("live").firstChild !== null) === ${i % 2 === 0}`);
  }
  return times;
}

const PAINTED = "new Promise(done => requestAnimationFrame(() => requestAnimationFrame(done)))";

// Prints what it takes until 100,000 attempts are shown, and in a text area alone.
async function measureOpening() {
  const [inPage, alone] = [[], []];
  for (let i = 0; i < 3; i++) {
    await openPage();
    inPage.push(await value(`(async (text, began) => {
      began = performance.now();
      openCase({ declaration: examples[0].declaration, attempts: text, journal: "" });
      await ${PAINTED};
      return performance.now() - began;
    })(${attempts(100000)})`));
    await shows("100,000 attempts are counted", () => text("attempts-said"), "100000 attempts: 50000 started, 50000 finished.");
    await visit("about:blank");
    await value(ALONE);
    alone.push(await value(`(async (text, began) => {
      began = performance.now();
      document.getElementById("alone").value = text;
      await ${PAINTED};
      return performance.now() - began;
    })(${attempts(100000)})`));
  }
  console.log(`100,000 attempts are shown: ${inShort(inPage)}; in a text area alone ${inShort(alone)}`);
}

// Prints what a keystroke takes under a declaration of 256 operations and 128 paths.
async function measureDeclaration() {
  const names = Array.from({ length: 256 }, (_, i) => "o" + i);
  const paths = Array.from({ length: 128 }, (_, i) => `path o${2 * i} ; o${2 * i + 1} end\n`).join("");
  await openPage();
  await write("declaration", `resource r cell\noperation ${names.join(", ")}\n${paths}end\n`);
  await write("attempts", "");
  const [declaring, attempting] = [[], []];
  for (let i = 0; i < 20; i++) declaring.push(await keystroke("declaration", " "));
  await value(`document.getElementById("attempts").focus()`);
  for (let i = 0; i < 20; i++) attempting.push(await keystroke("attempts", `1 start o${i}\n`));
  console.log(`256 operations: a keystroke in the declaration ${inShort(declaring)}; an attempt ${inShort(attempting)}`);
}

async function testMany() {
  await choose("slot");
  await value(`(it => { (${FILLED})(it); it.dispatchEvent(new Event("input")); })(document.getElementById("attempts"))`);
  await shows("the last reply", lastReply, "finished");
  await shows("the counts", () => text("attempts-said"), "10000 attempts: 5000 started, 5000 finished.");
  const rows = await value(`document.querySelectorAll("#attempts-sheet .replies .rows > div").length`);
  same("only what is in view is drawn", rows < 200, true);
  const inPage = await keystrokes("attempts");
  const rest = await value(`(began => {
    showRest();
    document.body.getBoundingClientRect();
    return performance.now() - began;
  })(performance.now())`);
  console.log(`what follows the last keystroke: ${rest.toFixed(1)} ms`);
  await shoot("large");
  await value(`document.getElementById("attempts").scrollTop = 5000 * now.sheets.attempts.row`);
  await shows("scrolled, the middle is drawn",
    () => value(`document.querySelector('#attempts-sheet .replies [data-line="5005"]')?.textContent`), "line 5006: finished");
  await value(`(it => {
    const at = now.sheets.attempts.lines.starts[5005];
    it.focus();
    it.setSelectionRange(at, at);
  })(document.getElementById("attempts"))`);
  await send("Input.insertText", { text: "1 start deposit\n" });
  await until(`now.sheets.attempts.lines.at(5005) === "1 start deposit"`);
  await shows("what is drawn is what was answered", () => value(`(({ first, last, numbers, replies }) =>
    [...numbers.element.children].map(it => it.textContent).join() === Array.from({ length: last - first }, (_, i) => first + i + 1).join()
    && [...replies.element.children].every((it, i) =>
      it.textContent.startsWith("line " + (first + i + 1) + ": " + now.answered.entry(first + i)?.reply)))(now.sheets.attempts)`), true);
  await value(`(it => { it.focus(); (${FILLED})(it); it.dispatchEvent(new Event("input")); })(document.getElementById("attempts"))`);
  await until("now.state.lines === 10000");
  await measureKeystrokes(inPage, await timesOfClicks());
  await measureOpening();
  await measureDeclaration();
  await openPage();
}

export const tests = [testMany];
