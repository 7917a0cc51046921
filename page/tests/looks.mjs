// How the page looks: at sizes, in colours, and where it can't run.
import { click, openPage, send, shoot, size, value } from "./chromium.mjs";
import { choose, field, on, same, shows, text, write } from "./seen.mjs";

// Which of these elements aren't wholly in the window, though they are there.
const outside = selectors => value(`${JSON.stringify(selectors)}.filter(it => {
  const { top, bottom, left, right, height } = document.querySelector(it).getBoundingClientRect();
  return !(height > 0 && top >= 0 && bottom <= innerHeight && left >= 0 && right <= innerWidth + 1);
})`);
const isNarrowEnough = () => value("document.documentElement.scrollWidth <= innerWidth");

async function testFirstScreen() {
  for (const [width, height] of [[1600, 900], [1440, 900], [1280, 900]]) {
    await size(width, height);
    await openPage();
    await shows(`${width} wide, all that one begins with is on the first screen`,
      () => outside([".lead", ".legend", ".choice", "#picture", ".moment", "#declaration-sheet", "#starts", "#steps-said"]), []);
    await shows("the picture beside the texts", () => value(`document.getElementById("picture").getBoundingClientRect().left
      > document.getElementById("declaration-sheet").getBoundingClientRect().right`), true);
    same("and nothing is wider than the window", await isNarrowEnough(), true);
    await shows("a start can be pressed, and one is refused, with its reason", async () => [
      await value(`[...document.querySelectorAll("#starts button")].map(it => it.className)`), await text("steps-said")],
    [["", "forbidden"], "Path 0 of slot forbids that remove starts now: deposit; remove."]);
  }
  await size(1280, 900);
  await click(`#problems [data-example="two_locks"]`);
  await shows("a deadlock's verdict is there, too", async () => [await outside(["#verdict"]), (await text("verdict")).slice(0, 9)],
    [[], "Deadlock:"]);
}

// In a small window an editor or the buttons are on the first screen.
async function testSmallScreens() {
  for (const [width, height, scale] of [[640, 450, 2], [750, 450, 2], [380, 740, 1], [390, 844, 1]]) {
    await size(width, height, { scale });
    await openPage();
    await shoot(`first_${width}`, false);
    const isMissing = async () => (await outside(["#declaration-sheet"])).length === 1 && (await outside(["#starts"])).length === 1;
    await shows(`${width} by ${height}: an editor or the buttons are on the first screen`, isMissing, false);
    same("nothing is wider than the window", await isNarrowEnough(), true);
  }
  await size(1280, 1100);
}

async function testHead() {
  await openPage();
  same("the name and what to do", await value(
    `[document.querySelector("h1").textContent, document.querySelector(".lead").firstChild.textContent.trim()]`),
    ["Wanzoche", "A path says in which order workers may use what they share. Press a button: does the path let it begin?"]);
  same("three examples are named by their problem",
    await value(`[...document.querySelectorAll("#problems button")].map(it => it.textContent)`),
    ["One at a time, in turn", "Readers and a writer", "A deadlock"]);
  same("each sign has a line", await value(`[...document.querySelectorAll(".legend dt")].map(it => it.textContent)`),
    ["a ; b", "a , b", "{ a }", "{ a : 3 }", "1 start a", "1 use 0 look", "1 finish 0"]);
  for (const name of ["readers_and_writers", "two_locks", "slot"]) {
    await click(`#problems [data-example="${name}"]`);
    await shows("a problem opens its example", () => field("example"), name);
    same("and is marked", await value(`[...document.querySelectorAll("#problems [aria-pressed=true]")].map(it => it.dataset.example)`),
      [name]);
  }
  same("there is a link to the project", await on("#project", "it.getAttribute('href')"), "../README.md");
}

// The contrast of two of the page's colours, by their names in the style.
const contrasts = pairs => value(`(${JSON.stringify(pairs)}).map(pair => {
  const light = name => {
    const hex = getComputedStyle(document.documentElement).getPropertyValue("--" + name).trim();
    const parts = [1, 3, 5].map(i => parseInt(hex.slice(i, i + 2), 16) / 255)
      .map(it => it <= 0.03928 ? it / 12.92 : ((it + 0.055) / 1.055) ** 2.4);
    return 0.2126 * parts[0] + 0.7152 * parts[1] + 0.0722 * parts[2] + 0.05;
  };
  const [dark, bright] = pair.map(light).sort((a, b) => a - b);
  return bright / dark;
})`);

const TEXTS = [["no", "path"], ["no", "paper"], ["no", "field"], ["yes", "path"], ["yes", "paper"], ["yes", "field"], ["faint", "paper"],
  ["faint", "field"], ["ink", "path"], ["ink", "fault"], ["ink", "live"], ["bar-ink", "bar"]];
const EDGES = [["edge", "paper"], ["edge", "field"], ["bar", "field"], ["focus", "paper"], ["focus", "field"]];

async function testContrast() {
  for (const isDark of [false, true]) {
    await size(1280, 1100, { isDark });
    const where = isDark ? "dark" : "light";
    const weak = async (pairs, least) => (await contrasts(pairs)).flatMap((it, i) => it >= least ? [] : [[...pairs[i], it]]);
    same(`texts, ${where}`, await weak(TEXTS, 4.5), []);
    same(`edges, ${where}`, await weak(EDGES, 3), []);
  }
  await size(1280, 1100);
  await choose("slot");
  const colour = (selector, property) => on(selector, `getComputedStyle(it).${property}`);
  const names = await value(`Object.fromEntries(["edge", "bar", "field"].map(it => {
    const hex = getComputedStyle(document.documentElement).getPropertyValue("--" + it).trim();
    return [it, "rgb(" + [1, 3, 5].map(i => parseInt(hex.slice(i, i + 2), 16)).join(", ") + ")"];
  }))`);
  same("the text areas have an edge", await colour("#attempts-sheet", "borderTopColor"), names.edge);
  same("a live bar has one, too", await colour("#picture .bar.live", "stroke"), names.bar);
  same("a tick stands out from bars", await colour("#picture .halo", "stroke"), names.field);
}

// What pictures are of: three widths, dark, and 200 %, where a window has half as many pixels of the page.
const LOOKS = [
  { name: "wide", width: 1500, height: 900, example: "philosophers" },
  { name: "middle", width: 900, height: 1100, example: "readers_and_writers" },
  { name: "narrow", width: 380, height: 844, example: "pool" },
  { name: "dark", width: 1500, height: 900, isDark: true, example: "till" },
  { name: "double", width: 750, height: 450, scale: 2, example: "two_locks" },
];

async function testSizes() {
  for (const { name, width, height, example, ...more } of LOOKS) {
    await size(width, height, more);
    await openPage("#example=" + example);
    await shoot(name);
    same(`${name}: nothing is wider than the window`, await isNarrowEnough(), true);
    same(`${name}: no reply is cut off`, await on("#attempts-sheet .replies", "it.scrollWidth <= it.clientWidth"), true);
    same(`${name}: no button is cut off`, await value(
      `[...document.querySelectorAll("button")].filter(it => it.scrollWidth > it.clientWidth + 1).map(it => it.textContent)`), []);
  }
  await size(1280, 1100);
}

// The longest words that there may be widen nothing, and nothing is written over something else.
async function testLongWords() {
  const [one, other] = ["A".repeat(32), "b".repeat(32)];
  await size(380, 844);
  await openPage();
  await write("declaration", `resource ${"R".repeat(32)} queue 9 operation ${one}, ${other} path { ${one} : 9 } ; ${other} end end`);
  await write("attempts", `4294967295 start ${one}\n1 start ${other}\n`);
  await shows("long words are in the tables", () => value(`document.querySelectorAll("#semaphores tbody tr").length`), 2);
  same("long words don't widen the page", await isNarrowEnough(), true);
  const over = await value(`[...document.querySelectorAll("#semaphores th, #semaphores td, #next th, #next td")]
    .filter(it => it.scrollWidth > it.clientWidth + 1).map(it => it.textContent)`);
  same("nor stand over what is beside them", over, []);
  await write("declaration", `resource r cell operation ${"c".repeat(200)}`);
  await value("document.activeElement.blur()");
  await shows("a word that is too long is at fault", () => text("declaration-said"),
    "declaration: word too long at 26 (line 1, column 27)");
  same("and doesn't either", await isNarrowEnough(), true);
  await size(1280, 1100);
}

// With forced colours the system has no backgrounds for marks, so they have outlines.
async function testForced() {
  const outline = selector => on(selector, "getComputedStyle(it).outlineStyle");
  await size(1500, 900, { isForced: true });
  await openPage("#example=two_locks");
  await shoot("forced");
  same("with forced colours a path's mark has an outline", await outline("#declaration-sheet mark.path"), "solid");
  same("so has the example's button", await outline("#problems [aria-pressed=true]"), "solid");
  same("a link has the colour of links, which stands out",
    await value(`((one, other) => getComputedStyle(one).color === getComputedStyle(other).color)(
    document.getElementById("project"), document.querySelector("#next .no"))`), true);
  same("a live bar has an edge", await on("#picture .bar.live", "getComputedStyle(it).stroke !== getComputedStyle(it).fill"), true);
  same("so has the present state", await on("#states .present rect", "getComputedStyle(it).stroke !== getComputedStyle(it).fill"), true);
  await choose("till");
  await shows("a wrong line has another outline", () => outline("#journal-sheet .fault"), "dashed");
  await choose("refused");
  await shows("so has a fault", () => outline("#declaration-sheet mark.fault"), "dashed");
  await size(1280, 1100);
}

async function testWithout() {
  const first = async () => (await text("cannot")).split(":")[0].trim();
  const shown = () => value(`["main", ".choice", "footer .buttons"].filter(it => document.querySelector(it).offsetHeight > 0)`);
  const needs = "This page needs JavaScript, and a browser that unpacks its program";
  const isSeen = () => on("#cannot", "it.getBoundingClientRect().height > 20 && it.getBoundingClientRect().bottom < 200");
  const source = `WebAssembly.compile = () => Promise.reject(new TypeError("no such memory"));`;
  const { identifier } = await send("Page.addScriptToEvaluateOnNewDocument", { source });
  await openPage("", false);
  await shows("without WebAssembly the page says so", async () => [await first(), await isSeen(), await shown()], [needs, true, []]);
  const versions = async () => (await text("cannot")).match(/Chrome or Edge \d+|Firefox \d+|Safari\s[\d.]+/g);
  same("and where it is", await versions(), ["Chrome or Edge 85", "Firefox 113", "Safari 16.4"]);
  same("and what is amiss", (await text("cannot")).endsWith("(TypeError: no such memory)"), true);
  await send("Page.removeScriptToEvaluateOnNewDocument", { identifier });
  await send("Emulation.setScriptExecutionDisabled", { value: true });
  await openPage("", false);
  await shows("so it does without JavaScript", async () => [await first(), await isSeen(), await shown()], [needs, true, []]);
  await send("Emulation.setScriptExecutionDisabled", { value: false });
  await openPage();
  same("otherwise it doesn't", await isSeen(), false);
  same("and shows all", (await shown()).length, 3);
}

export const tests = [testFirstScreen, testSmallScreens, testHead, testContrast, testSizes, testLongWords, testForced, testWithout];
