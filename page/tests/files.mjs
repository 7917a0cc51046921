// Files: what is opened, saved, copied and printed.
import { click, openPage, send, until, value } from "./chromium.mjs";
import { choose, examplePath, field, on, read, same, shows, text, write } from "./seen.mjs";

async function testFiles() {
  await choose("pool");
  await value(`navigator.clipboard.writeText = text => { window.copied = text; return Promise.resolve(); }`);
  await click("#link");
  await shows("the link is copied", async () => [await text("files-said"), (await value("copied")).split("#")[1]],
    ["The link is copied. It names a file of this machine, and works nowhere else.", "example=pool"]);
  await value(`navigator.clipboard.writeText = () => Promise.reject(new Error("not allowed"))`);
  await click("#link");
  await shows("or not", () => text("files-said"), "The browser doesn't let this page copy. Copy the address of the tab: it is the link."
    + " It names a file of this machine, and works nowhere else.");
  const { root } = await send("DOM.getDocument");
  const { nodeId } = await send("DOM.querySelector", { nodeId: root.nodeId, selector: "#files" });
  const choosing = files => send("DOM.setFileInputFiles", { nodeId, files: files.map(it => examplePath(it)) });
  await choosing(["till/journal", "till/declaration"]);
  await shows("files are opened", async () => [await field("declaration"), await field("attempts"), await field("journal")],
    [read("till/declaration"), read("pool/attempts"), read("till/journal")]);
  await shows("and named", () => text("files-said"), "Opened: journal, journal; declaration, declaration.");
  await choosing(["slot/declaration", "slot/attempts"]);
  await shows("so are attempts", () => field("attempts"), read("slot/attempts"));
  await value(`URL.createObjectURL = blob => { blob.text().then(it => { window.saved = it; }); return "#"; }`);
  await choosing(["crosswise/script"]);
  await shows("and a script", () => field("script"), read("crosswise/script"));
  const saving = { declaration: read("slot/declaration"), attempts: read("slot/attempts"), journal: read("slot/trace"),
    script: read("crosswise/script"),
    picture: await value("pictureNow()") };
  for (const [kind, wanted] of Object.entries(saving)) {
    await value("window.saved = null, HTMLAnchorElement.prototype.click = function () { window.savedAs = this.download; }");
    await click("#save-" + kind);
    await shows(`${kind} is saved`, () => value("[savedAs.split('.')[0], saved]"), [kind, wanted]);
  }
  await value(`(files => {
    for (const it of ["1 start deposit\\n", "resource r cell operation a end\\n"]) files.items.add(new File([it], "dropped"));
    document.dispatchEvent(new DragEvent("drop", { dataTransfer: files, cancelable: true }));
  })(new DataTransfer())`);
  await shows("files are dropped", async () => [await field("declaration"), await field("attempts"), await text("files-said")],
    ["resource r cell operation a end\n", "1 start deposit\n", "Opened: dropped, attempts; dropped, declaration."]);
  await choose("slot");
  await value("window.printed = 0, window.print = () => { window.printed++; }");
  await click("#print");
  await shows("a button prints", () => value("printed"), 1);
  await value(`dispatchEvent(new Event("beforeprint"))`);
  await send("Emulation.setEmulatedMedia", { media: "print" });
  await shows("on paper all lines of the texts", () => on("#attempts-printed", "[it.textContent, it.offsetHeight > 0]"),
    [read("slot/explained").split("\n\n")[0], true]);
  same("once each", await on(".reasons", "it.offsetHeight"), 0);
  same("and no buttons", await value(
    `[...document.querySelectorAll("button, textarea, select")].filter(it => it.offsetHeight > 0 && !it.closest("#paths")).length`), 0);
  await send("Emulation.setEmulatedMedia", { media: "" });
  await value(`dispatchEvent(new Event("afterprint"))`);
  await value(`(it => {
    it.value = "1 start remove\\n".repeat(300);
    it.dispatchEvent(new Event("input"));
  })(document.getElementById("attempts"))`);
  const ticks = () => value(`document.querySelectorAll("#picture .tick").length`);
  await until(`document.querySelectorAll("#picture .tick").length > 0`);
  same("of a long picture the part in view is drawn", await ticks() < 300, true);
  await value(`dispatchEvent(new Event("beforeprint"))`);
  same("and on paper all of it", await ticks(), 300);
  await value(`dispatchEvent(new Event("afterprint"))`);
  await openPage();
}

// Drops files with these names and contents.
const drop = files => value(`(list => {
  const part = bytes => typeof bytes === "string" ? bytes : new Uint8Array(bytes);
  for (const [name, bytes] of ${JSON.stringify(files)}) list.items.add(new File([part(bytes)], name));
  document.dispatchEvent(new DragEvent("drop", { dataTransfer: list, cancelable: true }));
})(new DataTransfer())`);

async function testRefused() {
  await openPage("#example=slot");
  const declaration = await field("declaration");
  await drop([["one", "resource r cell operation a end\n"], ["two", "resource r cell operation b end\n"]]);
  await shows("of two declarations neither is opened", async () => [await text("files-said"), await field("declaration")],
    ["Nothing is opened: one and two are both a declaration.", declaration]);
  for (const bytes of [[137, 80, 78, 71, 13, 10, 26, 10, 0, 0], [0, 97, 115, 109], [0xff, 0xfe, 65]]) {
    await drop([["picture.png", bytes]]);
    await shows("a file that is no text isn't opened", async () => [await text("files-said"), await field("declaration")],
      ["Nothing is opened: picture.png isn't a text.", declaration]);
  }
}

async function testCopies() {
  await openPage("#example=slot");
  await value(`navigator.clipboard.writeText = text => { window.copied = text; return Promise.resolve(); }`);
  const languages = await value(`[...document.getElementById("copy-as").options].map(it => it.value).filter(it => it)`);
  for (const language of languages) {
    await on("#copy-as", `(it.value = "${language}", it.dispatchEvent(new Event("change", { bubbles: true })))`);
    await shows(`a program in ${language} is copied and shown`,
      async () => [(await value("copied ?? ''")).includes("path deposit ; remove end"),
      await text("copied") === await value("copied"), await on("#copy-as", "it.value")], [true, true, ""]);
    await value("window.copied = null");
  }
  await write("declaration", "resource");
  await value("document.activeElement.blur()");
  await on("#copy-as", `(it.value = "python", it.dispatchEvent(new Event("change", { bubbles: true })))`);
  await shows("of none that is refused", () => text("files-said"), "First mend the declaration.");
}

export const tests = [testFiles, testRefused, testCopies];
