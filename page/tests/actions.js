// What is done at random in the page, and what it shows then. This text goes into the page as it stands, so it imports nothing: its value
// is an object { begin, act, seen }.

(() => {
  const $ = id => document.getElementById(id);
  const errors = [];
  addEventListener("error", it => errors.push(String(it.message)));
  addEventListener("unhandledrejection", it => errors.push(String(it.reason)));

  const NAMES = ["a", "b", "deposit", "remove", "read", "write"];
  const PIECES = ["\n", " ", "1 start deposit\n", "2 start remove\n", "1 finish 0\n", "2 use 1 look\n",
    "start", "path", " end", "{ ", " }", " : 2", ";", ",", "é", "😀",
    "x", "process p\n", "enter deposit\nleave\n", "end\n", "1 start a: started 0\n", "resource r cell operation a, b path a ; b end end\n"];
  const FILES = ["resource r cell operation a, b path a ; b end end\n", "1 start a\n1 finish 0\n", "process p\nenter a\nleave\nend\n",
    "1 start a: started 0\n", "\0"];
  const ADDRESSES = ["example=pool", "example=none", "declaration=&attempts=1+start+a", "example=slot&line=2"];
  const AREAS = ["declaration", "attempts", "attempts", "attempts", "journal", "script"];

  const clickOne = (one, selector) => {
    const found = [...document.querySelectorAll(selector)].filter(it => !it.disabled && !it.closest("[inert]"));
    if (found.length === 0) return `nothing to click: ${selector}`;
    const it = one(found);
    it.click();
    return `click ${it.id || it.dataset.key || it.textContent}`;
  };
  const changeTo = (id, value) => {
    $(id).value = value;
    $(id).dispatchEvent(new Event("change", { bubbles: true }));
    return `${id}: ${value}`;
  };
  const pressKey = (target, key, more = {}) => {
    target.dispatchEvent(new KeyboardEvent("keydown", { key, bubbles: true, cancelable: true, ...more }));
    return `key ${key}`;
  };

  // Types a piece anywhere in a text, or takes some of it away.
  const type = ({ below, chance, one }) => {
    const area = $(one(AREAS));
    const [from, to] = [below(area.value.length + 1), below(area.value.length + 1)].sort((a, b) => a - b);
    const piece = one(PIECES);
    area.focus();
    area.setSelectionRange(from, chance(4) ? to : from);
    if (document.activeElement !== area) return `${area.id} is closed`; // and what is typed would come to another text
    if (chance(6)) document.execCommand("delete");
    else document.execCommand("insertText", false, piece);
    return `type ${JSON.stringify(piece)} into ${area.id} at ${from}`;
  };
  const writeLine = ({ one, below }) => {
    const area = $("attempts");
    const line = `${below(3)} start ${one(NAMES)}\n`;
    area.focus();
    area.setSelectionRange(area.value.length, area.value.length);
    document.execCommand("insertText", false, line);
    return `type ${JSON.stringify(line)}`;
  };
  const slide = ({ below }) => {
    const to = below(Number($("moment").max) + 1);
    $("moment").value = to;
    $("moment").dispatchEvent(new Event("input", { bubbles: true }));
    return `slide to ${to}`;
  };
  const drop = ({ one }) => {
    const list = new DataTransfer();
    const text = one(FILES);
    list.items.add(new File([text], "dropped"));
    document.dispatchEvent(new DragEvent("drop", { dataTransfer: list, cancelable: true }));
    return `drop ${JSON.stringify(text)}`;
  };

  const ACTIONS = [
    ({ one }) => clickOne(one, "#starts button"),
    ({ one }) => clickOne(one, "#starts button"),
    ({ one }) => clickOne(one, "#live button"),
    ({ one }) => clickOne(one, "#earlier, #later, #undo, #redo, #undo, #paths button, #problems button, #explaining summary"),
    ({ one }) => clickOne(one, "#audit-trace, #play, #explore, #watch, #link, #schedules > summary, #audit > summary, #workers input"),
    ({ one }) => changeTo("example", one([...$("example").options]).value),
    ({ one }) => changeTo("copy-as", one([...$("copy-as").options]).value || "python"),
    ({ one }) => pressKey($("picture"), one(["ArrowLeft", "ArrowRight", "Home", "End"])),
    ({ one }) => pressKey(document.body, one(["z", "y"]), { ctrlKey: true }),
    () => { document.activeElement.blur(); return "leave"; },
    ({ one }) => { location.hash = one(ADDRESSES); return `address ${location.hash}`; },
    type, type, type, writeLine, writeLine, slide, drop,
  ];

  // Random numbers by a seed, of 32 bits.
  const randomOf = seed => {
    let state = seed >>> 0;
    const below = number => {
      state = (Math.imul(state, 1664525) + 1013904223) >>> 0;
      return Math.floor(state / 2 ** 32 * number);
    };
    return { below, chance: number => below(number) === 0, one: list => list[below(list.length)] };
  };
  let random = randomOf(1);

  return {
    begin(seed) { random = randomOf(seed * 7919 + 1); },
    act: () => random.one(ACTIONS)(random),
    // What the page shows once nobody types.
    seen() {
      document.activeElement?.blur();
      const rows = [...document.querySelectorAll("#attempts-sheet .replies [data-line]")];
      const explained = it => it.querySelector("small")?.textContent.length ?? 0;
      const reply = it => it.textContent.slice(0, it.textContent.length - explained(it)).replace(/^line \d+: /, "");
      return {
        errors: errors.splice(0), declaration: $("declaration").value, attempts: $("attempts").value, journal: $("journal").value,
        isRead: $("declaration-said").textContent.startsWith("A declaration"), replies: rows.map(reply), moment: Number($("moment").value),
        report: $("report").textContent, verdict: $("journal-said").textContent,
      };
    },
  };
})()
