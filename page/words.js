// A path in words, and the tree that it is read as. Nothing here knows of the page.

// Reads a path as it is printed: a name, { kind: "sequence" or "selection", parts }, or { kind: "burst", of, most }.
export function treeOf(text) {
  const tokens = text.match(/[A-Za-z]\w*|\d+|[;,:(){}]/g);
  let at = 0;
  const list = (sign, kind, one) => {
    const parts = [one()];
    while (tokens[at] === sign) {
      at++;
      parts.push(one());
    }
    return parts.length === 1 ? parts[0] : { kind, parts };
  };
  const sequence = () => list(";", "sequence", () => list(",", "selection", unit));
  function unit() {
    const token = tokens[at++];
    if (token !== "(" && token !== "{") return { kind: "name", name: token };
    const of = sequence();
    const most = tokens[at] === ":" ? Number(tokens[at + 1]) : Infinity;
    if (most !== Infinity) at += 2;
    at++;
    return token === "(" ? of : { kind: "burst", of, most };
  }
  return sequence();
}

const isName = ({ kind }) => kind === "name";
const allNames = parts => parts.every(isName);

// Several things in a row: a, b and c.
const inRow = (items, word) => items.length === 1 ? items[0] : `${items.slice(0, -1).join(", ")} ${word} ${items.at(-1)}`;

// How many of something overlap.
const several = (most, what) => most === Infinity ? `any number of ${what} at once` : most === 1 ? `one ${what} at a time`
  : `at most ${most} ${what} at once`;

// A part of a path, within a sentence.
function phraseOf(tree) {
  switch (tree.kind) {
    case "name": return tree.name;
    case "sequence": return `first ${tree.parts.map(phraseOf).join(", then ")}`;
    case "selection": return `either ${tree.parts.map(phraseOf).join(" or ")}`;
    default: return isName(tree.of) ? several(tree.most, tree.of.name) : `${several(tree.most, "rounds")} of: ${phraseOf(tree.of)}`;
  }
}

// What a path that is one of several things says.
function selectionInWords(parts) {
  if (allNames(parts)) return `one at a time of ${inRow(parts.map(it => it.name), "and")}`;
  const alone = it => isName(it) ? `one ${it.name} alone` : phraseOf(it);
  return `either ${parts.map(alone).join(", or ")}`;
}

// What a path that is one thing after another says.
function sequenceInWords(parts) {
  const order = parts.length > 2 ? " in this order" : "";
  if (allNames(parts)) return `${inRow(parts.map(it => it.name), "and")} take turns${order}, ${parts[0].name} first`;
  return `${phraseOf({ kind: "sequence", parts })}; then again from the beginning`;
}

// A path, as it is printed, in one sentence.
export function sentenceOf(text) {
  const tree = treeOf(text);
  const words = tree.kind === "name" ? several(1, tree.name)
    : tree.kind === "selection" ? selectionInWords(tree.parts)
    : tree.kind === "sequence" ? sequenceInWords(tree.parts)
    : phraseOf(tree);
  return `${words[0].toUpperCase()}${words.slice(1)}.`;
}

// The operations that a path names, in order.
export const namesOf = text => text.match(/[A-Za-z]\w*/g);
