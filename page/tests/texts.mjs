// Random texts: declarations, attempts, journals and scripts, by a seed.

// Random numbers: `below(n)` gives one of 0 to n - 1, `chance(n)` is true once in n.
export function randomOf(seed) {
  let state = BigInt(seed) * 2862933555777941757n + 3037000493n;
  const below = number => {
    state = (state * 6364136223846793005n + 1442695040888963407n) & 0xffffffffffffffffn;
    return Number(state >> 33n) % number;
  };
  return { below, chance: number => below(number) === 0, one: list => list[below(list.length)] };
}

const NAMES = ["a", "b", "c", "d"];

function pathOver({ below, chance, one }, names) {
  const some = names.filter(() => below(3));
  if (some.length === 0) return "";
  const within = some.join(one([" ; ", " , "]));
  if (chance(3)) return `path { ${within}${chance(2) ? " : " + (1 + below(3)) : ""} } end\n`;
  return `path ${some.length > 2 && chance(2) ? `( ${some[0]} ; ${some[1]} ) , ${some[2]}` : within} end\n`;
}

export function declarationBy(random) {
  const { below, chance, one } = random;
  const names = NAMES.slice(0, 1 + below(4));
  const paths = Array.from({ length: below(4) }, () => pathOver(random, names)).join("");
  const text = `resource r ${one(["cell", "tally", "queue 2"])}\noperation ${names.join(", ")}\n${paths}end\n`;
  return chance(12) ? text.slice(0, below(text.length)) : text;
}

export function attemptBy({ below, chance, one }) {
  const worker = below(3);
  if (chance(40)) return one(["", "1 strat a", "1 start é", "1 finish", "x".repeat(70), "1 start zz"]);
  const device = one(["look", "take", `put ${below(9)}`, "add 18446744073709551615"]);
  return one([`${worker} start ${one(NAMES)}`, `${worker} start ${one(NAMES)}`, `${worker} finish ${below(9)}`,
    `${worker} use ${below(9)} ${device}`]);
}

export const attemptsBy = random => Array.from({ length: random.below(40) }, () => attemptBy(random) + "\n").join("");

export function scriptBy({ below, chance, one }) {
  const process = i => {
    const [outer, inner] = [one(NAMES), one(NAMES)];
    const use = chance(3) ? `use ${one(["look", "take", "put 3"])}\n` : "";
    return `process p${i}\nenter ${outer}\n${chance(2) ? `enter ${inner}\nleave\n` : use}leave\nend\n`;
  };
  const text = Array.from({ length: below(4) }, (_, i) => process(i)).join("");
  return chance(10) ? text.slice(0, below(text.length + 1)) : text;
}
