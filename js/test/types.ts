// What `tsc --strict` has to take, and, behind each @ts-expect-error, what it has to refuse.

import { audit, Blocked, compile, Entry, Exploration, explore, Paths, Report, Timeout, Verdict, WanzocheError } from "wanzoche";

const TEXT = "resource slot cell operation deposit, remove path deposit ; remove end end";
const paths = new Paths(TEXT, { room: 10, log: text => text.length });
const logs: string[] = [];
new Paths<"deposit" | "remove">(new Uint8Array(), { log: logs, resume: "", journal: true, patience: Infinity });

interface Own {
  aborted: boolean;
  addEventListener(type: "abort", it: () => void): void;
  removeEventListener(): void;
}

export async function uses(signal: Own): Promise<number> {
  const entry: Entry = await paths.enter("deposit", { timeout: 10, signal });
  await paths.enter("deposit", { signal: new AbortController().signal });
  const before: bigint = entry.put(7);
  entry.use("put", 7n);
  entry.use("look");
  entry.leave();
  const length: number = await paths.run("remove", async it => `${it.token}${before}`.length);
  const maybe: Entry | null = paths.tryEnter("remove", { priority: 1, holding: entry });
  await paths.run("deposit", () => {}, { timeout: 5, priority: 2, holding: [entry] });
  maybe?.[Symbol.dispose]();
  await maybe?.[Symbol.asyncDispose]();
  return length;
}

export function asks(): string {
  const why: Blocked | null = paths.why("remove");
  const report: Report = paths.report();
  const verdict: Verdict = audit("", paths.journal());
  const found: Exploration = explore("", "", { most: 10 });
  const error: WanzocheError | undefined = why ?? undefined;
  const waited: number | undefined = why?.behind?.waited ?? paths.waiters()[0]?.waited;
  return `${report.live[0]?.operation}${verdict.wrongLine}${found.outcome}${error?.message}${paths.waiting()["deposit"]}${waited}`;
}

export async function typed(): Promise<void> {
  await compile();
  const slot = new Paths<"deposit" | "remove">("");
  const entry = await slot.enter("deposit");
  const name: "deposit" | "remove" = entry.operation;
  // @ts-expect-error: it isn't one of these operations
  slot.enter("insert");
  // @ts-expect-error: a number has to be put
  entry.use("put");
  // @ts-expect-error: entries are made by paths
  new Entry();
  // @ts-expect-error: a token is never changed
  entry.token = 1;
  // @ts-expect-error: so are errors
  new Timeout();
  // @ts-expect-error: an entry is held, and not its name
  slot.tryEnter("remove", { holding: "deposit" });
  // @ts-expect-error: a timeout is a number
  await slot.enter(name, { timeout: "1" });
}
