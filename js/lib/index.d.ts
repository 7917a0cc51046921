/** Path expressions for promises: a declaration says in which order operations may run, and they wait for their turn. */

declare global {
  // TypeScript has these from 5.2 on, if its `lib` has "esnext.disposable". Here they are for all others.
  interface SymbolConstructor {
    readonly dispose: unique symbol;
    readonly asyncDispose: unique symbol;
  }
  interface Disposable {
    [Symbol.dispose](): void;
  }
  interface AsyncDisposable {
    [Symbol.asyncDispose](): PromiseLike<void>;
  }
}

/** A text: a string, or bytes in UTF-8. */
export type Text = string | Uint8Array;

/** An `AbortSignal`. */
export interface Signal {
  readonly aborted: boolean;
  readonly reason?: unknown;
  addEventListener(type: "abort", listener: () => void, options?: { once?: boolean }): void;
  removeEventListener(type: "abort", listener: () => void): void;
}

/** Who asks for a start. */
export interface Asker {
  /** Higher ones stand before lower ones: 0 to 4,294,967,295, and 0 if left out. */
  priority?: number | null;
  /**
   * The entries that go on only when this start was made, as the entry of the `run` whose body asks for it. So the start isn't withheld for
   * one who waits for their end.
   */
  holding?: Entry | Entry[] | null;
}

/** How long to wait, and who does. */
export interface Limits extends Asker {
  /** So many milliseconds, or `Timeout`. With 0 or less the start is tried once; without it there is no limit. */
  timeout?: number | null;
  /** Ends the wait when it aborts: with its `reason`, and nothing is started. */
  signal?: Signal | null;
}

/** What lines are given to: a function, an array, or what has a method `write`. */
export type Log = ((text: string) => unknown) | string[] | { write(text: string): unknown };

export interface Options {
  /**
   * How many lines the journal takes before it is rotated, 1 to 1,048,576, with 144 bytes for each; without a journal how many operations
   * may be in progress, one less than it says, with 32 bytes for each. 65,536 if left out.
   */
  room?: number;
  /** Gets the lines that a rotation gives up. Without one they are dropped. */
  log?: Log | null;
  /** `false`: no lines are kept. */
  journal?: boolean;
  /** The text of a journal behind which the paths go on, whoever wrote it. It may be cut anywhere. */
  resume?: Text | null;
  /**
   * So many milliseconds one waits before starts that stand in its way are withheld for it: 5 if left out. With 0 the order is strict, and
   * with `Infinity` no start is ever withheld.
   */
  patience?: number;
}

/** One path of a declaration. */
export interface Path {
  readonly resource: string;
  readonly text: string;
  readonly operations: string[];
}

/** An operation in progress. */
export interface Live {
  /** Its number, which rises with each start. */
  readonly token: number;
  /** The number by which the journal tells those apart who are at work at once. */
  readonly worker: number;
  readonly operation: string;
}

/** One who waits. */
export interface WaitingOne {
  readonly operation: string;
  /** The number by which the journal tells those apart who are at work at once. */
  readonly worker: number;
  readonly priority: number;
  /** For how many milliseconds it has waited. */
  readonly waited: number;
}

/** What can happen next. As a string it is what the library writes. */
export class Report {
  private constructor();
  readonly text: string;
  /** The operations that can be started now, in the order of the text. */
  readonly startable: string[];
  /** Each other operation, with the first path that forbids it. */
  readonly blocked: { [operation: string]: number };
  /** What is in progress, in the order of the starts. */
  readonly live: Live[];
  /** Whether nothing is in progress, and nothing can ever be started again. */
  readonly frozen: boolean;
  /** What of it was in progress at the end of the journal that the paths go on behind. */
  readonly lost: Live[];
  toString(): string;
}

/** What an audit says. As a string it is `sound` or `wrong line N`. */
export class Verdict {
  private constructor();
  /** Whether each reply was owed by the lines before it. */
  readonly sound: boolean;
  /** The first line whose reply wasn't owed, from 0; null if there is none. */
  readonly wrongLine: number | null;
  toString(): string;
}

/** What the schedules of a script come to. As a string it is what `pathsys explore` writes. */
export class Exploration {
  private constructor();
  readonly outcome: "done" | "stalled" | "refused" | "undecided";
  /** Whether every schedule ends done. */
  readonly done: boolean;
  /** Whether some schedule stalls: the journal is of a shortest. */
  readonly stalled: boolean;
  /** Whether some schedule has a step refused: the journal is of a shortest. */
  readonly refused: boolean;
  /** Whether there are more states than were to be looked at. */
  readonly undecided: boolean;
  /** How many states were looked at; null if a schedule stalls or has a step refused. */
  readonly states: number | null;
  readonly journal: string;
  /** Where each process is behind that journal, as `sale: stalled hold_till`. */
  readonly processes: string[];
  toString(): string;
}

/** An operation in progress. Keep it and leave it: one that nobody has any more is ended at some time, and the console says so. */
export class Entry<Operation extends string = string> implements Disposable, AsyncDisposable {
  private constructor();
  /** The name of the operation. */
  readonly operation: Operation;
  /** Its number in the journal, which rises with each start: for what refuses those who come late. */
  readonly token: number;
  /** The number by which the journal tells those apart who are at work at once. */
  readonly worker: number;
  /** Whether it wasn't left yet. */
  readonly inProgress: boolean;
  /** Ends the operation, and lets others begin. Throws `NotInProgress` if it is over, and `Closed`. */
  leave(): void;
  /** Ends the operation, unless it is over. */
  [Symbol.dispose](): void;
  [Symbol.asyncDispose](): Promise<void>;
  /** Uses the resource's device: what it answers (docs/devices.md). Throws `UseRefused`, `NotInProgress`, `OutOfRoom` and `Closed`. */
  use(verb: "put" | "add", number: number | bigint): bigint;
  use(verb: "take" | "look"): bigint;
  /** Puts a number into the cell or queue: the number before, or how many there are now. */
  put(number: number | bigint): bigint;
  /** Takes the first number out of the queue. */
  take(): bigint;
  /** The number in the cell or tally, or the first of the queue. */
  look(): bigint;
  /** Adds to the tally: the new total. */
  add(number: number | bigint): bigint;
}

/** A system of path expressions that promises wait on. */
export class Paths<Operation extends string = string> implements Disposable {
  /**
   * Throws `DeclarationError`, `JournalError` and `OutOfRoom` of a journal to go on behind, `OutOfMemory`, `TypeError`, and `RangeError`
   * for a bad room.
   */
  constructor(text: Text, options?: Options);
  /** The declared operations, in the order of the text. */
  readonly operations: Operation[];
  /** The declared paths, in the order of their numbers. */
  readonly paths: Path[];
  /** How many bytes of the journal that these paths go on behind are whole lines; null if they go on behind none. */
  readonly resumed: number | null;
  /**
   * Starts an operation: a promise of its entry, once the paths admit it, and it isn't withheld for one who waits. It rejects with
   * `Timeout`, with the signal's reason, and with `UnknownOperation`, `OutOfRoom`, `OutOfMemory`, `Closed`, or what the log throws; with
   * `TypeError` and `RangeError` for what is no limit, no priority and no entry. Then nothing is started.
   */
  enter(operation: Operation, limits?: Limits): Promise<Entry<Operation>>;
  /**
   * Starts an operation, if the paths admit it now, and it isn't withheld for one who waits: its entry, or null (`why` says what is in the
   * way).
   */
  tryEnter(operation: Operation, asker?: Asker): Entry<Operation> | null;
  /** Enters an operation, calls `body`, and leaves it when that has ended, also by an error: a promise of what it returns. */
  run<Result>(operation: Operation, body: (entry: Entry<Operation>) => Result | PromiseLike<Result>, limits?: Limits): Promise<Result>;
  /** Whether no path forbids the operation now, and it isn't withheld for one who waits. */
  canStart(operation: Operation, asker?: Asker): boolean;
  /** What forbids the operation now, or for whom it is withheld, as an error that isn't thrown; null if nothing is in its way. */
  why(operation: Operation, asker?: Asker): Blocked | null;
  /** What can begin, which path blocks what, and what is in progress. */
  report(): Report;
  /** How many wait for each operation, of those for which any does. */
  waiting(): { [operation: string]: number };
  /** Who waits, in order: who stands before others goes on before them, unless a path forbids it, and they don't stand in its way. */
  waiters(): WaitingOne[];
  /** The lines that the log hasn't got, since the last rotation. Throws `NoJournal`. */
  journal(): string;
  /** Gives the lines so far to the log, and counts the room anew. */
  rotate(): void;
  /** Replays a journal under this declaration: without a text that of these paths, while none of it was rotated. */
  audit(text?: Text, options?: { room?: number }): Verdict;
  /** Ends what a worker had in progress at the end of the journal that these paths go on behind: how many operations. */
  recover(worker: number): number;
  /** Gives all memory back. Whoever waits gets `Closed`, and what is in progress is over. A second time it does nothing. */
  close(): void;
  [Symbol.dispose](): void;
}

/** Replays a journal, whoever wrote it, under a declaration. Throws `DeclarationError`, `JournalError`, `RangeError` and `OutOfMemory`. */
export function audit(declaration: Text, journal: Text, options?: { room?: number }): Verdict;

/**
 * Looks at every schedule of a script under a declaration, at `most` so many states, 1,000,000 if left out. It holds up the thread
 * meanwhile. Throws `DeclarationError`, `ScriptError`, `RangeError` and `OutOfMemory`.
 */
export function explore(declaration: Text, script: Text, options?: { most?: number }): Exploration;

/** Compiles the library beforehand, without holding up the thread. Else the first call does, in its time. */
export function compile(): Promise<void>;

/** What goes wrong with paths. */
export class WanzocheError extends Error {}

/** There is no memory for it. */
export class OutOfMemory extends WanzocheError {}

/** The text isn't a declaration. */
export class DeclarationError extends WanzocheError {
  private constructor();
  /** Where in its bytes, from 0; null if it is too long. */
  readonly offset: number | null;
  readonly line: number | null;
  readonly column: number | null;
}

/** The text isn't a journal, or no paths go on behind it. */
export class JournalError extends WanzocheError {
  private constructor();
  /** From 1; null if it is too long. */
  readonly line: number | null;
  /** The reply that was owed, if another one stands there. */
  readonly owed: string | null;
}

/** The text isn't a script. */
export class ScriptError extends WanzocheError {
  private constructor();
  /** From 1; null if it is too long. */
  readonly line: number | null;
}

/** The paths were opened without a journal. */
export class NoJournal extends WanzocheError {}

/** No operation of this name is declared. */
export class UnknownOperation extends WanzocheError {}

/** A path forbids the start, or it is withheld for one who waits. */
export class Blocked extends WanzocheError {
  protected constructor();
  readonly operation: string;
  /** For whom it is withheld; null if a path forbids it. */
  readonly behind: WaitingOne | null;
  /** The number of the path, whose it is, and what it says; null where none forbids it. */
  readonly path: number | null;
  readonly resource: string | null;
  readonly text: string | null;
  /** What of the path is in progress. */
  readonly inProgress: Live[];
  /** Which of its operations no path forbids now. */
  readonly mayBegin: string[];
}

/** The time is over, and a path still forbids the start, or it is still withheld. */
export class Timeout extends Blocked {}

/** The entry is over. */
export class NotInProgress extends WanzocheError {}

/** The device refuses the use: it doesn't offer the verb, is empty or full, or its total would be too large. */
export class UseRefused extends WanzocheError {}

/** More operations are in progress than the room has places for, or 4,294,967,295 were started. */
export class OutOfRoom extends WanzocheError {}

/** The paths were closed. */
export class Closed extends WanzocheError {}
