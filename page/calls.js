// The calls of the module: texts and numbers in, a status and two texts out. Nothing here knows of the page.
//
// An export takes, in this order: memory for its work, as the address of two words, its address and its size; the texts and numbers of
// the call, a text as its address and its length; the buffers for both texts of the answer; and the address of two words for their
// lengths. It returns the program's exit status, TOO_SHORT or UNDECIDED. A call never gives memory back, so each has an instance of its
// own.

export const STATUSES = ["done", "declaration refused", "room refused", "stream failed", "text refused", "unsound", "out of memory"];
export const TEXT_REFUSED = 4;
export const UNSOUND = 5;
const OUT_OF_MEMORY = 6;
const TOO_SHORT = 7;
export const UNDECIDED = 8;

export const MOST_LINES = 1048576;
// What a call works in at most: a memory has 4 GiB, with the texts.
const MOST_MEMORY = 3 * 2 ** 30;
const ALIGNED = 16;
const PAGE = 65536;

const encoder = new TextEncoder();
const decoder = new TextDecoder();

const roundedUp = (number, to) => Math.ceil(number / to) * to;

// Places for what a call needs, one behind the other.
class Places {
  constructor(base) {
    this.end = roundedUp(base, ALIGNED);
  }

  // The address of `size` bytes, aligned, and of one byte at least, so that none is shared.
  take(size) {
    const address = this.end;
    this.end = roundedUp(address + Math.max(size, 1), ALIGNED);
    return address;
  }
}

// Makes a memory larger, if the machine has so much.
function hasGrown(memory, pages) {
  try {
    memory.grow(pages);
    return true;
  } catch (error) {
    if (error instanceof RangeError) return false;
    throw error;
  }
}

/**
 * Calls an export once, with texts as bytes and numbers as they are.
 * @param {WebAssembly.Module} module
 * @param {string} name
 * @param {(number | Uint8Array)[]} parameters
 * @param {number} outSize
 * @param {number} errSize
 * @param {number} workSize
 */
export function callOnce(module, name, parameters, outSize, errSize, workSize) {
  /** @type {any} */
  const { memory, __heap_base: base, ...exports } = new WebAssembly.Instance(module, {}).exports;
  const places = new Places(Number(base.value));
  const work = places.take(2 * 8);
  const lengths = places.take(2 * 8);
  const at = parameters.map(it => typeof it === "number" ? 0 : places.take(it.length));
  const out = places.take(outSize);
  const err = places.take(errSize);
  const room = places.take(workSize);
  const missing = places.end - memory.buffer.byteLength;
  if (missing > 0 && !hasGrown(memory, Math.ceil(missing / PAGE))) return { status: OUT_OF_MEMORY, outLength: 0, errLength: 0, out: "",
    err: "out of memory\n" };

  const bytes = new Uint8Array(memory.buffer);
  const before = new DataView(memory.buffer);
  before.setBigUint64(work, BigInt(room), true);
  before.setBigUint64(work + 8, BigInt(workSize), true);
  const passed = parameters.flatMap(/** @returns {any[]} */ (it, i) => {
    if (typeof it === "number") return [it];
    bytes.set(it, at[i]);
    return [BigInt(at[i]), BigInt(it.length)];
  });
  const buffers = [BigInt(out), BigInt(outSize), BigInt(err), BigInt(errSize), BigInt(lengths)];
  const status = exports[name](BigInt(work), ...passed, ...buffers);
  const after = new DataView(memory.buffer);
  const outLength = Number(after.getBigUint64(lengths, true));
  const errLength = Number(after.getBigUint64(lengths + 8, true));
  const text = (address, length) => status === TOO_SHORT ? "" : decoder.decode(new Uint8Array(memory.buffer, address, length));
  return { status, outLength, errLength, out: text(out, outLength), err: text(err, errLength) };
}

/**
 * The calls of a compiled module. Each answers { status, out, err }, what the program writes for the same texts, byte for byte.
 * @param {WebAssembly.Module} module
 */
export function callsOf(module) {
  // Calls again with longer buffers if they were too short, and with more memory if it ran out.
  function call(name, parameters, outSize, workSize) {
    const given = parameters.map(it => typeof it === "string" ? encoder.encode(it) : it);
    let sizes = { out: outSize, err: 256, work: roundedUp(workSize, ALIGNED) };
    for (;;) {
      const answer = callOnce(module, "path_page_" + name, given, sizes.out, sizes.err, sizes.work);
      if (answer.status === TOO_SHORT) {
        sizes = { ...sizes, out: Math.max(sizes.out, answer.outLength), err: Math.max(sizes.err, answer.errLength) };
      } else if (answer.status === OUT_OF_MEMORY && sizes.work < MOST_MEMORY) {
        sizes = { ...sizes, work: Math.min(MOST_MEMORY, sizes.work * 4) };
      } else {
        return { status: answer.status, out: answer.out, err: answer.err };
      }
    }
  }

  const MEBIBYTE = 2 ** 20;
  // Two lines of room for each attempt, so that none lacks room.
  function roomFor(attempts) {
    let lines = 1;
    for (let end = attempts.indexOf("\n"); end >= 0; end = attempts.indexOf("\n", end + 1)) lines++;
    return Math.min(MOST_LINES, 2 * lines);
  }

  return {
    call,
    // The attempts with their replies, and the report behind them if it is asked for.
    trace: (declaration, attempts, report, room = roomFor(attempts)) =>
      call("trace", [declaration, room, report ? 1 : 0, attempts], 4 * attempts.length + PAGE, MEBIBYTE + 16 * attempts.length),
    // The declaration in one line.
    check: declaration => call("check", [declaration], 2 * declaration.length + PAGE, MEBIBYTE),
    // The semaphores, and what trimming leaves of them.
    compile: declaration => call("compile", [declaration], 16 * declaration.length + PAGE, MEBIBYTE),
    // Whether a journal is sound, in the room that it names, else in this one.
    audit: (declaration, journal, room = MOST_LINES) => call("audit", [declaration, room, journal], 256, MEBIBYTE + 8 * journal.length),
    // The attempts with their replies, why each refused one is, and how each resource stands behind them.
    explain: (declaration, attempts, room = roomFor(attempts)) =>
      call("explain", [declaration, room, attempts], 16 * attempts.length + PAGE, MEBIBYTE + 64 * attempts.length),
    // Whether a journal is sound, and if not, its first wrong line and what was owed; and how each resource stands behind that.
    judge: (declaration, journal, room = MOST_LINES) => call("judge", [declaration, room, journal], PAGE, MEBIBYTE + 16 * journal.length),
    // What all schedules of a script come to, of which at most so many states are looked at.
    explore: (declaration, script, most) => call("explore", [declaration, script, most], 8 * script.length + PAGE, 64 * MEBIBYTE),
    // What all histories of a declaration come to, with so many executions in progress at once at most; so many states are looked at.
    reach: (declaration, workers, most) => call("reach", [declaration, workers, most], PAGE, 64 * MEBIBYTE),
  };
}
