// The C library as a WebAssembly module: instances of it, and the texts that go in and out. Nothing here knows of paths.

import { module as encoded } from "./module.js";
import { OUT_OF_MEMORY, TOO_SMALL, WRITTEN } from "./codes.js";
import { OutOfMemory } from "./errors.js";
import { textOf } from "./texts.js";

const FIRST_SIZE = 4096;
const PAGE = 65536;

let compiled;
let shared;

function bytesOfModule() {
  const text = atob(encoded);
  const bytes = new Uint8Array(text.length);
  for (let at = 0; at < bytes.length; at++) bytes[at] = text.charCodeAt(at);
  return bytes;
}

/** An instance of the module, with a memory of its own. The first call compiles it, unless `compile` has. */
function instantiate() {
  compiled ??= new WebAssembly.Module(bytesOfModule());
  return new WebAssembly.Instance(compiled, {}).exports;
}

/** Compiles the module without holding up the thread. */
export async function compile() {
  compiled ??= await WebAssembly.compile(bytesOfModule());
}

/** The calls of one instance, and texts in its memory. */
export class Library {
  constructor(exports) {
    this.calls = exports;
  }

  /** The one that all paths of this thread share: they are handles in its memory. */
  static shared() {
    shared ??= new Library(instantiate());
    return shared;
  }

  /** Calls with an instance of its own, whose memory goes with it. */
  static alone(body) {
    return body(new Library(instantiate()));
  }

  /** How many bytes the memory has. */
  get size() {
    return this.calls.memory.buffer.byteLength;
  }

  /** Reserves so many bytes. Throws OutOfMemory. */
  reserve(size) {
    const at = this.calls.reserve(size) >>> 0;
    if (at === 0) throw new OutOfMemory(`no memory for ${size} bytes beside the ${this.size} that there are`);
    return at;
  }

  /** Calls `body` with the address and the length of these bytes, which are in the module's memory until it returns. */
  with(bytes, body) {
    const at = this.reserve(bytes.length);
    try {
      this.bytesAt(at, bytes.length).set(bytes);
      return body(at, bytes.length);
    } finally {
      this.calls.release(at);
    }
  }

  /** Calls `body` with the address of a buffer of so many bytes, which is there until it returns. */
  withBuffer(size, body) {
    const at = this.reserve(size);
    try {
      return body(at);
    } finally {
      this.calls.release(at);
    }
  }

  /** The bytes of the memory there, up to the next call that may make it larger. */
  bytesAt(at, length) {
    return new Uint8Array(this.calls.memory.buffer, at, length);
  }

  /** The text there. */
  textAt(at, length) {
    return textOf(this.bytesAt(at, length));
  }

  /** The number of the last answer, which is below 2^32. */
  get number() {
    return this.calls.number_low() >>> 0;
  }

  /** The number of the last answer, whatever it is. */
  get bigNumber() {
    return (BigInt(this.calls.number_high() >>> 0) << 32n) | BigInt(this.calls.number_low() >>> 0);
  }

  /** A text that `call` writes to a buffer of which it gets the address and the size; and its code if it is another than WRITTEN. */
  written(call) {
    let size = FIRST_SIZE;
    for (;;) {
      const [code, text] = this.withBuffer(size, at => {
        const answer = call(at, size);
        return [answer, answer === WRITTEN ? this.textAt(at, this.number) : null];
      });
      if (code === OUT_OF_MEMORY) throw new OutOfMemory("no memory for a text of the library");
      if (code !== TOO_SMALL) return { code, text };
      size = this.number + 1;
    }
  }

  /** A code in words, as `blocked`. */
  words(code) {
    const at = this.calls.words(code) >>> 0;
    const bytes = new Uint8Array(this.calls.memory.buffer, at, Math.min(PAGE, this.size - at));
    return textOf(bytes.subarray(0, bytes.indexOf(0)));
  }
}
