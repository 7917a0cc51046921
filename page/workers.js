// Work that is handed to a worker, so that the page goes on meanwhile.

import { $ } from "./dom.js";

let address = null;
let bytes = null;

// Gives the module to the workers to come, as its bytes.
export function giveModule(module) {
  bytes = module;
}

// Hands out a piece of work, and calls `done` with its answer, `progress` meanwhile; returns what stops it.
export function handOut(message, done, progress = _ => {}) {
  address ??= URL.createObjectURL(new Blob([$("worker-code").textContent], { type: "text/javascript" }));
  const worker = new Worker(address);
  worker.onmessage = ({ data }) => {
    if (data.progress !== undefined) return progress(data.progress);
    worker.terminate();
    done(data.done);
  };
  worker.onerror = ({ message: says }) => {
    worker.terminate();
    done({ kind: "fault", says: `The browser stopped the search: ${says}`, why: [], isSound: false });
  };
  worker.postMessage({ module: bytes });
  worker.postMessage(message);
  return () => worker.terminate();
}
