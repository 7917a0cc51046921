// Path expressions for promises: a declaration says in which order operations may run, and they wait for their turn.

export { Entry } from "./entry.js";
export * from "./errors.js";
export { audit, Exploration, explore } from "./judging.js";
export { compile } from "./library.js";
export { Paths } from "./paths.js";
export { Report, Verdict } from "./texts.js";
