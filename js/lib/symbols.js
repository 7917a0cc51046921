// The names by which `using` and `await using` end what they hold; where an engine has none, those that TypeScript's helpers ask for.

export const dispose = Symbol.dispose ?? Symbol.for("Symbol.dispose");
export const asyncDispose = Symbol.asyncDispose ?? Symbol.for("Symbol.asyncDispose");

/** The name by which paths get what stands behind an entry. */
export const record = Symbol("record");
