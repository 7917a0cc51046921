// What an engine that has no Node has to do: run by WebKit's `jsc -m`, with what a shell lacks of a browser put in its place.

const utf8 = text => unescape(encodeURIComponent(text));
globalThis.TextEncoder ??= class {
  encode(text) {
    return Uint8Array.from(utf8(text), it => it.charCodeAt(0));
  }
};
globalThis.TextDecoder ??= class {
  decode(bytes) {
    let text = "";
    for (const byte of bytes) text += String.fromCharCode(byte);
    return decodeURIComponent(escape(text));
  }
};
globalThis.atob ??= text => {
  const digits = "ABCDEFGHIJKLMNOPQRSTUVWXYZabcdefghijklmnopqrstuvwxyz0123456789+/";
  const [bytes, left] = [[], []];
  for (const sign of text) {
    if (digits.includes(sign)) left.push(digits.indexOf(sign));
    if (left.length < 4) continue;
    const [a, b, c, d] = left.splice(0);
    bytes.push((a << 2) | (b >> 4), ((b & 15) << 4) | (c >> 2), ((c & 3) << 6) | d);
  }
  if (left.length > 1) bytes.push((left[0] << 2) | (left[1] >> 4));
  if (left.length > 2) bytes.push(((left[1] & 15) << 4) | (left[2] >> 2));
  return bytes.map(it => String.fromCharCode(it)).join("");
};

const { audit, explore, Paths } = await import("../lib/index.js");

let passed = 0;

function same(what, is, wanted) {
  if (String(is) !== String(wanted)) throw new Error(`${what}: ${is}, and not ${wanted}`);
  passed++;
}

const TEXT = "resource slot cell operation deposit, remove path deposit ; remove end end";
const paths = new Paths(TEXT);
const box = [];
const got = [];
const removals = Array.from({ length: 200 }, () => paths.run("remove", () => got.push(box.pop())));
const deposits = Array.from({ length: 200 }, (_, number) => paths.run("deposit", () => void box.push(number)));
await Promise.all([...removals, ...deposits]);
same("what was got", got, Array.from({ length: 200 }, (_, number) => number));
same("the audit", paths.audit(), "sound");
const entry = await paths.enter("deposit");
same("a put", entry.put(2n ** 64n - 1n), 0n);
same("a look", entry.look(), 18446744073709551615n);
const running = `deposit by worker ${entry.worker}`;
same("why", paths.why("remove").message, `remove is blocked: path 0 of slot: deposit ; remove; in progress: ${running}`);
entry.leave();
same("a forged journal", audit(TEXT, "1 start remove: started 0\n"), "wrong line 0");
const script = "process one\nenter remove\nleave\nend\n";
same("a script", explore(TEXT, script), "journal 2 room 1048576\n0 start remove: blocked 0\none: stalled remove\n");
let refused = "";
try {
  new Paths("resource slot cell operation deposit path remove end end");
} catch (error) {
  refused = `${error.name} ${error.line}:${error.column}`;
}
same("a declaration", refused, "DeclarationError 1:43");
print(`${passed} passed`);
