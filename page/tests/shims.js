// What jsc lacks: UTF-8, and a clock.

globalThis.TextEncoder ??= class {
  encode(text) {
    return Uint8Array.from(unescape(encodeURIComponent(text)), it => it.charCodeAt(0));
  }
};
globalThis.TextDecoder ??= class {
  decode(bytes) {
    let text = "";
    for (let at = 0; at < bytes.length; at += 4096) text += String.fromCharCode(...bytes.subarray(at, at + 4096));
    return decodeURIComponent(escape(text));
  }
};
globalThis.performance ??= { now: () => Date.now() };
