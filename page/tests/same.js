// Counts what is as it should be, and says what isn't. It runs in any engine.

export const counts = { passed: 0, failed: 0, say: _ => {} };

export function same(what, is, wanted) {
  const [one, other] = [is, wanted].map(it => JSON.stringify(it));
  if (one === other) return counts.passed++;
  counts.failed++;
  counts.say(`${what}: ${one?.slice(0, 300)}, and not ${other?.slice(0, 300)}`);
}
