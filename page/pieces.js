// Long inputs go to the worker in pieces, so that the page answers between them, and none is held twice on the way.

/** The most bytes of a piece: it is copied in some milliseconds. */
export const PIECE = 2 ** 25;

/** The most bytes of what goes with the message itself. */
const MOST_WITHIN = 2 ** 20;

/**
 * What stands for bytes that go ahead in pieces.
 * @typedef {{ isSentAhead: true, key: number }} Ahead
 */

/**
 * A message of which the long bytes go ahead; short ones are copied. The same bytes go once.
 * @param {any} message plain values, lists and bytes
 * @returns {{ shell: any, ahead: [number, Uint8Array][] }}
 */
export function lifted(message) {
  /** @type {Map<Uint8Array, any>} */
  const known = new Map();
  /** @type {[number, Uint8Array][]} */
  const ahead = [];
  const lift = (/** @type {Uint8Array} */ bytes) => {
    if (bytes.length <= MOST_WITHIN) return bytes.slice();
    ahead.push([ahead.length, bytes]);
    return { isSentAhead: true, key: ahead.length - 1 };
  };
  const go = (/** @type {any} */ value) => {
    if (value instanceof Uint8Array) {
      if (!known.has(value)) known.set(value, lift(value));
      return known.get(value);
    }
    return changed(value, go);
  };
  return { shell: go(message), ahead };
}

/**
 * A message as it was, out of its shell and the bytes that went ahead.
 * @param {any} shell @param {Map<number, Uint8Array>} came
 */
export function assembled(shell, came) {
  const go = (/** @type {any} */ value) => value?.isSentAhead ? came.get(value.key) : changed(value, go);
  return go(shell);
}

/**
 * A list or a plain value with each of its parts changed; anything else as it is.
 * @param {any} value @param {(part: any) => any} change
 */
function changed(value, change) {
  if (Array.isArray(value)) return value.map(change);
  if (value?.constructor !== Object) return value;
  return Object.fromEntries(Object.entries(value).map(([name, it]) => [name, change(it)]));
}
