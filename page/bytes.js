// Bytes and the texts in them.

/**
 * The text in UTF-8 that these bytes are; a byte order mark at its beginning is dropped.
 * @param {Uint8Array} bytes
 */
export const decoded = bytes => new TextDecoder().decode(bytes);

/**
 * A text in UTF-8.
 * @param {string} text
 */
export const encoded = text => new TextEncoder().encode(text);

/**
 * Whether two arrays of bytes are the same.
 * @param {Uint8Array} one @param {Uint8Array} other
 */
export function isSame(one, other) {
  if (one.length !== other.length) return false;
  for (let at = 0; at < one.length; at++) if (one[at] !== other[at]) return false;
  return true;
}

/**
 * An answer with its text, which is decoded where it is read: a published text is long, and mostly its bytes are saved.
 * @param {Omit<Answer, 'text'>} answer @returns {Answer}
 */
export const withText = answer => ({
  ...answer, get text() { return new TextDecoder('utf-8', { ignoreBOM: true }).decode(answer.out); },
});

/**
 * The SHA-256 of bytes, in hexadecimal digits; null where the browser computes none (of a page that came by http).
 * @param {Uint8Array} bytes
 * @returns {Promise<string | null>}
 */
export async function hashOf(bytes) {
  if (!globalThis.crypto?.subtle) return null;
  const sum = new Uint8Array(await crypto.subtle.digest('SHA-256', bytes));
  return [...sum].map(it => it.toString(16).padStart(2, '0')).join('');
}
