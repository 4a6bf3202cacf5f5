// Numbers and names in sentences.

/**
 * A number with a comma between thousands.
 * @param {number} count
 */
export const grouped = count => String(count).replace(/^-?\d+/, it => it.replace(/\B(?=(\d{3})+$)/g, ','));

/**
 * How many of something: `1 student`, `2,000 students`.
 * @param {number} count @param {string} one @param {string} [more]
 */
export const plural = (count, one, more = one + 's') => `${grouped(count)} ${count === 1 ? one : more}`;

/**
 * A number of tokens.
 * @param {number} count
 */
export const tokens = count => plural(count, 'token');

/**
 * Names in a sentence: `A`, `A and B`, `A, B and C`; `nothing` where there are none.
 * @param {string[]} names
 */
export function listed(names) {
  if (names.length === 0) return 'nothing';
  return names.length === 1 ? names[0] : `${names.slice(0, -1).join(', ')} and ${names.at(-1)}`;
}

/**
 * The first twelve names in a sentence, and how many more there are.
 * @param {string[]} names
 */
export const shortList = names =>
  names.length > 12 ? `${names.slice(0, 12).join(', ')} and ${names.length - 12} more` : listed(names);

/**
 * A time in words: `12 ms`, `3.4 s`.
 * @param {number} ms milliseconds
 */
export const timed = ms => ms < 1000 ? `${Math.max(1, Math.round(ms))} ms` : `${(ms / 1000).toFixed(1)} s`;

/** Signs that turn the direction of a text, which no screen shows, by their names. */
const DIRECTIONS = new Map([
  ['\u200e', 'left-to-right mark'], ['\u200f', 'right-to-left mark'], ['\u061c', 'Arabic letter mark'],
  ['\u202a', 'left-to-right embedding'], ['\u202b', 'right-to-left embedding'], ['\u202c', 'end of embedding'],
  ['\u202d', 'left-to-right override'], ['\u202e', 'right-to-left override'], ['\u2066', 'left-to-right isolate'],
  ['\u2067', 'right-to-left isolate'], ['\u2068', 'isolate'], ['\u2069', 'end of isolate'],
]);

/**
 * Signs that have no width, or end a line: two names that differ in them alone would look alike. (Joiners are not among
 * them: names of some languages have these.)
 */
const WITHOUT_WIDTH = '\\xad\\u034f\\u115f\\u1160\\u17b4\\u17b5\\u180e\\u200b\\u2028\\u2029\\u2060-\\u2064'
  + '\\u206a-\\u206f\\u3164\\ufeff\\uffa0\\ufff9-\\ufffb\\u{e0000}-\\u{e007f}';
const HIDDEN = new RegExp(`[\\0-\\x1f\\x7f-\\x9f${WITHOUT_WIDTH}${[...DIRECTIONS.keys()].join('')}]`, 'gu');
const RIGHT_TO_LEFT = /[\u0590-\u08ff\ufb1d-\ufdff\ufe70-\ufeff\u{10800}-\u{10fff}\u{1e800}-\u{1efff}]/u;

/** @param {string} sign */
const hiddenSign = sign => {
  const direction = DIRECTIONS.get(sign), number = sign.codePointAt(0).toString(16).padStart(2, '0');
  if (direction) return `‹${direction}›`;
  const known = { '\0': '\\0', '\t': '\\t', '\n': '\\n', '\r': '\\r' }[sign];
  if (number.length > 4) return `\\u{${number}}`;
  return known ?? (number.length > 2 ? `\\u${number.padStart(4, '0')}` : `\\x${number}`);
};

/**
 * A text of a file as it can be shown in a sentence: signs that no screen shows are written out (`\0`, marks of
 * direction by their names), and a text that runs from right to left does not turn what stands beside it.
 * @param {string} text
 */
export function visible(text) {
  const written = text.replace(HIDDEN, hiddenSign);
  return RIGHT_TO_LEFT.test(written) ? `\u2068${written}\u2069` : written;
}

/**
 * What stands in a file, as it can be shown in a sentence, and shortened where it is long.
 * @param {string} it
 */
export const brief = it => visible(it.length > 80 ? it.slice(0, 77) + '..' : it);

/**
 * The same in quotes.
 * @param {string} it
 */
export const quoted = it => `“${brief(it)}”`;
