// Lines of an input by their bytes: nothing is made of those that are not asked for.

import { decoded, encoded } from './bytes.js';

export const LINE_FEED = 10;

const RETURN = 13, SPACE = 32, TAB = 9, HASH = 35;

/**
 * Whether bytes begin with a byte order mark, from a place on.
 * @param {Uint8Array} bytes @param {number} from
 */
export const hasMark = (bytes, from) => bytes[from] === 0xef && bytes[from + 1] === 0xbb && bytes[from + 2] === 0xbf;

/**
 * Tells each command of a session (FORMATS, "Sessions"): from where to where its line stands, without the line feed,
 * and the line's number, from 1. A byte order mark at the beginning belongs to no line.
 * @param {Uint8Array} bytes @param {(from: number, to: number, number: number) => void} take
 */
export function eachCommand(bytes, take) {
  for (let from = hasMark(bytes, 0) ? 3 : 0, number = 1; from < bytes.length; number++) {
    if (bytes[from] === LINE_FEED) { from++; continue; } // (a text of line feeds alone is passed in no time)
    const feed = bytes.indexOf(LINE_FEED, from), to = feed < 0 ? bytes.length : feed;
    let at = from;
    while (at < to && (bytes[at] === SPACE || bytes[at] === TAB)) at++;
    const isBlank = at === to || bytes[at] === RETURN && at + 1 === to;
    if (!isBlank && bytes[at] !== HASH) take(from, to, number);
    from = to + 1;
  }
}

/**
 * How many commands a session has.
 * @param {Uint8Array} bytes
 */
export function commandCount(bytes) {
  let count = 0;
  eachCommand(bytes, () => count++);
  return count;
}

/**
 * Where the commands of a session stand: from where to where each line.
 * @param {Uint8Array} bytes
 * @returns {{ from: Uint32Array, to: Uint32Array }}
 */
export function commandsIn(bytes) {
  const count = commandCount(bytes), from = new Uint32Array(count), to = new Uint32Array(count);
  let at = 0;
  eachCommand(bytes, (begin, end) => {
    from[at] = begin;
    to[at++] = end;
  });
  return { from, to };
}

/**
 * The first two words of a command: blanks and tabs stand between them, and one return at the end is of the line's end.
 * @param {Uint8Array} bytes @param {number} from @param {number} to
 * @returns {{ first: string, second: string | undefined }}
 */
export function firstWords(bytes, from, to) {
  const end = to > from && bytes[to - 1] === RETURN ? to - 1 : to;
  const isBlank = (/** @type {number} */ at) => bytes[at] === SPACE || bytes[at] === TAB;
  let at = from;
  const next = () => {
    while (at < end && isBlank(at)) at++;
    const begin = at;
    while (at < end && !isBlank(at)) at++;
    return begin < at ? wordOf(bytes, begin, at) : undefined;
  };
  const first = next() ?? '';
  return { first, second: next() };
}

const WITH_MARK = new TextDecoder('utf-8', { ignoreBOM: true });

/**
 * A word; short ones of ASCII, as names are, are made without a decoder, which takes ten times as long.
 * @param {Uint8Array} bytes @param {number} from @param {number} to
 */
function wordOf(bytes, from, to) {
  let word = '';
  for (let at = from; at < to; at++) {
    if (bytes[at] > 127 || to - from > 40) return WITH_MARK.decode(bytes.subarray(from, to));
    word += String.fromCharCode(bytes[at]);
  }
  return word;
}

/** The lines of a text by their numbers, from 1. */
export class Lines {
  /** @param {Uint8Array} bytes */
  constructor(bytes) {
    this.bytes = bytes;
    /** Where the lines begin that were passed so far. */
    this.starts = [0];
  }

  /**
   * A line without its line feed; undefined where the text has no such line.
   * @param {number} number
   * @returns {string | undefined}
   */
  at(number) {
    const [from, to] = this.boundsOf(number) ?? [];
    return from === undefined ? undefined : decoded(this.bytes.subarray(from, to));
  }

  /**
   * From where to where a line stands, without its line feed; undefined where the text has no such line.
   * @param {number} number
   * @returns {[number, number] | undefined}
   */
  boundsOf(number) {
    while (this.starts.length <= number) {
      const feed = this.bytes.indexOf(LINE_FEED, this.starts.at(-1));
      if (feed < 0) break;
      this.starts.push(feed + 1);
    }
    if (!(number >= 1) || number > this.starts.length) return undefined;
    return [this.starts[number - 1], number < this.starts.length ? this.starts[number] - 1 : this.bytes.length];
  }

  /**
   * The first words of a line, and from where to where what follows them stands, which is not decoded.
   * @param {number} number @param {number} count how many words
   * @returns {{ words: string[], from: number, to: number }}
   */
  wordsOf(number, count) {
    const [from, to] = this.boundsOf(number);
    let at = from;
    for (let left = count; left > 0 && at < to; left--) {
      const blank = this.bytes.indexOf(SPACE, at);
      at = blank < 0 || blank > to ? to + 1 : blank + 1;
    }
    return { words: decoded(this.bytes.subarray(from, at - 1)).split(' '), from: Math.min(at, to), to };
  }

  /**
   * Whether a line is there and begins with a word and a blank.
   * @param {number} number @param {string} word
   */
  begins(number, word) {
    const [from, to] = this.boundsOf(number) ?? [0, 0], wanted = encoded(`${word} `);
    return to - from >= wanted.length && wanted.every((it, at) => this.bytes[from + at] === it);
  }
}
