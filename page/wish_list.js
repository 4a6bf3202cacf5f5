// What a student fills into the form before the desk closes: ratings and adjustments, and the session file of its own
// lines that comes of it (FORMATS, "Sessions").

import { encoded } from './bytes.js';
import { clashOf } from './reckoning.js';

export const MOST_RATED = 60;
export const MOST_PAIRS = 200;
export const MOST_RATING = 100;
export const MOST_ADJUSTMENT = 200;

const NAME_FORM = /^[A-Za-z0-9._-]{1,32}$/;

/**
 * Whether a text is a name (FORMATS, "Names and numbers").
 * @param {string} text
 */
export const isName = text => NAME_FORM.test(text);

/**
 * A rating that was typed: its points, 0 where nothing was, or what is wrong with it, in words.
 * @param {string} typed
 * @returns {{ points: number } | { fault: string }}
 */
export const ratingOf = typed => pointsOf(typed, 0, MOST_RATING, 'A rating');

/**
 * An adjustment that was typed, likewise.
 * @param {string} typed @returns {{ points: number } | { fault: string }}
 */
export const adjustmentOf = typed => pointsOf(typed, -MOST_ADJUSTMENT, MOST_ADJUSTMENT, 'An adjustment');

/** @param {string} typed @param {number} least @param {number} most @param {string} what */
function pointsOf(typed, least, most, what) {
  const text = typed.trim();
  if (!text) return { points: 0 };
  const points = /^[-+]?\d{1,6}$/.test(text) ? Number(text) : NaN;
  return points >= least && points <= most ? { points: points + 0 || 0 }
    : { fault: `${what} is a whole number from ${least} to ${most}.` };
}

/**
 * An empty list.
 * @param {string} name @returns {WishList}
 */
export const emptyList = name => ({ name, ratings: new Map(), pairs: new Map() });

/**
 * The key of a pair: the section that the catalogue has first stands first.
 * @param {Section} one @param {Section} other
 */
export const pairKey = (one, other) => one.at < other.at ? `${one.name} ${other.name}` : `${other.name} ${one.name}`;

/**
 * Rates a section; 0 takes the rating back. Answers what is wrong, in words, and then nothing is changed; else ''.
 * @param {WishList} list @param {string} section @param {number} points
 */
export function rate(list, section, points) {
  if (!points) list.ratings.delete(section);
  else if (!list.ratings.has(section) && list.ratings.size >= MOST_RATED) {
    return `At most ${MOST_RATED} sections can be rated: take another rating back first.`;
  } else list.ratings.set(section, points);
  return '';
}

/**
 * Adjusts a pair of sections; 0 takes the adjustment back. Answers what is wrong, in words; else ''.
 * @param {WishList} list @param {Section} one @param {Section} other @param {number} points
 */
export function adjust(list, one, other, points) {
  if (one.name === other.name) return 'A pair has two different sections.';
  const key = pairKey(one, other);
  if (!points) list.pairs.delete(key);
  else if (!list.pairs.has(key) && list.pairs.size >= MOST_PAIRS) {
    return `At most ${MOST_PAIRS} pairs can be adjusted: take another adjustment back first.`;
  } else list.pairs.set(key, points);
  return '';
}

/**
 * The session file of a list: it takes back what the student said before, and says all of the list. Ratings and pairs
 * come in the order of the catalogue.
 * @param {WishList} list
 * @param {Section[]} catalogue
 * @returns {Uint8Array}
 */
export function sessionFile(list, catalogue) {
  const { name, ratings, pairs } = list;
  const rated = catalogue.filter(it => ratings.has(it.name))
    .map(it => `rate ${name} ${it.name} ${ratings.get(it.name)}`);
  const placeOf = new Map(catalogue.map(it => [it.name, it.at]));
  const places = (/** @type {string} */ key) => key.split(' ').map(it => placeOf.get(it));
  const adjusted = [...pairs].sort(([one], [other]) => {
    const [[first, second], [third, fourth]] = [places(one), places(other)];
    return first - third || second - fourth;
  }).map(([key, points]) => `pair ${name} ${key} ${points}`);
  return encoded([`# What ${name} wishes.`, `clear ${name}`, ...rated, ...adjusted, ''].join('\n'));
}

/**
 * A list without the sections that a catalogue does not have.
 * @param {WishList} list
 * @param {Section[]} catalogue
 * @returns {WishList}
 */
export function keptIn({ name, ratings, pairs }, catalogue) {
  const known = new Set(catalogue.map(it => it.name));
  return {
    name, ratings: new Map([...ratings].filter(([it]) => known.has(it))),
    pairs: new Map([...pairs].filter(([it]) => it.split(' ').every(that => known.has(that)))),
  };
}

/**
 * What to know of a list before it is saved, in words: sections that cannot be taken together, each pair once; and what
 * alone passes a cap.
 * @param {WishList} list
 * @param {Section[]} catalogue
 * @param {{ credits: number, courses: number }} caps
 * @returns {{ clashes: { one: string, other: string, why: string }[], tooLarge: string[], credits: number }}
 */
export function notesOf(list, catalogue, caps) {
  const rated = catalogue.filter(it => list.ratings.has(it.name)), clashes = [];
  for (const [at, one] of rated.entries()) {
    for (const other of rated.slice(at + 1)) {
      const why = clashOf(one, other);
      if (why) clashes.push({ one: one.name, other: other.name, why });
    }
  }
  return {
    clashes, tooLarge: rated.filter(it => it.credits > caps.credits).map(it => it.name),
    credits: rated.reduce((sum, it) => sum + it.credits, 0),
  };
}

/**
 * Of what `quote` printed: the best bundle where each price is 0, and what it is worth.
 * @param {string} answer
 * @returns {{ names: string[], worth: number }}
 */
export function quoteOf(answer) {
  const [first, second] = answer.split('\n'), bundle = first.split(' ')[2];
  return { names: bundle.length > 2 ? bundle.slice(1, -1).split(',') : [], worth: Number(second.split(' ')[1]) };
}
