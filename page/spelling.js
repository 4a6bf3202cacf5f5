// The school's own spelling of names, by the `names.csv` that the registrar's tools write: kind, original, name.

import { decoded } from './bytes.js';
import { eachRecord } from './tables.js';
import { visible } from './wording.js';

/**
 * The spelling where no school told one.
 * @type {Spelling}
 */
export const AS_NAMED = { shown: (_, name) => visible(name), meant: () => [], count: 0 };

/** How many names are taken: a school has fewer. */
const MOST_NAMES = 20000;

/** The longest spelling that is taken. */
const LONGEST_SPELLING = 200;

/**
 * The originals of `names.csv` by kind and name. A row without a kind, a name or an original is passed over, and so is
 * one with a spelling that is none; of a name that stands twice the first spelling counts.
 * @param {Uint8Array} bytes
 * @returns {Originals}
 */
export function originalsIn(bytes) {
  const rows = eachRecord(decoded(bytes)), head = rows.next().value || [];
  const [kindAt, originalAt, nameAt] = ['kind', 'original', 'name'].map(it => head.indexOf(it));
  /** @type {Originals} */
  const kinds = new Map();
  let count = 0;
  for (const row of rows) {
    const [kind, original, name] = [row[kindAt], row[originalAt], row[nameAt]];
    if (!kind || !original || !name || [kind, original, name].some(it => it.length > LONGEST_SPELLING)) continue;
    if (!kinds.has(kind)) kinds.set(kind, new Map());
    if (!kinds.get(kind).has(name)) kinds.get(kind).set(name, original);
    if (++count === MOST_NAMES) break;
  }
  return kinds;
}

/**
 * How a school spells names. Where two names have one spelling, or one is spelt as another is named, the name stands
 * beside it: nobody is to take one section or student for another.
 * @param {Originals} kinds
 * @param {ReadTables} [tables] what else has names
 * @returns {Spelling}
 */
export function spellingBy(kinds, tables) {
  /** @type {Record<string, { name: string }[]>} */
  const named = { section: tables?.catalogue ?? [], student: tables?.roll ?? [] };
  const doubtful = new Map([...kinds].map(([kind, originals]) =>
    [kind, doubtfulIn(originals, new Set(Object.hasOwn(named, kind) ? named[kind].map(it => it.name) : []))]));
  return {
    shown: (kind, name) => {
      const original = kinds.get(kind)?.get(name);
      if (original === undefined) return visible(name);
      return doubtful.get(kind).has(name) ? `${visible(original)} (${visible(name)})` : visible(original);
    },
    meant: (kind, typed) => meantOf(kinds.get(kind) ?? new Map(), typed.trim()),
    count: [...kinds.values()].reduce((sum, it) => sum + it.size, 0),
  };
}

/**
 * The names that are not told from each other by their spellings: signs that look alike count as one.
 * @param {Map<string, string>} originals by name @param {Set<string>} names that are there
 * @returns {Set<string>}
 */
function doubtfulIn(originals, names) {
  const folded = (/** @type {string} */ it) => it.normalize('NFKC').replace(/\s+/g, ' ').trim();
  /** @type {Map<string, Set<string>>} */
  const spelt = new Map([...names, ...originals.keys()].map(it => [it, new Set([it])]));
  for (const [name, original] of originals) {
    const as = folded(original);
    if (spelt.has(as)) spelt.get(as).add(name);
    else spelt.set(as, new Set([name]));
  }
  return new Set([...spelt.values()].filter(it => it.size > 1).flatMap(it => [...it]));
}

/**
 * The spelling that a `names.csv` tells.
 * @param {Uint8Array} bytes
 */
export const spellingOf = bytes => spellingBy(originalsIn(bytes));

/** @param {Map<string, string>} originals by name @param {string} typed */
function meantOf(originals, typed) {
  const exact = [...originals].filter(([, original]) => original === typed);
  const folded = typed.toLowerCase();
  const near = typed ? [...originals].filter(([, original]) => original.toLowerCase().includes(folded)) : [];
  return (exact.length ? exact : near).map(([name]) => name);
}
