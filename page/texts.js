// Reads a published text that the program has accepted (FORMATS, "The published text").

import { decoded } from './bytes.js';
import { Lines } from './lines.js';

/**
 * The names of a bundle, `[A,B]`; none where it is `[]`.
 * @param {string} bundle
 */
export const namesOf = bundle => bundle.length > 2 ? bundle.slice(1, -1).split(',') : [];

/**
 * At which line each part of the text begins, by how many students, sections and turns there are.
 * @param {number} students @param {number} sections @param {number} turns
 * @returns {TextLines}
 */
export function linesOf(students, sections, turns) {
  const budgets = 3, starts = budgets + students, error = starts + sections, prices = error + 1;
  const bundles = prices + sections, turned = bundles + students, finals = turned + turns;
  return { order: 2, budgets, starts, error, prices, bundles, turns: turned, finals, used: finals + students };
}

/**
 * How many lines are turns, from the given one on.
 * @param {Lines} lines @param {number} from
 */
export function turnCount(lines, from) {
  let count = 0;
  while (lines.begins(from + count, 'turn')) count++;
  return count;
}

/**
 * What stands in a text that was accepted with this catalogue and this roll. Of a tree it is told where it stands:
 * trees are nearly all of a text, and few of them are looked at.
 * @param {Uint8Array} bytes @param {Section[]} catalogue @param {Student[]} roll
 * @returns {PublishedText}
 */
export function publishedOf(bytes, catalogue, roll) {
  const lines = new Lines(bytes), [students, sections] = [roll.length, catalogue.length];
  const turns = turnCount(lines, linesOf(students, sections, 0).turns), at = linesOf(students, sections, turns);
  const each = (/** @type {number} */ from, /** @type {number} */ count, /** @type {number} */ words) =>
    Array.from({ length: count }, (_, number) => lines.wordsOf(from + number, words));
  const numbers = (/** @type {number} */ from, /** @type {number} */ count, place = 2) =>
    each(from, count, place + 1).map(it => Number(it.words[place]));
  const places = new Map(roll.map(it => [it.name, it.at]));
  const bundles = each(at.bundles, students, 3).map(({ words, from, to }) => ({ names: namesOf(words[2]), from, to }));
  const shared = sharedWith(bundles.map(it => it.names));
  const turned = each(at.turns, turns, 4).map(({ words, from, to }, number) => {
    const student = places.get(words[2]);
    return { number, pass: Number(words[1]), student, names: shared(student, namesOf(words[3])), from, to };
  });
  return {
    order: lines.at(at.order).split(' ').slice(1).map(Number),
    budgets: numbers(at.budgets, students),
    starts: numbers(at.starts, sections),
    error: lines.at(at.error).split(' ')[1],
    prices: numbers(at.prices, sections),
    bundles, turns: turned,
    finals: each(at.finals, students, 3).map((it, student) => shared(student, namesOf(it.words[2]))),
    used: numbers(at.used, sections),
    seats: numbers(at.used, sections, 3),
  };
}

/**
 * Where a student holds what it held before, that has one list: most turns change nothing, so the page is handed little
 * of them, and sees at once which ones changed something.
 * @param {string[][]} held by the place of each student; it is kept up with
 */
function sharedWith(held) {
  return (/** @type {number} */ student, /** @type {string[]} */ names) => {
    const before = held[student], isAsLong = before?.length === names.length;
    return isAsLong && before.every((it, at) => it === names[at]) ? before : held[student] = names;
  };
}

/**
 * A tree out of the bytes of its text.
 * @param {Uint8Array} bytes @param {{ from: number, to: number }} place
 */
export const treeAt = (bytes, { from, to }) => decoded(bytes.subarray(from, to));

/**
 * How many students have each section, by names.
 * @param {string[][]} bundles @param {Section[]} catalogue
 * @returns {Map<string, number>}
 */
export function countsOf(bundles, catalogue) {
  const counts = new Map(catalogue.map(it => [it.name, 0]));
  for (const names of bundles) for (const it of names) counts.set(it, counts.get(it) + 1);
  return counts;
}

/**
 * Each turn of a student with what it held before, how many seats of each section were then free, and what was to be
 * had: what it held and what was free.
 * @param {Market} market @param {number} student
 * @returns {TurnAsItStood[]}
 */
export function turnsOf(market, student) {
  const { text, catalogue } = market, held = text.bundles.map(it => it.names), counts = new Map(market.counts);
  const found = [];
  for (const turn of text.turns) {
    const before = held[turn.student];
    if (turn.student === student) {
      const free = new Map(catalogue.map(it => [it.name, it.seats - counts.get(it.name)]));
      const allowed = new Set([...free.keys()].filter(it => before.includes(it) || free.get(it) > 0));
      found.push({ ...turn, before, free, allowed });
    }
    if (turn.names === before) continue;
    for (const it of before) counts.set(it, counts.get(it) - 1);
    for (const it of turn.names) counts.set(it, counts.get(it) + 1);
    held[turn.student] = turn.names;
  }
  return found;
}

/**
 * The turns that changed what the student holds, with what was given up and what was taken.
 * @param {Market} market
 * @returns {Change[]}
 */
export function changesOf(market) {
  const held = market.text.bundles.map(it => it.names), found = [];
  for (const turn of market.text.turns) {
    const before = held[turn.student];
    if (turn.names === before) continue;
    const gave = before.filter(it => !turn.names.includes(it)), took = turn.names.filter(it => !before.includes(it));
    if (gave.length || took.length) found.push({ ...turn, gave, took });
    held[turn.student] = turn.names;
  }
  return found;
}
