// What of a published text needs nobody's ratings, as the page itself reads it: budgets and caps are kept, seats
// suffice, turns are the due ones and take what is held or free, and the end follows (FORMATS, "Findings").

import { clashOf } from './reckoning.js';

/**
 * The first of these findings, in the words of `check`; null where there is none. Form, order and budgets are taken as
 * they stand, and of a bundle it is judged only what ratings have no part in.
 * @param {{ text: PublishedText, catalogue: Section[], roll: Student[], settings: { raise: number } }} market
 * @returns {string | null}
 */
export function findingWithoutRatings(market) {
  return bundlesFinding(market) ?? seatsFinding(market) ?? turnsFinding(market) ?? usedFinding(market);
}

/**
 * What is wrong with a bundle, without a look at ratings.
 * @param {any} market @param {string[]} names @param {Student} student @param {number} budget
 * @returns {'unaffordable' | 'infeasible' | null}
 */
function bundleFault({ text, catalogue, placeOf = placesOf(catalogue) }, names, student, budget) {
  /** @type {Section[]} */
  const sections = names.map(it => catalogue[placeOf.get(it)]);
  const sum = (/** @type {(it: Section) => number} */ of) => sections.reduce((total, it) => total + of(it), 0);
  if (sum(it => text.prices[it.at]) > budget) return 'unaffordable';
  if (sum(it => it.credits) > student.credits || sections.length > student.courses) return 'infeasible';
  const clashes = sections.some((one, at) => sections.slice(at + 1).some(other => clashOf(one, other)));
  return clashes ? 'infeasible' : null;
}

/** @param {Section[]} catalogue @returns {Map<string, number>} */
const placesOf = catalogue => new Map(catalogue.map(it => [it.name, it.at]));

/** @param {any} market */
function bundlesFinding(market) {
  const { text, roll } = market, within = { ...market, placeOf: placesOf(market.catalogue) };
  for (const student of roll) {
    const fault = bundleFault(within, text.bundles[student.at].names, student, text.budgets[student.at]);
    if (fault) return `student ${student.name} ${fault}`;
  }
  return null;
}

/**
 * How many students have each section, by its place in the catalogue.
 * @param {string[][]} bundles @param {Section[]} catalogue
 */
function holdersOf(bundles, catalogue) {
  const placeOf = placesOf(catalogue), counts = catalogue.map(() => 0);
  for (const names of bundles) for (const it of names) counts[placeOf.get(it)]++;
  return counts;
}

/** @param {any} market */
function seatsFinding({ text, catalogue }) {
  const counts = holdersOf(text.bundles.map((/** @type {any} */ it) => it.names), catalogue);
  const over = catalogue.find((/** @type {Section} */ it) => counts[it.at] > it.seats);
  return over ? `seats ${over.name} ${counts[over.at]} of ${over.seats}` : null;
}

/**
 * The students in the order of their turns: the greatest budget before the raise first, equal ones in the order of the
 * roll.
 * @param {number[]} budgets
 */
export const turnOrder = budgets =>
  budgets.map((_, at) => at).sort((one, other) => budgets[other] - budgets[one] || one - other);

/** @param {any} market */
function turnsFinding(market) {
  const { text, catalogue, roll, settings } = market, placeOf = placesOf(catalogue), order = turnOrder(text.budgets);
  const held = text.bundles.map((/** @type {any} */ it) => it.names), counts = holdersOf(held, catalogue);
  let changes = 1;
  for (const turn of text.turns) {
    const due = turn.number % order.length;
    if (!due && !changes) return `turn ${turn.number + 1} order`;
    if (!due) changes = 0;
    if (turn.student !== order[due] || turn.pass !== Math.floor(turn.number / order.length) + 1) {
      return `turn ${turn.number + 1} order`;
    }
    const before = held[turn.student], budget = raised(text.budgets[turn.student], settings.raise);
    const fault = bundleFault({ ...market, placeOf }, turn.names, roll[turn.student], budget);
    if (fault) return `turn ${turn.number + 1} ${fault}`;
    const isFree = (/** @type {string} */ it) => counts[placeOf.get(it)] < catalogue[placeOf.get(it)].seats;
    if (!turn.names.every((/** @type {string} */ it) => before.includes(it) || isFree(it))) {
      return `turn ${turn.number + 1} taken`;
    }
    for (const it of before) counts[placeOf.get(it)]--;
    for (const it of turn.names) counts[placeOf.get(it)]++;
    if (before.join() !== turn.names.join()) changes++;
    held[turn.student] = turn.names;
  }
  const isQuiet = !changes && text.turns.length % order.length === 0;
  if (order.length && !isQuiet) return `not quiet after ${text.turns.length} turns`;
  const wrong = roll.find((/** @type {Student} */ it) => held[it.at].join() !== text.finals[it.at].join());
  return wrong ? `final ${wrong.name}` : null;
}

/**
 * A budget raised by so many percent.
 * @param {number} budget @param {number} percent
 */
const raised = (budget, percent) => budget + Math.floor(budget * percent / 100);

/** @param {any} market */
function usedFinding({ text, catalogue }) {
  const counts = holdersOf(text.finals, catalogue);
  const isWrong = (/** @type {Section} */ it) => text.used[it.at] !== counts[it.at] || text.seats[it.at] !== it.seats;
  const wrong = catalogue.find(isWrong);
  return wrong ? `used ${wrong.name}` : null;
}
