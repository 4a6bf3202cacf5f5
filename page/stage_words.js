// What is said of a student's stages and of why it has no seat, in words.

import { clashOf, menuOf, priceOf, worthOf } from './reckoning.js';
import { grouped, listed, plural, tokens } from './wording.js';

/**
 * The spelling of sections that the school uses, in a sentence.
 * @param {Market} market @param {string[]} names
 */
export const sections = (market, names) => listed(names.map(it => section(market, it)));

/**
 * The school's spelling of a section.
 * @param {Market} market @param {string} name
 */
export const section = (market, name) => market.spelling.shown('section', name);

/**
 * The school's spelling of a student.
 * @param {Market} market @param {number} student
 */
export const studentName = (market, student) => market.spelling.shown('student', market.roll[student].name);

/**
 * The name of a stage.
 * @param {{ pass: number }} stage
 */
export const stageName = ({ pass }) => pass ? `Aftermarket, pass ${pass}` : 'Second stage';

/**
 * The name of stages that follow each other, of which these are the first and the last.
 * @param {{ pass: number }} first @param {{ pass: number }} last
 */
export const stagesName = (first, last) => first.pass === last.pass ? stageName(first)
  : `Aftermarket, passes ${first.pass} to ${last.pass}`;

/**
 * What was taken and what given up; nothing where a turn changed nothing.
 * @param {Market} market @param {string[]} before @param {string[]} after
 */
export function changeWords(market, before, after) {
  const gave = before.filter(it => !after.includes(it)), took = after.filter(it => !before.includes(it));
  return [took.length ? `took ${sections(market, took)}` : '', gave.length ? `gave up ${sections(market, gave)}` : '']
    .filter(Boolean).join(' and ');
}

/**
 * What a reason speaks of.
 * @typedef {{ of: Section, name: string, price: number, left: number, budget: number, caps: Student, held: string,
 *   spent: number, credits: number, other: string, clash: string, student: string, isTurn: boolean, isKept: boolean,
 *   isTie: boolean }} Facts
 */

/** @param {Facts} it */
const took = it => !it.isTurn ? 'bought' : it.isKept ? 'kept' : 'took';

/**
 * What the bundle of a student left of something, in words.
 * @param {Facts} it @param {number} left @param {string} all of how much
 */
const leftBy = (it, left, all) => `what ${it.student} ${took(it)} left ${left ? grouped(left) : 'none'} of ${all}`;

/**
 * That a section is not to be had besides, in words.
 * @param {Facts} it
 */
const givesUp = it => `${it.student} would have had to give something up for it`;

/**
 * The reasons of `explain`, each short for a line.
 * @type {Record<string, (it: Facts) => string>}
 */
const SHORT = {
  held: it => `${it.student} ${took(it)} it, and gave it up later for `
    + (it.isTie ? 'a bundle that is as good, which the tie rule chose' : 'a better bundle'),
  unrated: it => `${it.student} gave it no rating above 0`,
  'alone price': it => `its price is ${grouped(it.price)}, more than the whole budget of ${tokens(it.budget)}`,
  'alone credits': it => `it has ${plural(it.of.credits, 'credit')}, and the roll allows ${it.caps.credits} in all`,
  'alone courses': it => `the roll allows ${it.student} no section at all`,
  'beside price': it => `${givesUp(it)}: its price is ${grouped(it.price)}, and `
    + leftBy(it, it.left, tokens(it.budget)),
  'beside credits': it => `${givesUp(it)}: it has ${plural(it.of.credits, 'credit')}, and `
    + leftBy(it, it.caps.credits - it.credits, plural(it.caps.credits, 'credit')),
  'beside courses': it =>
    `${givesUp(it)}: ${it.student} ${took(it)} ${plural(it.caps.courses, 'section')}, and the roll allows no more`,
  clash: it => `${givesUp(it)}: it ${it.clash} ${it.other}, which ${it.student} ${took(it)}`,
  less: it => `${it.student} could have had it too, but with it the bundle is worth no more, by its adjustments`,
};

/** @type {Record<string, string>} */
const PAST = { bought: 'bought', kept: 'kept', took: 'taken' };

/**
 * The same in the few words of a line that unfolds.
 * @type {Record<string, (it: Facts) => string>}
 */
const BRIEF = {
  held: it => `${PAST[took(it)]}, and given up later for `
    + (it.isTie ? 'one as good, by the tie rule' : 'a better bundle'),
  unrated: () => 'not rated above 0',
  'alone price': it => `its price of ${grouped(it.price)} is above the whole budget`,
  'alone credits': it => `its credits, ${it.of.credits}, are more than the roll allows`,
  'alone courses': () => 'the roll allows no section at all',
  'beside price': () => 'too dear with the rest',
  'beside credits': () => 'too many credits with the rest',
  'beside courses': () => 'one section too many with the rest',
  clash: it => `${it.clash.replace(/^.* the /, '')} ${it.other}`,
  less: () => 'worth no more with it, by the adjustments',
};

/**
 * The same at length.
 * @type {Record<string, (it: Facts) => string>}
 */
const LONG = {
  held: it => `${it.student} ${took(it)} ${it.name}${it.isTurn ? '' : ' in the second stage'}, and gave it up `
    + `${it.isTurn ? 'later' : 'in the aftermarket'} for a bundle that `
    + (it.isTie ? `is as good, which the tie rule chose: ${TIE}.` : 'it prefers.'),
  unrated: it => `${it.student} gave ${it.name} no rating above 0, and so did not ask for it.`,
  'alone price': it =>
    `The price of ${it.name} is ${grouped(it.price)}, more than the whole budget of ${grouped(it.budget)}.`,
  'alone credits': it => `${it.name} has ${plural(it.of.credits, 'credit')}, more than the cap of ${it.caps.credits}.`,
  'alone courses': it => `The roll allows ${it.student} no section at all.`,
  'beside price': it => `The price of ${it.name} is ${grouped(it.price)}. ${it.student} ${took(it)} ${it.held}, whose `
    + `prices together are ${grouped(it.spent)}. Of its budget of ${grouped(it.budget)} that leaves `
    + `${grouped(it.left)}, too little for ${it.name} besides.`,
  'beside credits': it => `${it.name} has ${plural(it.of.credits, 'credit')}. With what ${it.student} ${took(it)} `
    + `(${it.held}) that passes the cap of ${it.caps.credits} credits.`,
  'beside courses': it => `${it.student} ${took(it)} ${it.held}. With ${it.name} that passes the cap of `
    + `${plural(it.caps.courses, 'section')}.`,
  clash: it => `${it.name} ${it.clash} ${it.other}, which ${it.student} ${took(it)}.`,
  less: it => `${it.student} could have had ${it.name} besides what it ${took(it)}, but by its own adjustments that is `
    + 'worth no more.',
};

/**
 * @param {Market} market @param {number} student @param {Stage} stage @param {string} name @param {Explanation} told
 * @returns {Facts}
 */
function factsOf(market, student, stage, name, told) {
  const of = market.sectionOf.get(name), spent = priceOf(market, stage.names), other = market.sectionOf.get(told.other);
  return {
    of, name: section(market, name), price: market.text.prices[of.at], left: stage.budget - spent, budget: stage.budget,
    spent, caps: market.roll[student], held: sections(market, stage.names),
    credits: stage.names.reduce((sum, it) => sum + market.sectionOf.get(it).credits, 0),
    other: other ? section(market, other.name) : '', clash: other ? clashOf(of, other) : '',
    student: studentName(market, student), isTurn: stage.pass > 0, isKept: stage.before.join() === stage.names.join(),
    isTie: told.reason === 'held' && isTieLater(market, student, stage, name),
  };
}

/**
 * Whether the bundle for which a section was given up later is worth as much as the one before it, by the ratings.
 * @param {Market} market @param {number} student @param {Stage} stage @param {string} name
 */
function isTieLater(market, student, stage, name) {
  const turns = market.text.turns.filter(it => it.student === student && it.pass > stage.pass);
  const at = turns.findIndex(it => !it.names.includes(name)), menu = menuOf(market, student);
  if (at < 0) return false;
  const worth = (/** @type {string[]} */ names) =>
    names.every(it => menu.of.has(it)) ? worthOf(menu, names.map(it => menu.of.get(it))) : NaN;
  return worth(at ? turns[at - 1].names : stage.names) === worth(turns[at].names);
}

/**
 * Why a student has no seat in a section in a stage, in a few words; a tie is said to be one.
 * @param {Market} market @param {number} student @param {Stage} stage @param {string} name @param {Explanation} told
 */
export const shortReason = (market, student, stage, name, told) =>
  SHORT[told.reason](factsOf(market, student, stage, name, told)) + worthWords(told, studentName(market, student));

/**
 * The same in the few words of a line that unfolds.
 * @param {Market} market @param {number} student @param {Stage} stage @param {string} name @param {Explanation} told
 */
export const briefReason = (market, student, stage, name, told) =>
  BRIEF[told.reason](factsOf(market, student, stage, name, told));

/**
 * What the best bundle with a section is worth, and what the best one without it, in such a line; nothing where that
 * was not said.
 * @param {Explanation} told
 */
export function briefWorth({ worth, lost }) {
  if (lost === undefined) return '';
  return lost ? `: worth ${grouped(worth)} with it, ${grouped(worth + lost)} without`
    : ': a tie, worth as much with it';
}

/**
 * The same of a later stage, behind the reason of an earlier one: what is as it was is not said again.
 * @param {Market} market @param {number} student @param {Stage} stage @param {string} name @param {Explanation} told
 * @param {Explanation} before
 */
export function laterReason(market, student, stage, name, told, before) {
  const isSame = told.reason === before.reason && told.other === before.other;
  if (!isSame) return shortReason(market, student, stage, name, told);
  const it = factsOf(market, student, stage, name, told);
  const isWorth = told.worth === before.worth && told.lost === before.lost;
  return (told.reason === 'beside price' ? leftBy(it, it.left, tokens(it.budget)) : 'the same holds')
    + (isWorth ? '' : worthWords(told, it.student));
}

/**
 * What the best bundle with the section is worth, and what the best one without it; nothing where that was not said.
 * @param {Explanation} told @param {string} student
 */
function worthWords({ worth, lost }, student) {
  if (lost === undefined) return '';
  return lost ? ` (by the ratings of ${student} the best with it was worth ${grouped(worth)}, without it `
    + `${grouped(worth + lost)})` : ' (a tie: with it the best is worth as much)';
}

/**
 * The same at length, with the best bundle that has the section.
 * @param {Market} market @param {number} student @param {Stage} stage @param {string} name @param {Explanation} told
 * @returns {string[]} a paragraph each
 */
export function longReason(market, student, stage, name, told) {
  const it = factsOf(market, student, stage, name, told), why = LONG[told.reason](it);
  return told.best ? [why, bestWords(market, it, stage, told)] : [why];
}

/** The rule by which a tie is broken, in words. */
export const TIE = 'of bundles of equal worth the best is the one with the earliest section, in the order of the '
  + 'catalogue, that only one of them has';

/** @param {Market} market @param {Facts} it @param {Stage} stage @param {Explanation} told */
function bestWords(market, it, stage, told) {
  const more = told.lost ? `${told.lost} more.` : `as much: a tie; ${TIE}.`;
  const of = stage.pass ? ' of what was held and what was free' : '', prices = grouped(priceOf(market, told.best));
  return `With ${it.name} the best bundle that the budget buys${of} is ${sections(market, told.best)} (prices together `
    + `${prices}), worth ${told.worth} by the ratings of ${it.student}. `
    + `What ${it.student} ${took(it)} is worth ${told.worth + told.lost}, ${more}`;
}
