// What the program answers about one student, each time in a market of this student alone.

import { MOST_BASE, roomOf, sessionOf } from './alone.js';
import { encoded } from './bytes.js';
import { callOf } from './program.js';
import { menuOf, priceOf, raisedBudget, worthOf } from './reckoning.js';
import { linesOf, namesOf, treeAt, turnsOf } from './texts.js';
import { grouped, tokens } from './wording.js';

/**
 * Runs one call of the program and tells that it works.
 * @typedef {(title: string, call: Call) => Promise<Answer>} Ask
 */

/**
 * What a student said, where it said nothing.
 * @type {Said}
 */
const NOTHING_SAID = { bytes: sessionOf([]), count: 0 };

/**
 * The stages in which a student took a bundle: the second one, and its turns as they stood.
 * @param {Market} market
 * @param {number} student
 * @returns {Stage[]}
 */
export function stagesOf(market, student) {
  const { bundles, budgets } = market.text, raised = raisedBudget(market, student), first = bundles[student];
  const tree = (/** @type {PrintedBundle} */ it) => treeAt(market.parts.text.bytes, it);
  return [
    { names: first.names, tree: tree(first), pass: 0, budget: budgets[student], before: [] },
    ...turnsOf(market, student).map(({ pass, before, free, allowed, ...turn }) =>
      ({ names: turn.names, tree: tree(turn), pass, before, free, allowed, budget: raised })),
  ];
}

/**
 * The inputs of the market of a student alone, in one of its stages.
 * @param {Market} market @param {number} student @param {Stage} stage
 */
export function roomOfStage(market, student, { names, tree, budget, allowed }) {
  const { name, credits, courses } = market.roll[student], said = market.said.get(name) ?? NOTHING_SAID;
  const { prices } = market.text;
  return roomOf(market.catalogue, { name, credits, courses, prices, said, names, tree, budget, allowed });
}

/**
 * The lines of the text that are a student's own, each with its number.
 * @param {Market} market @param {number} student
 * @returns {{ number: number, text: string }[]}
 */
export function linesInText({ roll, catalogue, text, parts }, student) {
  const { name } = roll[student], at = linesOf(roll.length, catalogue.length, text.turns.length);
  const bundle = (/** @type {string[]} */ names) => `[${names.join()}]`;
  const printed = (/** @type {PrintedBundle} */ it) => `${bundle(it.names)} ${treeAt(parts.text.bytes, it)}`;
  return [
    { number: at.budgets + student, text: `budget ${name} ${text.budgets[student]}` },
    { number: at.bundles + student, text: `bundle ${name} ${printed(text.bundles[student])}` },
    ...text.turns.filter(it => it.student === student).map(it => (
      { number: at.turns + it.number, text: `turn ${it.pass} ${name} ${printed(it)}` })),
    { number: at.finals + student, text: `final ${name} ${bundle(text.finals[student])}` },
  ];
}

/**
 * Why the program cannot be asked about a stage of a student alone, in words; nothing where it can.
 * @param {Stage} stage
 */
export const unjudgedWords = ({ budget }) => budget <= MOST_BASE ? ''
  : `The budget of ${tokens(budget)} is more than a roll can give, which is ${grouped(MOST_BASE)} at most, so the `
    + 'program cannot be asked about this student alone.';

/**
 * Has the program check a student's stages, each in a market of this student alone.
 * @param {Ask} ask
 * @param {Market} market
 * @param {number} student
 * @param {Stage[]} [stages]
 * @returns {Promise<JudgedStage[]>}
 */
export async function judgedStages(ask, market, student, stages = stagesOf(market, student)) {
  const judged = [];
  for (const stage of stages) {
    const unjudged = unjudgedWords(stage);
    const call = callOf('check', roomOfStage(market, student, stage));
    judged.push({ ...stage, ...findingOf(unjudged ? null : await ask('Checking the bundles', call), unjudged) });
  }
  return judged;
}

/** @param {Answer | null} answer @param {string} unjudged @returns {{ finding: string | null, unjudged?: string }} */
function findingOf(answer, unjudged) {
  if (!answer) return { finding: null, unjudged };
  if (answer.status === 0) return { finding: null };
  const [, finding] = /^finding: (.*)\n$/.exec(answer.text) ?? [];
  if (finding) return { finding };
  return { finding: null, unjudged: answer.status === 'stopped' ? STOPPED : `It ended with ${answer.status}.` };
}

const STOPPED = 'The work was stopped before the program had answered.';

/**
 * What `explain` prints, as its parts.
 * @param {string} answer
 * @returns {Explanation}
 */
export function explanationOf(answer) {
  const [first, best, lost, tree] = answer.trimEnd().split('\n'), [, , ...words] = first.split(' ');
  const told = words[0] === 'clash' ? { reason: 'clash', other: words[1] } : { reason: words.join(' ') };
  if (!best) return told;
  const [, bundle, worth] = best.split(' ');
  const known = { worth: Number(worth), lost: Number(lost.split(' ')[1]), tree: tree.slice(5) };
  return { ...told, best: namesOf(bundle), ...known };
}

/**
 * Asks why a student has no seat in a section in one of its stages. Of a turn of the aftermarket the answer is of what
 * was held and what was free, and of the raised budget.
 * @param {Ask} ask
 * @param {Market} market
 * @param {number} student
 * @param {Stage} stage
 * @param {string} section
 * @returns {Promise<{ told: Explanation } | { answer: Answer, call: Call }>}
 */
export async function explainedIn(ask, market, student, stage, section) {
  const call = callOf('explain', roomOfStage(market, student, stage), [market.roll[student].name, section]);
  const answer = await ask(`Asking about ${section}`, call);
  return answer.status === 0 ? { told: explanationOf(answer.text) } : { answer, call };
}

/**
 * Asks what a student would take at the printed prices, with another rating or another budget.
 * @param {Ask} ask
 * @param {Market} market
 * @param {number} student
 * @param {Tried} tried
 * @returns {Promise<{ demanded: Demanded } | { answer: Answer, call: Call }>}
 */
export async function demandedWith(ask, market, student, { section, points, budget }) {
  const { name } = market.roll[student], said = market.said.get(name) ?? NOTHING_SAID;
  const more = section === undefined ? '' : `rate ${name} ${section} ${points}\n`;
  const [stage] = stagesOf(market, student), room = roomOfStage(market, student, { ...stage, budget });
  const session = { ...room.sessions[0], bytes: joined(said.bytes, encoded(more)) };
  const call = callOf('demand', { ...room, sessions: [session] });
  const answer = await ask('Asking what would be taken', call);
  const names = answer.status === 0 ? demandedIn(answer.text) : null;
  if (!names) return { answer, call };
  const menu = menuOf(withRating(market, name, section, points), student);
  return { demanded: { names, worth: worthOf(menu, names.map(it => menu.of.get(it))), price: priceOf(market, names) } };
}

/**
 * Asks what a student would have taken at a turn, had a section had a free seat then besides those that had one.
 * @param {Ask} ask @param {Market} market @param {number} student @param {Stage} stage a turn @param {string} section
 * @returns {Promise<string[] | null>} null where the program did not answer
 */
export async function takenIfFree(ask, market, student, stage, section) {
  const allowed = new Set([...stage.allowed, section]), room = roomOfStage(market, student, { ...stage, allowed });
  const answer = await ask(`Asking about ${section}`, callOf('demand', room));
  return answer.status === 0 ? demandedIn(answer.text) : null;
}

/**
 * The bundle that `demand` printed for the one student whom it was asked about; null where there is none.
 * @param {string} text
 */
function demandedIn(text) {
  const bundle = text.split('\n').find(it => it.startsWith('bundle '))?.split(' ')[2];
  return bundle ? namesOf(bundle) : null;
}

/** @param {Uint8Array} one @param {Uint8Array} other */
function joined(one, other) {
  const all = new Uint8Array(one.length + other.length);
  all.set(one);
  all.set(other, one.length);
  return all;
}

/**
 * The market with one rating of a student in place of what it said.
 * @param {Market} market @param {string} name @param {string} [section] @param {number} [points]
 */
function withRating(market, name, section, points) {
  if (section === undefined) return market;
  /** @type {Wishes} */
  const wishes = market.wishes.get(name) ?? { ratings: new Map(), pairs: [] };
  const changed = { ...wishes, ratings: new Map(wishes.ratings).set(section, points) };
  return { ...market, wishes: { get: (/** @type {string} */ it) => it === name ? changed : market.wishes.get(it) } };
}

/**
 * What of the own wishes a bundle does not keep, so that no tree of it can be walked: its sections without a rating.
 * @param {Market} market @param {number} student @param {string[]} names
 */
export function unratedIn(market, student, names) {
  const { of } = menuOf(market, student);
  return names.filter(it => !of.has(it));
}
