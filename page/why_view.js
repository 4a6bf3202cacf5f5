// "Why not X?": one line for each section that a student rated and does not hold, which unfolds.

import { drawingOf } from './drawing.js';
import { button, el, opening, p } from './elements.js';
import { explainedIn, explanationOf, takenIfFree, unjudgedWords, unratedIn } from './one_student.js';
import { callOf } from './program.js';
import { menuOf, walkOf } from './reckoning.js';
import { turnOrder } from './seats_and_turns.js';
import {
  briefReason, briefWorth, laterReason, longReason, section, shortReason, stageName, stagesName, studentName,
} from './stage_words.js';
import { grouped, plural } from './wording.js';
import { answerWords } from './words.js';
import { work } from './work.js';

/**
 * The answer about a section in a stage, and in all that follow it up to `last` with the same bundle and the same
 * seats: what `explain` said, or why it said nothing, in words.
 * @typedef {{ stage: Stage, last: Stage, told?: Explanation, failed?: string }} Reply
 */

/**
 * What a free seat in a section would have changed at turns at which it had none, by the program's `demand`: nothing at
 * any of them, or that the section would have been taken; null where that is not known.
 * @typedef {'nothing' | 'taken' | null} IfFree
 */

/**
 * A line that asks about a section. `ask` has it filled once, also where it is not opened.
 * @typedef {{ node: HTMLElement, ask: () => Promise<void> }} Question
 */

/**
 * The sections that a student rated and does not hold in the end, highest rating first: those that it rated higher than
 * one that it holds, and the others.
 * @param {Market} market @param {number} student
 */
export function missedSections(market, student) {
  const end = market.text.finals[student], { places } = menuOf(market, student);
  const least = Math.min(...places.filter(it => end.includes(it.name)).map(it => it.rating)), isHeld = least < Infinity;
  const missed = places.filter(it => !end.includes(it.name)).sort((one, other) => other.rating - one.rating);
  const isHigher = (/** @type {Place} */ it) => !isHeld || it.rating > least;
  return { higher: missed.filter(isHigher), others: missed.filter(it => !isHigher(it)) };
}

/**
 * The part on all sections that are missed. The lines stand at once; what the program answers is written into them.
 * @param {Market} market @param {number} student @param {Stage[]} stages
 */
export function whyNodes(market, student, stages) {
  const { higher, others } = missedSections(market, student), name = studentName(market, student);
  const lines = (/** @type {Place[]} */ of) => {
    const questions = of.map(it => questionOf(market, student, stages, it.name, false));
    askAll(questions);
    return questions.map(it => it.node);
  };
  return [
    p(missedWords(market, student, higher.length)),
    ...lines(higher),
    others.length
      ? opening(`${plural(others.length, 'section')} that ${name} rated no higher`, () => lines(others)) : null,
    otherSection(market, student, stages),
  ].filter(Boolean);
}

/**
 * Has questions filled one after another, while they stand on the page.
 * @param {Question[]} questions
 */
async function askAll(questions) {
  await null;
  for (const it of questions) if (it.node.isConnected) await it.ask();
}

/**
 * What of the sections that a student does not hold is told first.
 * @param {Market} market @param {number} student @param {number} higher how many are rated higher than one that is held
 */
export function missedWords(market, student, higher) {
  const name = studentName(market, student), end = market.text.finals[student];
  const held = menuOf(market, student).places.filter(it => end.includes(it.name));
  if (!end.length && !higher) return `${name} rated nothing.`;
  if (!end.length) return `${name} holds nothing in the end. These sections were rated:`;
  const least = held.reduce((one, other) => other.rating < one.rating ? other : one, held[0]);
  const of = least ? `${least.shown} (rated ${least.rating}), the lowest of those that ${name} holds in the end`
    : 'one that is held in the end';
  return higher ? `${name} rated these sections higher than ${of}:`
    : `${name} rated no other section higher than ${of}.`;
}

/**
 * Asks why a student has no seat in a section: of the second stage, and of each turn at which a seat was free. Turns at
 * which all was the same are asked about once.
 * @param {Market} market @param {number} student @param {Stage[]} stages @param {string} name
 * @returns {Promise<Reply[]>}
 */
async function repliesAbout(market, student, stages, name) {
  /** @type {Map<string, Reply>} */
  const replies = new Map();
  for (const stage of stages) {
    if (stage.pass && !stage.allowed.has(name)) continue;
    const key = [stage.budget, stage.names.join(), stage.allowed ? [...stage.allowed].join() : ''].join(' ');
    if (replies.has(key)) replies.get(key).last = stage;
    else replies.set(key, { stage, last: stage, ...await replyOf(market, student, stage, name) });
  }
  return [...replies.values()];
}

/**
 * Asks what a free seat would have changed, of a section that had none at any turn of a student. Turns at which all was
 * the same are asked about once.
 * @param {Market} market @param {number} student @param {Stage[]} stages @param {string} name
 * @returns {Promise<IfFree>}
 */
async function askedIfFree(market, student, stages, name) {
  const turns = stages.filter(it => it.pass), isOpen = turns.some(it => it.allowed.has(name) || unjudgedWords(it));
  if (!turns.length || isOpen || !isRated(market, student, name)) return null;
  const keys = new Map(turns.map(it => [[...it.allowed].join(), it]));
  for (const turn of keys.values()) {
    const names = await takenIfFree(work, market, student, turn, name);
    if (!names) return null;
    if (names.includes(name)) return 'taken';
  }
  return 'nothing';
}

/** @param {Market} market @param {number} student @param {string} name */
const isRated = (market, student, name) => menuOf(market, student).of.has(name);

/**
 * @param {Market} market @param {number} student @param {Stage} stage @param {string} name
 * @returns {Promise<{ told?: Explanation, failed?: string }>}
 */
async function replyOf(market, student, stage, name) {
  if (unjudgedWords(stage)) return wholeReply(market, student, stage, name);
  const asked = await explainedIn(work, market, student, stage, name);
  return 'told' in asked ? asked : { failed: answerWords(asked.answer, asked.call).words };
}

/**
 * The answer of the whole market, where one student alone cannot have the budget.
 * @param {Market} market @param {number} student @param {Stage} stage @param {string} name
 */
async function wholeReply(market, student, stage, name) {
  if (market.isOwn || stage.pass) return { failed: unjudgedWords(stage) };
  const call = callOf('explain', market.parts, [market.roll[student].name, name]);
  const answer = await work(`Asking about ${name}`, call);
  return answer.status === 0 ? { told: explanationOf(answer.text) } : { failed: answerWords(answer, call).words };
}

/**
 * @param {Market} market @param {number} student @param {Stage[]} stages @param {string} name @param {boolean} isOpen
 * @returns {Question}
 */
function questionOf(market, student, stages, name, isOpen) {
  const short = el('span', { class: 'short' }), answer = el('div', { class: 'answer' });
  const summary = el('summary', {}, 'Why not ', el('b', {}, section(market, name)), '? ', short);
  const node = el('details', { class: 'question', open: isOpen }, summary, answer);
  /** @type {Promise<void> | null} */
  let asked = null;
  const ask = () => asked ??= fill();
  const fill = async () => {
    short.textContent = '..';
    const replies = await repliesAbout(market, student, stages, name), isFailed = replies.some(it => it.failed);
    const ifFree = isFailed ? null : await askedIfFree(market, student, stages, name);
    short.textContent = isFailed ? 'The program gave no answer.' : briefAnswer(market, student, name, replies, ifFree);
    answer.replaceChildren(...unfoldedNodes(market, student, stages, name, replies, ifFree));
    if (!isFailed) return;
    asked = null;
    answer.append(button('Ask again', ask, { class: 'small' }));
  };
  node.fill = () => {};
  node.addEventListener('toggle', () => { if (node.open) ask(); });
  if (isOpen) ask();
  return { node, ask };
}

/**
 * Whether an answer is one on which free seats have no bearing: the section was held, or is not rated, and no turn was
 * asked about.
 * @param {Reply[]} replies
 */
const isWithoutSeats = ([{ told }, ...later]) => !later.length && told && ['held', 'unrated'].includes(told.reason);

/**
 * Why a student has no seat in a section, in the sentence that stands on the line: the reason of the second stage, or
 * what became of the section in the aftermarket, where it was taken then or a free seat would have been.
 * @param {Market} market @param {number} student @param {string} name @param {Reply[]} replies @param {IfFree} ifFree
 */
export function briefAnswer(market, student, name, replies, ifFree) {
  const [first] = replies, taken = replies.find(it => it.told.reason === 'held');
  const words = (/** @type {Reply} */ it) => briefReason(market, student, it.stage, name, it.told);
  if (taken && taken !== first) return `${stageName(taken.stage)}: ${words(taken)}.`;
  const brief = words(first) + (ifFree === 'taken' ? '; in the aftermarket no seat was free' : briefWorth(first.told));
  return `${brief[0].toUpperCase()}${brief.slice(1)}.`;
}

/**
 * The reason of the second stage, in a paragraph.
 * @param {Market} market @param {number} student @param {string} name @param {Reply[]} replies
 */
export const firstAnswer = (market, student, name, [{ stage, told }]) =>
  `${shortReason(market, student, stage, name, told)}.`;

/**
 * What was of a section in the aftermarket: the line that unfolds, and the paragraph below it; null where there was no
 * turn, or seats have no bearing.
 * @param {Market} market @param {number} student @param {Stage[]} stages @param {string} name @param {Reply[]} replies
 * @param {IfFree} ifFree
 * @returns {{ title: string, brief: string, words: string } | null}
 */
export function laterAnswer(market, student, stages, name, replies, ifFree) {
  if (stages.length < 2 || isWithoutSeats(replies)) return null;
  const [first, ...later] = replies, taken = later.find(it => it.told.reason === 'held'), last = later.at(-1);
  const told = (/** @type {Stage | null} */ at, /** @type {string} */ brief, /** @type {string} */ words) => {
    const title = at ? stageName(at) : 'Aftermarket';
    return { title, brief: `${brief}.`, words: `${title}: ${words}.` };
  };
  const brief = (/** @type {Reply} */ it) => briefReason(market, student, it.stage, name, it.told);
  if (taken) return told(taken.stage, brief(taken), shortReason(market, student, taken.stage, name, taken.told));
  if (!last) {
    const none = `no seat was free ${atTurns(market, student, stages)}`;
    return told(null, none, noneFree(market, student, stages, name, ifFree));
  }
  const why = laterReason(market, student, last.stage, name, last.told, first.told), free = last.last.free.get(name);
  return told(last.last, `${freeOf(market, name, free)}; ${brief(last)}`,
    `${freeAt(market, student, last.last, name)}, but ${why}`);
}

/**
 * How many seats of how many were free.
 * @param {Market} market @param {string} name @param {number} free
 */
const freeOf = (market, name, free) =>
  `${free} of ${plural(market.sectionOf.get(name).seats, 'seat')} ${free === 1 ? 'was' : 'were'} free`;

/** @param {Market} market @param {number} student @param {Stage} stage @param {string} name */
const freeAt = (market, student, stage, name) =>
  `${freeOf(market, name, stage.free.get(name))} at the turn of ${studentName(market, student)}`;

/** @param {Market} market @param {number} student @param {Stage[]} stages */
const atTurns = (market, student, stages) =>
  `at ${stages.length > 2 ? 'any' : 'the'} turn of ${studentName(market, student)}`;

/**
 * What a free seat would have changed, in words; nothing where that is not known.
 * @param {Market} market @param {number} student @param {IfFree} ifFree
 */
const ifFreeWords = (market, student, ifFree) => ifFree === null ? '' : ifFree === 'nothing'
  ? `With a free seat too ${studentName(market, student)} would not have taken it`
  : `With a free seat ${studentName(market, student)} would have taken it`;

/**
 * Of a section that had no free seat at any turn of a student: whether it had some before, and what one would have
 * changed.
 * @param {Market} market @param {number} student @param {Stage[]} stages @param {string} name @param {IfFree} ifFree
 */
function noneFree(market, student, stages, name, ifFree) {
  const free = market.sectionOf.get(name).seats - market.counts.get(name), more = ifFreeWords(market, student, ifFree);
  const at = atTurns(market, student, stages);
  return (free > 0 ? `${freeOf(market, name, free)} when it began, and none ${at}`
    : `no seat was free when it began, nor ${at}`) + (more ? `. ${more}` : '');
}

/**
 * What unfolds below a question: the reason of the second stage, first in a paragraph and then at length, and the line
 * of the aftermarket, which unfolds to the same of it.
 * @param {Market} market @param {number} student @param {Stage[]} stages @param {string} name @param {Reply[]} replies
 * @param {IfFree} ifFree
 */
function unfoldedNodes(market, student, stages, name, replies, ifFree) {
  const [first, ...later] = replies.map(it => replyNodes(market, student, it, name));
  const free = isWithoutSeats(replies) ? [] : freeNodes(market, student, stages, name, ifFree);
  if (replies.some(it => it.failed)) return [...first, ...free, ...later.flat()];
  const after = laterAnswer(market, student, stages, name, replies, ifFree);
  return [
    p(firstAnswer(market, student, name, replies)), ...first,
    ...after ? [opening([el('b', {}, `${after.title}: `), el('span', { class: 'short' }, after.brief)],
      () => [p(after.words), ...free, ...later.flat()], false, { class: 'paper' })] : free,
  ];
}

/** @param {Market} market @param {number} student @param {Reply} reply @param {string} name */
function replyNodes(market, student, { stage, last, told, failed }, name) {
  const title = el('b', {}, `${stagesName(stage, last)}. `);
  if (failed) return [p(title, failed)];
  const [why, ...more] = longReason(market, student, stage, name, told);
  return [p(title, why), ...more.map(it => p(it)), ...told.tree ? [treeNode(market, student, stage, name, told)] : []];
}

/**
 * @param {Market} market @param {number} student @param {Stage} stage @param {string} name @param {Explanation} told
 */
function treeNode(market, student, { budget, allowed }, name, { best, tree }) {
  if (unratedIn(market, student, best).length) return '';
  const walk = walkOf(market, student, { budget, allowed, champion: best, forced: name });
  const title = `The proof that no bundle with ${section(market, name)} was better`;
  return opening(title, () => drawingOf(walk, tree));
}

/**
 * How many seats of a section were free when.
 * @param {Market} market @param {number} student @param {Stage[]} stages @param {string} name @param {IfFree} ifFree
 */
function freeNodes(market, student, stages, name, ifFree) {
  const { seats } = market.sectionOf.get(name), who = studentName(market, student);
  const count = (/** @type {number} */ it) => it > 0 ? it : 'none', after = seats - market.counts.get(name);
  const runs = freeRuns(stages, name), isTaken = runs.length && !runs.some(it => it.free > 0 || it.isHeld);
  return [
    p(el('b', {}, 'Free seats'), ` of ${section(market, name)}, of ${seats} in all:`),
    el('ul', {},
      el('li', {}, `at the end of the second stage: ${count(after)}`),
      runs.map(it => el('li', {}, `${stagesName(it.first, it.last).toLowerCase()}, at the turn of ${who}`
        + `${it.isHeld ? `, besides the seat of ${who}` : ''}: ${count(it.free)}`)),
      el('li', {}, `in the end: ${count(seats - market.endCounts.get(name))}`)),
    isTaken ? p(turnWords(market, student, ifFree)) : '',
  ];
}

/**
 * When the turns of a student come, and what a free seat would have changed then.
 * @param {Market} market @param {number} student @param {IfFree} ifFree
 */
export function turnWords(market, student, ifFree) {
  const number = turnOrder(market.text.budgets).indexOf(student) + 1, more = ifFreeWords(market, student, ifFree);
  const by = ifFree === 'nothing' ? ': at each of these turns the program finds another bundle better'
    : ' at one of these turns, by the program';
  return `In each pass turns go by budget, the greatest first, and the turn of ${studentName(market, student)} is `
    + `number ${grouped(number)} of ${grouped(market.roll.length)}.${more ? ` ${more}${by}.` : ''}`;
}

/**
 * How many seats were free at the turns, and whether the student had one itself, equal ones that follow each other as
 * one.
 * @param {Stage[]} stages @param {string} name
 */
function freeRuns(stages, name) {
  /** @type {{ first: Stage, last: Stage, free: number, isHeld: boolean }[]} */
  const runs = [];
  for (const it of stages.filter(stage => stage.pass)) {
    const free = it.free.get(name), isHeld = it.before.includes(name), before = runs.at(-1);
    if (before?.free === free && before.isHeld === isHeld) before.last = it;
    else runs.push({ first: it, last: it, free, isHeld });
  }
  return runs;
}

/** @param {Market} market @param {number} student @param {Stage[]} stages */
function otherSection(market, student, stages) {
  const to = el('div', { 'aria-live': 'polite' }), id = 'other-section', end = market.text.finals[student];
  const onchange = (/** @type {any} */ event) =>
    to.replaceChildren(questionOf(market, student, stages, event.target.value, true).node);
  const option = (/** @type {Section} */ { name, at }) =>
    el('option', { value: name }, `${section(market, name)} (price ${grouped(market.text.prices[at])})`);
  const choice = el('select', { id, onchange }, el('option', { value: '', disabled: true, selected: true }, 'choose a '
    + 'section'),
    market.catalogue.filter(it => !end.includes(it.name)).map(option));
  return el('div', {}, el('p', { class: 'ask' }, el('label', { for: id }, 'Ask about another section: '), choice), to);
}
