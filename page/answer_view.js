// The answer that stands first: whether a student could have had anything better, what it holds as a week, and who says
// so.

import { code, el, opening, p } from './elements.js';
import { demandedWith, linesInText } from './one_student.js';
import { menuOf, priceOf, raisedBudget, worthOf } from './reckoning.js';
import { CAUSES } from './signs.js';
import { changeWords, sections, stageName, studentName } from './stage_words.js';
import { linesOf } from './texts.js';
import { weekView } from './week_view.js';
import { grouped, shortList, tokens } from './wording.js';
import { findingWords } from './words.js';
import { work } from './work.js';

/**
 * What a student holds in the end, with its worth and prices, how it came to that, and its week.
 * @param {Market} market
 * @param {number} student
 * @param {Stage[]} stages
 */
export function heldWeek(market, student, stages) {
  const held = market.text.finals[student], name = studentName(market, student);
  const shown = (/** @type {string} */ it) => market.spelling.shown('section', it);
  const way = wayWords(market, student, stages);
  return el('div', { class: 'held' },
    el('p', { class: 'holds' }, `In the end ${name} holds `, el('b', {}, sections(market, held)),
      heldPrices(market, student), way ? ` ${way}` : ''),
    held.length ? weekView(held.map(it => market.sectionOf.get(it)), `The week of ${name}`, shown) : null);
}

/**
 * What a bundle is worth by the student's ratings; nothing where it has a section that they do not name.
 * @param {Market} market @param {number} student @param {string[]} names
 */
function ratedWorth(market, student, names) {
  const menu = menuOf(market, student);
  return names.every(it => menu.of.has(it)) ? grouped(worthOf(menu, names.map(it => menu.of.get(it)))) : '';
}

/**
 * What is held in the end is worth, its prices, and of which budget they are: of the raised one, where the aftermarket
 * changed what is held.
 * @param {Market} market @param {number} student
 */
export function heldPrices(market, student) {
  const held = market.text.finals[student], budget = market.text.budgets[student];
  if (!held.length) return '.';
  const isChanged = held.join() !== market.text.bundles[student].names.join();
  const of = isChanged ? `the raised ${tokens(raisedBudget(market, student))}` : tokens(budget);
  const worth = ratedWorth(market, student, held);
  return `${worth ? `, worth ${worth} by the ratings of ${studentName(market, student)}` : ''}, prices together `
    + `${grouped(priceOf(market, held))} of ${of}.`;
}

/**
 * What was bought first, and what each turn changed; nothing where none did.
 * @param {Market} market @param {number} student @param {Stage[]} stages
 */
export function wayWords(market, student, [first, ...turns]) {
  const name = studentName(market, student), worth = ratedWorth(market, student, first.names);
  const turned = turns.map(it => ({ pass: it.pass, change: changeWords(market, it.before, it.names) }));
  const told = turned.filter(it => it.change).map(({ change, pass }) => `${change} (pass ${pass})`);
  const given = first.names.filter(it => !market.text.finals[student].includes(it));
  const bundle = `a bundle${given.length ? ` with ${sections(market, given)}` : ''}${worth ? `, worth ${worth}` : ''}`;
  return told.length ? `First ${name} bought ${first.names.length ? bundle : 'nothing'}; at turns in the aftermarket `
    + `${name} ${told.join('; ')}.` : '';
}

/**
 * The answer in its first line, and what it stands on, once the program has judged all stages.
 * @param {Market} market @param {number} student @param {JudgedStage[]} judged
 */
export async function answerNodes(market, student, judged) {
  const wrong = judged.find(it => it.finding), unjudged = judged.find(it => it.unjudged);
  if (wrong) return wrongNodes(market, student, judged, wrong);
  const yes = yesWords(market, student, judged.length > 1);
  if (!unjudged) return [lead('right', yes), basisPart(market, student, judged)];
  const whole = market.isOwn ? '' : ' The check of the whole text holds for it.';
  const title = `No answer: the ${stageName(unjudged).toLowerCase()} was not judged.`;
  return [lead('open', title), p(unjudged.unjudged + whole)];
}

/** @param {string} kind @param {...any} children */
const lead = (kind, ...children) => el('p', { class: `lead ${kind}` }, ...children);

/**
 * That nothing better was to be had: of each budget that the student had.
 * @param {Market} market @param {number} student @param {boolean} hasTurns
 */
export function yesWords(market, student, hasTurns) {
  const budget = tokens(market.text.budgets[student]), wishes = market.wishes.get(market.roll[student].name);
  const hasRated = [...wishes?.ratings.values() ?? []].some(it => it > 0);
  const name = studentName(market, student), { raise } = market.settings;
  if (!hasRated) return `${name} rated nothing, so nothing was to be had for ${budget}.`;
  const before = grouped(market.text.budgets[student]), after = grouped(raisedBudget(market, student));
  const later = hasTurns ? `, nor at the turns of ${name} in the aftermarket for ${after}, which is ${before} `
    + `raised by ${raise} percent` : '';
  return `Yes: at these prices nothing better was to be had for ${budget}${later}.`;
}

/**
 * Who says what of an answer: the program, the page, and what nobody can say here; and the lines of the text.
 * @param {Market} market @param {number} student @param {JudgedStage[]} judged
 */
function basisPart(market, student, judged) {
  const item = (/** @type {string} */ title, /** @type {string[]} */ of) => el('li', {}, el('b', {}, title),
    el('ul', {}, of.map(it => el('li', {}, it))));
  return opening('Who says so', () => [
    el('ul', { class: 'plain' },
      item('The program says:', saidByProgram(market, student, judged)),
      item('The page reads and reckons by itself, which is tested and not proved:', saidByPage(market)),
      market.isOwn ? item('Nobody can say here:', UNKNOWN) : null),
    p('These are the lines of the text, with their numbers:'),
    el('ul', { class: 'plain' }, linesInText(market, student).map(it => el('li', {}, `${it.number}: `, code(it.text)))),
  ], false, { class: 'basis paper' });
}

/** @param {Market} market @param {number} student @param {JudgedStage[]} judged */
function saidByProgram(market, student, judged) {
  const turns = judged.length - 1, at = turns === 1 ? 'its turn' : `each of its ${grouped(turns)} turns`;
  return [
    market.isOwn
      ? 'of the whole text: that each line has its due form, and that each budget is the one that the roll, the '
        + 'settings and the draw give;'
      : 'of the whole text, with all sessions: it holds;',
    `of ${studentName(market, student)} alone, by its own lines, its budget and the printed prices: the bundle of the `
      + `second stage is the best that ${tokens(judged[0].budget)} buy, and the signs beside it prove so;`,
    turns ? `at ${at} of the aftermarket: the bundle is the best that ${tokens(raisedBudget(market, student))} buy of `
      + 'what it held and what was free;' : '',
    'below: why it has no seat in a section, and what it would take with a free seat, another rating or budget.',
  ].filter(Boolean);
}

/** @param {Market} market */
const saidByPage = market => [
  'which seats were free at which turn, by the bundles of all in the text;',
  market.isOwn ? 'that bundles keep budgets, caps and timetables, that seats suffice, that turns are the due ones, and '
    + 'that what is held in the end and the used seats follow from them;' : '',
  'what a bundle is worth, the week, and what the signs say in words.',
].filter(Boolean);

const UNKNOWN = [
  'what others said, and so whether their bundles are their best, the clearing error, and envy;',
  'whether these are all the lines that the school took.',
];

/**
 * Where a stage does not hold: what is wrong, what would be the best, and what may be the cause.
 * @param {Market} market @param {number} student @param {JudgedStage[]} judged @param {JudgedStage} wrong
 */
async function wrongNodes(market, student, judged, wrong) {
  const isTree = / tree \w+ at /.test(wrong.finding) && !wrong.pass;
  const asked = isTree ? await demandedWith(work, market, student, { budget: wrong.budget }) : null;
  const best = asked && 'demanded' in asked ? asked.demanded : null;
  const line = lineOf(market, student, wrong), { name } = market.parts.text;
  const isSigns = best?.names.join() === wrong.names.join();
  const others = judged.filter(it => it.finding && it !== wrong).map(it => stageName(it).toLowerCase());
  return [
    lead('wrong', wrongTitle(market, wrong, best)),
    p(isSigns ? signsAdvice(line, name) : ownAdvice(market, line)),
    p(`The text gives ${sections(market, wrong.names)}. ${findingWords(wrong.finding)}`),
    others.length ? p(`Nor are these right: ${others.join('; ')}.`) : null,
    p('One of these may be the cause:'), el('ul', {}, possibleCauses(market).map(it => el('li', {}, it))),
  ];
}

/**
 * The number of the line of the text that has the bundle of a stage.
 * @param {Market} market @param {number} student @param {{ pass: number }} stage
 */
export function lineOf({ roll, catalogue, text }, student, { pass }) {
  const at = linesOf(roll.length, catalogue.length, text.turns.length);
  const turn = pass && text.turns.find(it => it.student === student && it.pass === pass);
  return turn ? at.turns + turn.number : at.bundles + student;
}

/** @param {number} line @param {string} text the text's name */
const signsAdvice = (line, text) => `These signs stand in line ${line} of ${text}. Take ${text} anew from the school; `
  + `if the line is the same there, tell the school: line ${line} of ${text}.`;

/**
 * What to do first where by these lines the answer is no.
 * @param {Market} market @param {number} line
 */
function ownAdvice({ isOwn, files, parts }, line) {
  const { name } = parts.text, own = files.filter(it => !Object.values(parts).includes(it)).map(it => it.name);
  const tell = `tell the school: line ${line} of ${name}.`;
  return isOwn ? `First compare ${shortList(own)} with what you told the school: one rating that differs is enough for `
    + `this answer. If each line is right, ${tell}` : `If the files are those of the school, ${tell}`;
}

/** @param {Market} market @param {JudgedStage} wrong @param {Demanded | null} best */
function wrongTitle(market, { budget, names, ...stage }, best) {
  if (!best) return `No: by these lines the bundle of the ${stageName(stage).toLowerCase()} is not right.`;
  return best.names.join() === names.join()
    ? `The bundle is the best that ${tokens(budget)} buy, but the signs beside it do not prove it.`
    : `No: by these lines and prices a better bundle was to be had for ${tokens(budget)}: `
      + `${sections(market, best.names)}, worth ${best.worth}.`;
}

/** @param {Market} market */
const possibleCauses = market => market.isOwn
  ? [`${CAUSES[0]}: ask the school for these lines anew`, ...CAUSES.slice(1)] : CAUSES;
