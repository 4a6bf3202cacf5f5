// What an auditor sees: the check, prices and seats, budgets, errors, the aftermarket, who envies whom, and all
// students.

import { bar, button, el, namesCell, opening, p, part } from './elements.js';
import { envyPart } from './envy.js';
import { KINDS } from './files.js';
import { tableOf } from './grid.js';
import { errorOf, priceOf } from './reckoning.js';
import { meetingWords } from './tables.js';
import { changesOf } from './texts.js';
import { grouped, plural, timed } from './wording.js';

/**
 * Shows one student, by its name.
 * @typedef {(name: string) => void} ShowStudent
 */

/** @param {Market} market */
function figuresPart(market) {
  const { text, catalogue, roll, counts, endCounts } = market, changes = changesOf(market);
  const sum = (/** @type {Map<string, number>} */ of) => [...of.values()].reduce((total, it) => total + it, 0);
  const seats = catalogue.reduce((total, it) => total + it.seats, 0);
  const passes = plural(text.turns.at(-1)?.pass ?? 0, 'pass', 'passes');
  const without = [text.bundles.filter(it => !it.names.length).length, text.finals.filter(it => !it.length).length];
  const lines = [
    ['Checked in', timed(market.ms)],
    ['Students, sections, sessions', `${roll.length}, ${catalogue.length}, ${market.parts.sessions.length}`],
    ['Seats taken', `${grouped(sum(counts))} in the second stage, ${grouped(sum(endCounts))} in the end, of `
      + grouped(seats)],
    ['Students without a section', `${without[0]} in the second stage, ${without[1]} in the end`],
    ['Turns of the aftermarket', `${grouped(text.turns.length)} in ${passes}; ${grouped(changes.length)} changed `
      + 'something'],
  ];
  return el('dl', { class: 'figures' },
    lines.map(([name, value]) => el('div', {}, el('dt', {}, name), el('dd', {}, value))));
}

/**
 * Both clearing errors beside each other, with what each is made of.
 * @param {Market} market
 */
function errorsPart({ text, catalogue, counts, settings }) {
  const free = catalogue.filter(it => text.prices[it.at] > 0 && counts.get(it.name) < it.seats);
  const seats = free.reduce((sum, it) => sum + it.seats - counts.get(it.name), 0);
  return [
    p('The clearing error is the sum, over all sections, of the square of the students too many, or, where the price '
      + 'is not 0, of the seats left free.'),
    el('dl', { class: 'figures' },
      errorFigure('After the search',
        `${text.error} by the text, which the check does not judge (the settings accept ${settings.accept})`,
        'At these prices some sections may have more students than seats, and others free ones.'),
      errorFigure('In the second stage', `${grouped(errorOf(counts, catalogue, text.prices))} by the page's sum`,
        'Prices were raised until no section had more students than seats, so it counts free seats alone: '
        + `${plural(seats, 'seat')} of ${plural(free.length, 'section')} with a price. It can be the greater of the `
        + 'two, since with a higher price more students may leave a section than were too many.')),
  ];
}

/** @param {string} when @param {string} error @param {string} words */
const errorFigure = (when, error, words) =>
  el('div', {}, el('dt', {}, when), el('dd', {}, error), el('dd', { class: 'quiet' }, words));

/** @param {Market} market */
function sectionTable(market) {
  const { text, catalogue, counts, endCounts } = market, top = Math.max(1, ...text.prices);
  const rows = catalogue.map(it => ({
    ...it, start: text.starts[it.at], price: text.prices[it.at],
    second: counts.get(it.name), end: endCounts.get(it.name),
  }));
  const taken = (/** @type {number} */ of, /** @type {number} */ seats) => el('span', { class: 'with-bar' },
    `${of} of ${seats}`, bar(seats ? of / seats : 0, of >= seats ? 'full' : ''));
  const priced = (/** @type {number} */ it) => el('span', { class: 'with-bar' }, grouped(it), bar(it / top));
  return tableOf('Sections: prices and seats', [
    { head: 'Section', of: it => it.name, isText: true },
    { head: 'Price', of: it => it.price, show: it => priced(it.price) },
    { head: 'Price, search', of: it => it.start },
    { head: 'Taken, second stage', of: it => it.second, show: it => taken(it.second, it.seats) },
    { head: 'Taken, in the end', of: it => it.end, show: it => taken(it.end, it.seats) },
    { head: 'Seats', of: it => it.seats },
    { head: 'Credits', of: it => it.credits },
    { head: 'Meets', of: it => meetingWords(it), isText: true },
  ], rows);
}

/** @param {string} name @param {ShowStudent} show */
const linkTo = (name, show) => button(name, () => show(name), { class: 'link' });

/** @param {Market} market @param {ShowStudent} show */
function studentTable(market, show) {
  const { text, roll } = market;
  const rows = roll.map(({ name, at }) => {
    const second = text.bundles[at].names, end = text.finals[at], { rated, ...worths } = market.worths[at];
    const budget = text.budgets[at], spent = priceOf(market, second);
    return { name, budget, spent, rated, second, worth: worths.second, end, endWorth: worths.end };
  });
  const words = (/** @type {string[]} */ names) => names.join(', ') || 'nothing';
  return tableOf('Students: budgets and bundles', [
    { head: 'Student', of: it => it.name, isText: true, show: it => linkTo(it.name, show) },
    { head: 'Budget', of: it => it.budget },
    { head: 'Sections rated', of: it => it.rated },
    { head: 'Bundle, second stage', of: it => words(it.second), show: it => namesCell(it.second), isText: true },
    { head: 'Prices together, second stage', of: it => it.spent },
    { head: 'Worth, second stage', of: it => it.worth },
    { head: 'Bundle, in the end', of: it => words(it.end), show: it => namesCell(it.end), isText: true },
    { head: 'Worth, in the end', of: it => it.endWorth },
  ], rows);
}

const SVG = 'http://www.w3.org/2000/svg';

/**
 * An element of a picture.
 * @param {string} tag @param {Record<string, string | number>} properties @param {...any} children
 */
function drawn(tag, properties, ...children) {
  const made = document.createElementNS(SVG, tag);
  for (const [name, value] of Object.entries(properties)) made.setAttribute(name, String(value));
  made.append(...children);
  return made;
}

const PRICES = 'A section has one price in the second stage and in the aftermarket. “Price, search” is what the text '
  + 'gives as the price before the second stage raised some; the check does not judge it.';

/**
 * The budgets from the least to the greatest, a dot for each student.
 * @param {Market} market
 */
function budgetsPart(market) {
  const budgets = [...market.text.budgets].sort((one, other) => one - other);
  if (!budgets.length) return [p('There are no students.')];
  const least = budgets[0], most = budgets.at(-1), middle = budgets[Math.floor(budgets.length / 2)];
  const [wide, high, side] = [640, 200, 60], radius = budgets.length > 300 ? 1.2 : 2.5;
  const across = (/** @type {number} */ at) =>
    side + (wide - side - 10) * (budgets.length > 1 ? at / (budgets.length - 1) : 0.5);
  const up = (/** @type {number} */ it) =>
    high - 25 - (high - 40) * (most > least ? (it - least) / (most - least) : 0.5);
  const label = (/** @type {number} */ x, /** @type {number} */ y, /** @type {string} */ text, anchor = 'end') =>
    drawn('text', { x, y, 'text-anchor': anchor }, text);
  const picture = drawn('svg', { viewBox: `0 0 ${wide} ${high}`, class: 'chart', 'aria-hidden': 'true' },
    drawn('line', { x1: side, y1: high - 25, x2: wide - 5, y2: high - 25 }),
    drawn('line', { x1: side, y1: 10, x2: side, y2: high - 25 }),
    drawn('path', { d: budgets.map((it, at) => `M${across(at).toFixed(1)} ${up(it).toFixed(1)}h0`).join(''),
      'stroke-width': 2 * radius }),
    label(side - 6, up(least), String(least)), label(side - 6, up(most) + 8, String(most)),
    label(side, high - 6, 'least budget', 'start'), label(wide - 8, high - 6, 'greatest budget'));
  return [p('The budgets of the second stage, before the raise, a dot for each student: '
    + `from ${least} to ${most}, the middle one is ${middle}.`), picture];
}

/** @param {Market} market */
function changesTable(market) {
  const words = (/** @type {string[]} */ names) => names.join(', ') || 'nothing';
  return tableOf('What the aftermarket changed', [
    { head: 'Turn', of: it => it.number + 1 },
    { head: 'Pass', of: it => it.pass },
    { head: 'Student', of: it => market.roll[it.student].name, isText: true },
    { head: 'Took', of: it => words(it.took), show: it => namesCell(it.took), isText: true },
    { head: 'Gave up', of: it => words(it.gave), show: it => namesCell(it.gave), isText: true },
  ], changesOf(market));
}

/**
 * Who envies whom: of both stages the counts, and the first who is envied.
 * @param {Market} market @param {ShowStudent} show
 */
function envyOfAll(market, show) {
  const { settled, final, totals } = market.envy;
  const rows = market.roll
    .map(({ name, at }) =>
      ({ name, budget: market.text.budgets[at], second: settled.get(name), end: final.get(name) }))
    .filter(({ second, end }) => second.sees || end.sees);
  const sees = (/** @type {Envy} */ { sees: it }) =>
    it ? `${it.other}${it.but ? `, but for ${it.but}` : ', for more than one section'}` : '';
  const words = (/** @type {string} */ when, /** @type {number[]} */ [lower, higher]) =>
    p(`${when} students envy ${plural(lower, 'time')} somebody of a budget no greater than their own, `
      + `and ${plural(higher, 'time')} somebody of a greater one.`);
  const grid = tableOf('Who envies whom', [
    { head: 'Student', of: it => it.name, isText: true, show: it => linkTo(it.name, show) },
    { head: 'Budget', of: it => it.budget },
    { head: 'Second stage: of no greater budget', of: it => it.second.counts[0] },
    { head: 'Second stage: of a greater budget', of: it => it.second.counts[1] },
    { head: 'First envied, second stage', of: it => sees(it.second), isText: true },
    { head: 'In the end: of no greater budget', of: it => it.end.counts[0] },
    { head: 'In the end: of a greater budget', of: it => it.end.counts[1] },
    { head: 'First envied, in the end', of: it => sees(it.end), isText: true },
  ], rows);
  return [words('In the second stage', totals.settled), words('In the end', totals.final),
    p('Beside the first whom a student envies stands the first section, in the order of the catalogue, '
      + 'but for which it would not.'), grid];
}

const MEANING = [
  'The published order takes all commands of each session, in the session\'s own order.',
  'The budgets are those that the roll, the settings and the draw of the seed give.',
  'In the second stage each student has the best bundle that its budget buys at the published prices; the tree beside '
    + 'it proves so.',
  'At no time has a section more students than seats.',
  'Each turn of the aftermarket is the one that is due, and takes the best of what the student holds and what is free; '
    + 'the last pass changes nothing.',
  'What is held in the end, and the used seats, follow from that.',
];

function meaningPart() {
  return [
    el('ul', {}, MEANING.map(it => el('li', {}, it))),
    p('It does not mean that the prices came from the search, are the fairest or have the published error, nor that '
      + 'the sessions spoke in that order: the lines “start” and “error” of the text are read and not judged.'),
  ];
}

/** @param {Market} market */
function hashesTable(market) {
  const shown = (/** @type {GivenFile} */ it) => el('span', { class: 'sum' }, it.sum ?? 'not computed by this browser');
  return tableOf('The files, by their SHA-256', [
    { head: 'File', of: it => it.name, isText: true },
    { head: 'Taken for', of: it => KINDS[it.kind], isText: true },
    { head: 'Bytes', of: it => it.bytes.length },
    { head: 'SHA-256', of: it => it.sum ?? 'not computed', show: shown, isText: true },
  ], market.files, { filterAt: 20 });
}

/**
 * The whole text, part by part: each is made when its turn has come.
 * @param {Market} market @param {ShowStudent} show shows one student, by its name
 * @returns {(() => any)[]}
 */
export const auditorParts = (market, show) => [
  () => [el('h2', { tabindex: '-1' }, 'The whole text'), part('The check', figuresPart(market),
    opening('What “this text holds” means', meaningPart, false, { class: 'paper' }),
    opening('Which files were checked', () => hashesTable(market), false, { class: 'paper' }))],
  () => part('Clearing errors', ...errorsPart(market)),
  () => part('Prices and seats', p(PRICES), sectionTable(market)),
  () => part('Budgets', ...budgetsPart(market)),
  () => part('The aftermarket', changesTable(market)),
  () => part('Envy', envyPart(market, () => envyOfAll(market, show), false)),
  () => part('All students', studentTable(market, show)),
];
