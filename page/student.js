// What a student sees: first the answer and the week, then each stage, why a section is not there, what if, the signs,
// and envy.

import { answerNodes, heldWeek } from './answer_view.js';
import { drawingOf } from './drawing.js';
import { button, el, opening, p, part } from './elements.js';
import { envyOfOne, envyPart, isSmall } from './envy.js';
import { tableOf } from './grid.js';
import { drawInTurn, oncePainted } from './in_turn.js';
import { knownNodes } from './known_view.js';
import { judgedStages, stagesOf, unjudgedWords, unratedIn } from './one_student.js';
import { menuOf, priceOf, raisedBudget, walkOf, worthOf } from './reckoning.js';
import { sheetNodes } from './sheet.js';
import { signsNodes } from './signs_view.js';
import { changeWords, section, sections, stagesName, studentName } from './stage_words.js';
import { meetingWords } from './tables.js';
import { whatIfNodes } from './what_if_view.js';
import { whyNodes } from './why_view.js';
import { grouped, plural, tokens } from './wording.js';
import { work } from './work.js';

/** @param {Market} market @param {number} student */
function budgetWords(market, student) {
  const { base, carry } = market.roll[student], budget = market.text.budgets[student], { spread } = market.settings;
  const drawn = budget - base - carry;
  const lower = spread ? plural(drawn / spread, 'student') : '', raised = grouped(raisedBudget(market, student));
  const rank = spread ? ` (${spread} for each of the ${lower} whom the draw ranks lower)` : '';
  const carried = carry ? `, ${grouped(carry)} carried over` : '';
  return `${tokens(budget)}: ${grouped(base)} by the roll${carried}, and ${grouped(drawn)} by the draw${rank}. `
    + `In the aftermarket it is raised by ${market.settings.raise} percent, to ${raised}.`;
}

const STAGES = 'First a search finds prices, in tokens. The second stage raises them until no section has more '
  + 'students than seats; at these prices each student gets the best bundle that its budget buys. The seats that are '
  + 'left free go in the aftermarket, at the same prices, with raised budgets: at its turn a student takes the best of '
  + 'what it holds and what is free. Turns go by budget, the greatest first, and pass follows pass until one changes '
  + 'nothing. What is held then is held “in the end”: drop and add come later and are not in this text. A bundle is '
  + 'worth the sum of its ratings and adjustments.';

/**
 * One line for each stage, which unfolds.
 * @param {Market} market @param {number} student @param {Stage[]} stages
 */
function stageNodes(market, student, stages) {
  const { credits, courses } = market.roll[student], budget = market.text.budgets[student];
  const raised = grouped(raisedBudget(market, student));
  return [
    opening([el('b', {}, 'Budget: '), `${tokens(budget)}, and ${raised} in the aftermarket`], () => [
      p(budgetWords(market, student)),
      p(`By the roll at most ${plural(credits, 'credit')} and ${plural(courses, 'section')}.`),
    ], false, { class: 'paper' }),
    ...quietRuns(market, stages).map(run => stageLine(market, student, run)),
    opening([el('b', {}, 'How it goes: '), 'stages, prices and turns'], () => p(STAGES)),
  ];
}

/**
 * The stages, of which turns without a change that follow each other are one.
 * @param {Market} market @param {Stage[]} stages
 */
function quietRuns(market, stages) {
  /** @type {{ stages: Stage[], change: string }[]} */
  const runs = [];
  for (const it of stages) {
    const change = it.pass ? changeWords(market, it.before, it.names) : '', last = runs.at(-1);
    if (it.pass && !change && last.stages[0].pass && !last.change) last.stages.push(it);
    else runs.push({ stages: [it], change });
  }
  return runs;
}

/** @param {Market} market @param {number} student @param {{ stages: Stage[], change: string }} run */
function stageLine(market, student, { stages, change }) {
  const [first] = stages, title = stagesName(first, stages.at(-1));
  const what = first.pass ? change || 'no change' : `bought ${sections(market, first.names)}`;
  return opening([el('b', {}, `${title}: `), what], () => [
    p(bundleWords(market, student, first)), ...stages.map(it => treePart(market, student, it, stages.length > 1)),
  ], false, { class: 'paper' });
}

/** @param {Market} market @param {number} student @param {Stage} stage */
function bundleWords(market, student, { names, budget, pass, before, allowed }) {
  const { of, places } = menuOf(market, student), isRated = names.every(it => of.has(it));
  const points = isRated && worthOf(menuOf(market, student), names.map(it => of.get(it)));
  const worth = isRated ? `, by its ratings worth ${points}` : '';
  const spent = `${grouped(priceOf(market, names))} of ${tokens(budget)}`;
  const free = places.map(it => it.name).filter(it => allowed?.has(it) && !before.includes(it));
  const rest = `Of what ${studentName(market, student)} rated and did not hold, `
    + (free.length ? `seats were free in: ${sections(market, free)}.` : 'nothing had a free seat.');
  return `${sections(market, names)}${worth}, prices together ${spent}.${pass ? ` ${rest}` : ''}`;
}

/** @param {Market} market @param {number} student @param {Stage} stage @param {boolean} isOne */
function treePart(market, student, stage, isOne) {
  const strange = unratedIn(market, student, stage.names);
  if (strange.length) return p(`Its signs cannot be drawn, since not rated above 0: ${sections(market, strange)}.`);
  const walk = walkOf(market, student, { budget: stage.budget, allowed: stage.allowed, champion: stage.names });
  const title = `The proof that nothing better was to be had${isOne ? `, pass ${stage.pass}` : ''}`;
  return opening(title, () => drawingOf(walk, stage.tree));
}

/** @param {string} words */
const yes = words => el('span', { class: 'yes' }, words);

/** @param {Market} market @param {number} student */
function ratedTable(market, student) {
  const second = market.text.bundles[student].names, end = market.text.finals[student];
  const rows = menuOf(market, student).places.map(it => (
    { ...it, second: second.includes(it.name) ? 'bought' : '', end: end.includes(it.name) ? 'held' : '' }));
  return tableOf(`What ${studentName(market, student)} rated, and what became of it`, [
    { head: 'Section', of: it => section(market, it.name), isText: true },
    { head: 'Rating', of: it => it.rating },
    { head: 'Price', of: it => it.price },
    { head: 'Second stage', of: it => it.second, show: it => yes(it.second), isText: true },
    { head: 'In the end', of: it => it.end, show: it => yes(it.end), isText: true },
    { head: 'Credits', of: it => it.section.credits },
    { head: 'Meets', of: it => meetingWords(it.section), isText: true },
  ], rows, { filterAt: 20 });
}

/** @param {Market} market @param {number} student */
function adjustmentWords(market, student) {
  const pairs = market.wishes.get(market.roll[student].name)?.pairs ?? [];
  if (!pairs.length) return null;
  const told = pairs.map(([one, other, worth]) =>
    `${section(market, one)} with ${section(market, other)} ${worth > 0 ? '+' : ''}${worth}`);
  return p(`Together worth more, or less, than apart: ${told.join('; ')}.`);
}

/**
 * A part that is not printed.
 * @param {string} title @param {...any} children
 */
function onScreen(title, ...children) {
  const made = part(title, ...children);
  made.classList.add('on-screen');
  return made;
}

/**
 * Where the answer comes, as soon as the program has judged all stages.
 * @param {Market} market @param {number} student @param {Stage[]} stages
 * @param {() => void} ended is called when it is there, or cannot come
 */
function answerPart(market, student, stages, ended) {
  const answer = el('div', { id: 'answer', 'aria-live': 'polite' });
  const judge = async () => {
    answer.replaceChildren(el('p', { class: 'lead' }, 'Asking the program ..'));
    const judged = await judgedStages(work, market, student, stages);
    const nodes = await answerNodes(market, student, judged);
    const mayAsk = judged.some(it => it.unjudged && !unjudgedWords(it));
    answer.replaceChildren(...nodes.filter(Boolean), mayAsk ? button('Ask again', judge, { class: 'small' }) : '');
  };
  judge().finally(ended);
  return answer;
}

/**
 * All of one student: what it holds stands at once, with a line that leads to each part below; the answer above it as
 * soon as the program has judged; and the parts once the answer is seen, which would else wait for them. On a phone the
 * parts are screens long, so the line stands above what else is told.
 * @param {Market} market @param {number} student
 * @returns {any[]}
 */
export function studentView(market, student) {
  const stages = stagesOf(market, student), name = market.roll[student].name, shown = studentName(market, student);
  const head = el('h2', { tabindex: '-1' }, shown, shown === name ? '' : el('span', { class: 'quiet' }, ` ${name}`));
  const { ways, below, draw } = waysBelow(partsBelow(market, student, stages), head);
  return [
    head,
    answerPart(market, student, stages, () => oncePainted(draw)),
    heldWeek(market, student, stages),
    ways,
    ...knownNodes(market),
    below,
  ];
}

/**
 * The line that leads to each part, and where the parts are drawn: one after another when that is begun, and all at
 * once when one of them is asked for, or the page is printed.
 * @param {[string, () => HTMLElement][]} parts @param {HTMLElement} head to which each leads back
 */
function waysBelow(parts, head) {
  const below = el('div', { class: 'below' });
  const made = parts.map(([, make]) => () => {
    const it = make();
    it.append(wayUp(head));
    return it;
  });
  const draw = () => { if (!below.childElementCount) drawInTurn(below, made); };
  below.fill = () => { draw(); below.fill?.(); };
  const ways = el('nav', { class: 'ways on-screen', 'aria-label': 'Parts below' },
    parts.map(([words], at) => button(words, () => { below.fill?.(); goTo(below.children[at]); })));
  return { ways, below, draw };
}

/**
 * The parts below the answer, each with the words that lead to it.
 * @param {Market} market @param {number} student @param {Stage[]} stages
 * @returns {[string, () => HTMLElement][]}
 */
function partsBelow(market, student, stages) {
  const envy = () => part('What others have', envyPart(market, () => envyOfOne(market, student), isSmall(market)));
  return [
    ['Stages', () => part('Stage by stage', ...stageNodes(market, student, stages))],
    ['Why not?', () => part('Why not?', ...whyNodes(market, student, stages))],
    ['What if?', () => onScreen('What if?', ...whatIfNodes(market, student))],
    ['Signs', () => onScreen('What the signs mean', ...signsNodes(market, student, stages))],
    ['Prices', () => part('Ratings and prices', ratedTable(market, student), adjustmentWords(market, student))],
    ...market.isOwn ? [] : /** @type {[string, () => HTMLElement][]} */ ([['Others', envy]]),
    ['Print', () => part('On paper', ...sheetNodes(market))],
  ];
}

/**
 * The line behind a part that leads back to the answer.
 * @param {HTMLElement} head
 */
const wayUp = head => el('p', { class: 'up on-screen' }, button('To the top', () => {
  head.focus({ preventScroll: true });
  head.scrollIntoView();
}, { class: 'link' }));

/** @param {HTMLElement} shown */
function goTo(shown) {
  const title = shown.querySelector('h3');
  title.tabIndex = -1;
  title.focus({ preventScroll: true });
  shown.scrollIntoView();
}
