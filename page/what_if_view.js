// "What if": what a student would take at these prices with another rating or budget, by the program's `demand`.

import { MOST_BASE } from './alone.js';
import { el, labelled, p } from './elements.js';
import { demandedWith } from './one_student.js';
import { menuOf, priceOf, worthOf } from './reckoning.js';
import { section, sections, studentName } from './stage_words.js';
import { ratingOf } from './wish_list.js';
import { grouped, tokens } from './wording.js';
import { answerWords } from './words.js';
import { work } from './work.js';

/**
 * The form, and where its answer comes.
 * @param {Market} market @param {number} student
 */
export function whatIfNodes(market, student) {
  const told = el('div', { class: 'answer', 'aria-live': 'polite' });
  const plain = { inputmode: 'numeric', autocomplete: 'off' };
  const { ratings } = market.wishes.get(market.roll[student].name) ?? { ratings: new Map() };
  const choice = sectionChoice(market, ratings), points = el('input', { id: 'what-if-rating', size: 4, ...plain });
  const money = el('input', { id: 'what-if-budget', size: 8, value: market.text.budgets[student], ...plain });
  choice.addEventListener('change', () => {
    points.value = choice.value ? ratings.get(choice.value) ?? 0 : '';
    points.select();
  });
  const onsubmit = async (/** @type {Event} */ event) => {
    event.preventDefault();
    const tried = triedOf(choice.value, points.value, money.value);
    told.replaceChildren(...typeof tried === 'string' ? [p(tried)] : await demandNodes(market, student, tried));
  };
  return [
    p(`What would ${studentName(market, student)} have taken in the second stage at these prices, with another rating `
      + 'or another budget?'),
    el('form', { class: 'what-if', onsubmit },
      labelled('Section', choice), labelled('Its rating', points), labelled('Budget', money),
      el('button', { class: 'main' }, 'Ask')),
    told,
  ];
}

/** @param {Market} market @param {Map<string, number>} ratings */
function sectionChoice(market, ratings) {
  const group = (/** @type {string} */ label, /** @type {boolean} */ isRated) => el('optgroup', { label },
    market.catalogue.filter(it => ratings.get(it.name) > 0 === isRated)
      .map(it => el('option', { value: it.name }, section(market, it.name))));
  return el('select', { id: 'what-if-section' }, el('option', { value: '' }, 'no other rating'),
    group('rated', true), group('not rated', false));
}

/**
 * What is tried; or what is wrong with what was typed, in words.
 * @param {string} name of a section, or nothing @param {string} points @param {string} budget
 * @returns {Tried | string}
 */
export function triedOf(name, points, budget) {
  const money = /^\d{1,7}$/.test(budget.trim()) ? Number(budget) : NaN, rating = ratingOf(points);
  if (!(money <= MOST_BASE)) return `A budget is a whole number from 0 to ${grouped(MOST_BASE)}, without signs or `
    + 'commas.';
  if (!name) return { budget: money };
  return 'fault' in rating ? rating.fault : { section: name, points: rating.points, budget: money };
}

const OTHER_PRICES = 'This is the program\'s answer at the printed prices; worth and prices are the page\'s sums. Had '
  + 'these wishes been said before the desk closed, prices might have been others.';

/** @param {Market} market @param {number} student @param {Tried} tried */
async function demandNodes(market, student, tried) {
  const asked = await demandedWith(work, market, student, tried);
  if (!('demanded' in asked)) return [p(answerWords(asked.answer, asked.call).words)];
  const { names, worth, price } = asked.demanded, before = market.text.bundles[student].names;
  const isSame = names.join() === before.join(), held = sections(market, names);
  const rated = tried.section === undefined ? '' : ` with ${section(market, tried.section)} rated ${tried.points}`;
  return [
    p(el('b', {}, isSame ? 'The same bundle' : `It would take ${held}`), isSame ? ` (${held})` : '',
      ` for ${tokens(tried.budget)}${rated}: worth ${worth}, prices together ${grouped(price)}.`),
    isSame ? null : p(changeSentence(market, student, before, names)),
    el('p', { class: 'quiet' }, OTHER_PRICES),
  ].filter(Boolean);
}

/** @param {Market} market @param {number} student @param {string[]} before @param {string[]} names */
function changeSentence(market, student, before, names) {
  const more = names.filter(it => !before.includes(it)), less = before.filter(it => !names.includes(it));
  const change = [
    more.length ? `more: ${sections(market, more)}` : '', less.length ? `less: ${sections(market, less)}` : '',
  ];
  const menu = menuOf(market, student), prices = grouped(priceOf(market, before));
  const worth = before.every(it => menu.of.has(it)) ? ` is worth ${worthOf(menu, before.map(it => menu.of.get(it)))} `
    + 'by the '
    + 'ratings as they are, and' : '';
  return `That is ${change.filter(Boolean).join('; ')}. What it bought${worth} has the prices ${prices} together.`;
}
