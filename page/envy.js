// Whom each student envies, which `audit` answers.

import { button, el, p } from './elements.js';
import { callOf } from './program.js';
import { namesOf } from './texts.js';
import { grouped, listed, plural } from './wording.js';
import { answerWords } from './words.js';
import { work } from './work.js';

/**
 * Whether each question is answered at once; of a larger market it is, each, when it is asked.
 * @param {Market} market
 */
export const isSmall = market => market.parts.text.bytes.length < 1e6;

/**
 * Puts into an element what is answered, once it is. Words alone say why there is no answer, and it can be asked for
 * again.
 * @param {HTMLElement} to @param {string} words @param {() => Promise<any>} ask
 */
export async function asked(to, words, ask) {
  to.replaceChildren(words);
  const told = await ask();
  if (typeof told !== 'string') return to.replaceChildren(...told);
  to.replaceChildren(p(told, ' ', button('Ask again', () => asked(to, words, ask), { class: 'small' })));
}

/**
 * What `audit` answered: of both stages, by name, the counts and the first who is envied. The last line of a stage has
 * the totals; its word is no name, since a student may have that name too.
 * @param {string} answer
 * @returns {EnvyOfAll}
 */
export function envyOf(answer) {
  /** @type {Record<string, (Envy & { name: string })[]>} */
  const rows = { settled: [], final: [] };
  /** @type {Envy & { name: string }} */
  let last;
  for (const line of answer.trimEnd().split('\n')) {
    const [word, name, ...rest] = line.split(' ');
    if (word === 'sees') last.sees = { other: name, names: namesOf(rest[0]), but: rest[1] === 'but' ? rest[3] : null };
    else rows[word].push(last = { name, counts: rest.map(Number) });
  }
  const totals = { settled: rows.settled.pop().counts, final: rows.final.pop().counts };
  const byName = (/** @type {(Envy & { name: string })[]} */ of) => new Map(of.map(it => [it.name, it]));
  return { settled: byName(rows.settled), final: byName(rows.final), totals };
}

/** @param {Market} market @param {number} student @param {'settled' | 'final'} stage @param {string} when */
function envyWords(market, student, stage, when) {
  const { name } = market.roll[student], { counts: [lower, higher, beyond], sees } = market.envy[stage].get(name);
  if (!lower && !higher) return p(`${when} ${name} envies nobody.`);
  const of = [
    lower && `${plural(lower, 'student')} of a budget no greater than its own`,
    higher && `${plural(higher, 'student')} of a greater budget`,
  ].filter(Boolean);
  const first = lower + higher > 1 ? 'The first of them is' : 'It is';
  const budget = market.text.budgets[market.roll.findIndex(it => it.name === sees.other)];
  const end = sees.but ? `Without ${sees.but} it would not envy ${sees.other}.`
    : `It would envy ${sees.other} without any one of these sections too.`;
  const more = beyond && sees.but
    ? ` (${beyond} of them it would envy without any one of their sections too.)` : '';
  return p(`${when} ${name} envies ${listed(of)}. ${first} ${sees.other}, whose budget is ${grouped(budget)}: of `
    + `the sections of ${sees.other} ${name} could use ${listed(sees.names)}, which are worth more to ${name} than its `
    + `own bundle. ${end}${more}`);
}

const ENVY = 'A student envies another if what it can use of the other\'s bundle is worth more to it, by its own '
  + 'ratings, than its own bundle. In the second stage nobody envies a student of a budget no greater than its own. In '
  + 'the end that can be, since free seats go by turns.';

/**
 * Asks, once, whom each student envies; where that is not answered, says why.
 * @param {Market} market
 */
async function envyAsked(market) {
  if (market.envy) return '';
  const call = callOf('audit', market.parts);
  const answer = await (market.asksEnvy ??= work('Looking whom each student envies', call));
  market.asksEnvy = null;
  if (answer.status !== 0) return answerWords(answer, call).words;
  market.envy ??= envyOf(answer.text);
  return '';
}

/**
 * A part on envy, which is made when that is known: at once, or when it is asked for.
 * @param {Market} market @param {() => any[]} make @param {boolean} isQuick
 */
export function envyPart(market, make, isQuick) {
  const isAtOnce = market.envy || isQuick, to = el('div', { 'aria-live': isAtOnce ? null : 'polite' });
  const show = () => asked(to, 'Looking ..',
    async () => await envyAsked(market) || [...make(), el('p', { class: 'quiet' }, ENVY)]);
  if (isAtOnce) show();
  else to.append(button(`Look whom each student envies${isSmall(market) ? '' : ' (this may take minutes)'}`, show));
  return to;
}

/**
 * Whom one student envies, in both stages.
 * @param {Market} market @param {number} student
 */
export const envyOfOne = (market, student) => [
  envyWords(market, student, 'settled', 'In the second stage'), envyWords(market, student, 'final', 'In the end'),
];
