// Explains the signs of a tree one after another, and stops at the first that does not fit (FORMATS, "Trees").

import {
  TAKES, besideWords, boundOf, closedBy, firstDifference, leftOf, losesTies, openPlaces, worthOf,
} from './reckoning.js';
import { grouped, listed, plural, visible } from './wording.js';

const SIGN = /[*nx!+-]|[bcm](?:0|[1-9]\d?)(?!\d)/y;
const BOUNDS = [['b', 'token', 'tokens'], ['c', 'credit', 'credits'], ['m', 'section', 'sections']];

/**
 * The sign that is due at a node: the first that fits of those that FORMATS names. `null` where none does, so that the
 * chosen places are better than the bundle.
 * @param {Walk} walk
 * @param {number[]} chosen
 * @param {number} place
 * @returns {string | null}
 */
export function dueSign(walk, chosen, place) {
  const isEnd = place === walk.menu.places.length;
  if (isEnd && String(chosen) === String([...walk.champion].sort((one, other) => one - other))) return '*';
  const isUndecided = walk.forced !== null && walk.forced >= place;
  if (isUndecided && closedBy(walk, chosen, walk.forced) !== null) return 'x';
  const bound = closingBound(walk, chosen, place);
  if (bound || isEnd) return bound;
  if (isUndecided && walk.forced === place) return '!';
  return closedBy(walk, chosen, place) === null ? '+' : '-';
}

/**
 * The sign of the first bound that closes a node; null where none does.
 * @param {Walk} walk @param {number[]} chosen @param {number} place
 */
function closingBound(walk, chosen, place) {
  const closed = 1000 * (walk.worth + (losesTies(walk, chosen, place) ? 1 : 0)), all = openPlaces(walk, chosen, place);
  const closes = (/** @type {string} */ symbol, /** @type {number} */ number) =>
    boundOf(walk, chosen, place, /** @type {any} */ ({ symbol, number }), all).bound < closed;
  if (closes('n', -1)) return 'n';
  const open = all.filter(it => it.worth > 0);
  for (const [symbol] of BOUNDS) {
    const takes = TAKES[symbol];
    const by = open.find(it => takes(walk.menu.places[it.place]) > 0 && closes(symbol, it.place));
    if (by) return symbol + by.place;
  }
  return null;
}

/**
 * The sections that the signs themselves choose on their way to the bundle; null where they do not come to it.
 * @param {string} text
 * @returns {{ champion: number[], forced: number | null } | null} places of the menu
 */
export function championOf(text) {
  /** @type {{ chosen: number[], place: number }[]} */
  const waiting = [];
  /** @type {number[]} */
  let chosen = [];
  let place = 0, at = 0;
  /** @type {number | null} */
  let forced = null;
  for (;;) {
    const sign = signAt(text, at);
    if (!sign) return null;
    at += sign.length;
    if (sign === '*') return { champion: chosen, forced };
    if (sign === '-') { place++; continue; }
    if (sign === '+') waiting.push({ chosen, place: place + 1 });
    if (sign === '!') forced = place;
    if (sign === '+' || sign === '!') { chosen = [...chosen, place]; place++; continue; }
    const next = waiting.pop();
    if (!next) return null;
    ({ chosen, place } = next);
  }
}

/**
 * The sign that stands at a byte; null where none does.
 * @param {string} text @param {number} at
 */
function signAt(text, at) {
  SIGN.lastIndex = at;
  return SIGN.exec(text)?.[0] ?? null;
}

/**
 * The signs of a tree one after another, each in words. The last step is of kind `fault` where a sign does not fit, and
 * of kind `end` where all do.
 * @param {Walk} walk
 * @param {string} text
 * @returns {Generator<Step>}
 */
export function* stepsOf(walk, text) {
  /** @type {{ chosen: number[], place: number }[]} */
  const waiting = [];
  /** @type {number[]} */
  let chosen = [];
  let place = 0, at = 0, back = '';
  for (;;) {
    const sign = signAt(text, at), due = dueSign(walk, chosen, place);
    if (!sign || sign !== due) { yield { ...faultAt(walk, chosen, text, at, due), back }; return; }
    yield { kind: STEP_KINDS[sign[0]] ?? 'leaf', at, sign, back, ...signWords({ walk, chosen, place }, sign) };
    [at, back] = [at + sign.length, ''];
    if (sign === '-') { place++; continue; }
    if (sign === '+') waiting.push({ chosen, place: place + 1 });
    if (sign === '+' || sign === '!') { chosen = [...chosen, place]; place++; continue; }
    const next = waiting.pop();
    if (!next) break;
    ({ chosen, place } = next);
    back = `Back at ${walk.menu.places[place - 1].shown}, now without it:`;
  }
  if (at < text.length) { yield faultAt(walk, null, text, at, null); return; }
  yield { kind: 'end', at, sign: '', back: '', section: '', words: END };
}

/** @type {Record<string, Step['kind']>} */
const STEP_KINDS = { '+': 'taken', '!': 'taken', '-': 'closed', '*': 'bundle' };
const END = 'All signs fit: every bundle that the budget buys was looked at or ruled out, and none is better.';

/**
 * The section that a sign speaks of, which stands in front, and what it says of it.
 * @param {NodeAt} node @param {string} sign
 */
function signWords(node, sign) {
  const { walk, chosen, place } = node, names = listed(chosen.map(it => walk.menu.places[it].shown));
  if (sign === '*') {
    return { section: '', words: `This is the bundle: ${names}, worth ${walk.worth}. Nothing is left to decide.` };
  }
  if (sign === 'x') {
    const why = `has to be taken, and no more can be: it ${closedBy(walk, chosen, walk.forced)}.`;
    return { section: walk.menu.places[walk.forced].shown, words: why };
  }
  if (!'+!-'.includes(sign)) return { section: '', words: boundSentence(node, sign) };
  const it = walk.menu.places[place];
  if (sign === '-') return { section: it.shown, words: `is left out: it ${closedBy(walk, chosen, place)}.` };
  const asked = sign === '!' ? ', as the section that is asked for has to be' : '';
  const costs = `(rating ${it.rating}, price ${grouped(it.price)})`, left = leftWords(walk, [...chosen, place]);
  return { section: it.shown, words: `is taken${besideWords(walk, chosen)}${asked} ${costs}: ${left}.` };
}

/**
 * What is left of a budget and of the caps beside what is chosen, in words.
 * @param {Walk} walk @param {number[]} chosen
 */
export function leftWords(walk, chosen) {
  const left = leftOf(walk, chosen);
  return `left are ${grouped(left.b)} of ${plural(walk.budget, 'token')}, ${left.c} of `
    + `${plural(walk.credits, 'credit')} and ${left.m} of ${plural(walk.courses, 'section')}`;
}

/**
 * Thousandths of a point as points.
 * @param {number} thousandths
 */
export const points = thousandths => grouped(Number((thousandths / 1000).toFixed(3)));

/**
 * What a section brings, and, where pairs change its rating, of what that is the sum.
 * @param {number} rating @param {number} worth
 */
export const pairedWorth = (rating, worth) => worth === rating ? String(worth)
  : `${worth} (its rating ${rating}, and ${Math.abs(worth - rating)} ${worth > rating ? 'more' : 'less'} by pairs: two `
    + 'sections that were said to be worth more, or less, together)';

/**
 * Why a bundle of equal worth is not better than the bundle, in words.
 * @param {Walk} walk @param {number[]} chosen @param {number} place
 */
export function tieWords(walk, chosen, place) {
  const { shown } = walk.menu.places[firstDifference(walk, chosen, place)];
  return `a tie goes to the bundle, which alone has ${shown}: the first section, in the order of the catalogue, in `
    + 'which the two differ';
}

/**
 * What is the most that can come, and that it is no better than the bundle.
 * @param {NodeAt} node @param {number} bound in thousandths
 */
export function endWords({ walk, chosen, place }, bound) {
  const most = Math.floor(bound / 1000), whole = bound % 1000 ? `Worth is a whole number, so at most ${most}`
    : `So at most ${most}`;
  return most === walk.worth ? `${whole}, as much as the bundle; and ${tieWords(walk, chosen, place)}.`
    : `${whole}, less than the ${walk.worth} of the bundle.`;
}

/** @param {NodeAt} node @param {string} sign */
function boundSentence({ walk, chosen, place }, sign) {
  const symbol = sign[0], number = Number(sign.slice(1));
  const it = boundOf(walk, chosen, place, /** @type {any} */ ({ symbol, number }));
  const begins = beginsWith(walk, chosen, place, it.value), end = endWords({ walk, chosen, place }, it.bound);
  if (symbol === 'n') {
    const more = it.brought.map(that => `${that.worth} (${that.name})`).join(' + ');
    return `${begins} ${more ? `what may still come brings ${more} at most.` : 'nothing else can come to it.'} ${end}`;
  }
  const [, one, many] = BOUNDS.find(([that]) => that === symbol), by = walk.menu.places[number];
  const takes = TAKES[symbol](by), rate = points(it.rate), isRounded = 1000 * it.by.worth % takes > 0;
  const above = it.brought.map(that => `${points(that.brings)} (${that.name}: ${that.worth} less ${rate} · `
    + `${grouped(that.takes)})`);
  const sum = [grouped(it.value), `${rate} · ${grouped(it.left)}`, ...above].join(' + ');
  return `${begins} ${plural(it.left, `${one} is`, `${many} are`)} left. At ${by.shown} (number ${number}) `
    + `${plural(takes, one, many)} bring ${pairedWorth(by.rating, it.by.worth)}: ${rate} points a ${one}`
    + `${isRounded ? ', rounded down' : ''}. With all that is left at that rate, and what a section of each course may `
    + `bring above it, it comes to ${sum} = ${points(it.bound)}. ${end}`;
}

/**
 * What is chosen of the places below one, and that the others of these are not.
 * @param {{ menu: Menu }} walk @param {number[]} chosen @param {number} place @param {number} value
 */
export function beginsWith({ menu }, chosen, place, value) {
  const last = place ? menu.places[place - 1].shown : '', upTo = place > 1 ? `the sections up to ${last}` : last;
  if (!chosen.length) return `${place ? `Without ${upTo}` : 'At first'} nothing is taken yet:`;
  const names = listed(chosen.map(it => menu.places[it].shown));
  const others = chosen.length < place ? `, and no other section up to ${last}` : '';
  return `With ${names}, worth ${grouped(value)}${others}:`;
}

/**
 * @param {Walk} walk @param {number[] | null} chosen @param {string} text @param {number} at @param {string | null} due
 */
function faultAt(walk, chosen, text, at, due) {
  const stands = at < text.length ? `“${signAt(text, at) ?? text[at]}” stands here` : 'the signs end here';
  const what = chosen === null ? 'nothing more is due' : due === null
    ? `${listed(chosen.map(it => walk.menu.places[it].shown))} ${chosen.length === 1 ? 'is' : 'are'} worth `
      + `${worthOf(walk.menu, chosen)}, better than the ${walk.worth} of the bundle`
    : `“${due}” is due`;
  const words = `Behind ${plural(at, 'character')} ${stands}, and by these ratings, prices and this budget ${what}.`;
  return /** @type {Step} */ ({ kind: 'fault', at, sign: text.slice(at, at + 3), back: '', section: '', words });
}

/** Why a tree may not fit that a school published, in words. */
export const CAUSES = [
  'a rating or an adjustment is not the one that the desk took last (a line is missing, or was changed)',
  'a price in the text was changed',
  'the budget in the text was changed, or the signs belong to another stage: the aftermarket has a raised budget',
  'the bundle or its signs were changed, or belong to another student',
];

/**
 * The signs in what somebody pasted, as they can be shown: a whole line of the text or of `explain`, or the signs
 * alone.
 * @param {string} pasted
 * @returns {{ tree: string, bundle?: string[], student?: string, pass?: number }}
 */
export function pastedSigns(pasted) {
  const words = pasted.trim().split(/\s+/).map(visible), at = words.findIndex(it => /^\[.*\]$/.test(it));
  if (at < 0) return { tree: words.length > 1 && words[0] === 'tree' ? words.slice(1).join('') : words.join('') };
  const bundle = words[at].slice(1, -1).split(',').filter(Boolean);
  const pass = words[0] === 'turn' ? Number(words[1]) : undefined;
  return { tree: words.slice(at + 1).join(''), bundle, student: at ? words[at - 1] : undefined, pass };
}
