// What the signs of a tree mean, with the names of the places that they number.

import { el, opening } from './elements.js';
import { shortList } from './wording.js';

/** Of how many places the names stand at once; more unfold. */
const MOST_PLACES = 20;

/** Of how many bounds of a kind each has its own line. */
const MOST_BOUNDS = 6;

/**
 * A sign as it is shown.
 * @param {string} symbol
 */
export const sign = symbol => el('span', { class: 'sign' }, symbol);

/** @type {[string, (walk: { allowed?: Set<string> }) => string][]} */
const KEY = [
  ['+', () => 'the section is taken; later the signs come back to it, and go on without it'],
  ['-', ({ allowed }) => 'the section cannot be taken, and is left out: it is of the same course as one that is taken, '
    + `or meets at its time, or too little is left for it${allowed ? ', or it had no free seat' : ''}`],
  ['!', () => 'the section that is asked for: it has to be taken'],
  ['x', () => 'stop: the section that is asked for can no more be taken'],
  ['*', () => 'stop: this is the bundle itself, which the signs prove to be the best'],
  ['n', () => 'stop: even with all that may still come it would not be better than the bundle'],
];

/**
 * What a bound says, of a section.
 * @type {Record<string, (section: string) => string>}
 */
const BOUND_MEANS = {
  b: it => `stop: even with the tokens left spent as well as on ${it}, or better where a section brings more for a `
    + 'token, the bundle is not beaten',
  c: it => `stop: even with the credits left used as well as on ${it}, or better where a section brings more for a `
    + 'credit, the bundle is not beaten',
  m: it => `stop: even if each further section brought as much as ${it}, or more where one does, the bundle is not `
    + 'beaten',
};

/**
 * What the bounds of a kind mean that a tree has: the first in words, the others beside it, the most of them in one.
 * @param {string} text @param {string} symbol @param {Menu} menu
 */
export function boundsMean(text, symbol, { places }) {
  const numbers = new Set([...text.matchAll(new RegExp(`${symbol}(\\d+)`, 'g'))].map(it => Number(it[1])));
  const all = [...numbers].map(number => ({ sign: `${symbol}${number}`, of: placeWords(places, number) }));
  const told = all.slice(0, MOST_BOUNDS).map(({ sign: it, of }, at) => (
    { sign: it, words: at ? `the same with ${of}` : BOUND_MEANS[symbol](of) }));
  const rest = all.slice(MOST_BOUNDS).map(it => it.of);
  return rest.length ? [...told, { sign: `${symbol}..`, words: `the same with ${shortList(rest)}` }] : told;
}

/** @param {Place[]} places @param {number} number */
const placeWords = (places, number) => `${places[number] ? `${places[number].shown} ` : ''}(number ${number})`;

/**
 * What each sign of a tree means, of those that it has.
 * @param {string} text @param {{ menu: Menu, allowed?: Set<string> }} walk
 */
export const meanings = (text, walk) => [
  ...KEY.filter(([it]) => text.includes(it)).map(([it, words]) => ({ sign: it, words: words(walk) })),
  ...Object.keys(BOUND_MEANS).flatMap(it => boundsMean(text, it, walk.menu)),
];

/**
 * Why the signs of a tree leave nothing out; nothing where they open no two ways.
 * @param {string} text
 */
export function waysWords(text) {
  const ends = [...'*nxbcm'].filter(it => text.includes(it));
  return text.includes('+') && ends.length ? `Each + opens two ways, with the section and without it, and each way `
    + `ends in ${ends.join(' or ')}: so no bundle was missed.` : '';
}

/**
 * What the signs of a tree mean, of those that it has, and why they leave nothing out.
 * @param {string} text @param {{ menu: Menu, allowed?: Set<string> }} walk
 */
export function keyOf(text, walk) {
  const ways = waysWords(text);
  return el('ul', { class: 'plain quiet key', 'aria-label': 'What the signs mean' },
    meanings(text, walk).map(it => el('li', {}, sign(it.sign), ' ', el('span', {}, it.words))),
    ways ? el('li', { class: 'rest' }, ways) : null);
}

/**
 * The names of the places of a menu.
 * @param {Menu} menu
 */
export function placeNames({ places }) {
  const words = places.map(it => `${it.place} ${it.shown}`).join(', ');
  const told = () => el('p', { class: 'quiet' },
    `The signs go through the rated sections in the order of the catalogue, and number them from 0: ${words}.`);
  return places.length > MOST_PLACES ? opening(`The numbers of the ${places.length} sections`, told) : told();
}
