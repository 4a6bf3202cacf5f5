// Draws a tree that opens node by node. At one level stand the sections that may be taken next, one below the other,
// each with what follows when it is taken; the last line of a level closes it.

import { code, el, opening, p } from './elements.js';
import { tableOf } from './grid.js';
import { TAKES, boundOf, closedBy, firstUndue, nodesOf } from './reckoning.js';
import { keyOf, sign } from './sign_key.js';
import { endWords, leftWords, pairedWorth, points } from './signs.js';
import { grouped, listed, plural } from './wording.js';

/**
 * The line of one section that cannot be taken, or of several.
 * @param {Walk} walk @param {number[]} chosen @param {number[]} places
 */
function closedLine(walk, chosen, places) {
  const words = (/** @type {number} */ it) =>
    el('span', {}, el('b', {}, walk.menu.places[it].shown), ` ${closedBy(walk, chosen, it) ?? 'is left out'}`);
  if (places.length === 1) return el('li', { class: 'closed' }, sign('-'), ' ', words(places[0]), '.');
  const names = listed(places.map(it => walk.menu.places[it].shown));
  return el('li', { class: 'closed' }, opening(
    [sign('-'.repeat(places.length)), ' ', `${places.length} sections are left out: ${names}`],
    () => el('ul', { class: 'plain' }, places.map(it => el('li', {}, words(it), '.')))));
}

/** @type {Record<string, [string, string]>} */
const RESOURCES = { b: ['token', 'tokens'], c: ['credit', 'credits'], m: ['section', 'sections'] };

/**
 * The words of a leaf that a bound closes.
 * @param {Walk} walk @param {number[]} chosen @param {number} from @param {TreeNode} node
 */
function boundWords(walk, chosen, from, node) {
  const it = boundOf(walk, chosen, from, node), end = endWords({ walk, chosen, place: from }, it.bound);
  if (node.symbol !== 'n') return [...rateWords(walk, node, it), p(end)];
  const more = it.brought.map(that => `${that.worth} (${that.name})`).join(' + ');
  const rest = more ? `The rest can bring ${more} at most, in all ${points(it.bound)}.` : 'Nothing else can come to '
    + 'it.';
  return [p(`What is chosen is worth ${it.value}. ${rest}`), p(end)];
}

/**
 * The words of a bound by a rate.
 * @param {Walk} walk @param {TreeNode} node @param {ReturnType<typeof boundOf>} it
 */
function rateWords(walk, node, it) {
  const [one, many] = RESOURCES[node.symbol], by = walk.menu.places[node.number], takes = TAKES[node.symbol](by);
  const all = points(1000 * it.value + it.rate * it.left);
  return [
    p(`What is chosen is worth ${it.value}, and ${plural(it.left, `${one} is`, `${many} are`)} left. `
      + `Say that a ${one} is worth what it is worth at ${by.shown}: `
      + `${it.by ? pairedWorth(by.rating, it.by.worth) : 0} for ${plural(takes, one, many)}, ${points(it.rate)} points `
      + `a ${one}. `
      + 'Who could spend all that is left at that rate, and besides got what each course brings above it, would have '
      + 'at most'),
    el('ul', { class: 'plain' },
      el('li', {}, `${it.value} (chosen) + ${points(it.rate)} · ${grouped(it.left)} (left) = ${all}`),
      it.brought.map(that => el('li', {},
        `+ ${points(that.brings)} (${that.name}: ${that.worth} less ${points(it.rate)} · ${grouped(that.takes)})`)),
      el('li', {}, `= ${points(it.bound)}`)),
  ];
}

/** @param {Walk} walk @param {number[]} chosen @param {number} from @param {TreeNode} node */
function leafLine(walk, chosen, from, node) {
  const names = listed(chosen.map(it => walk.menu.places[it].shown));
  if (node.symbol === '*') {
    return el('li', { class: 'champion' }, sign('*'), ` This is the bundle: ${names}, worth ${walk.worth}.`);
  }
  if (node.symbol === 'x') {
    const why = closedBy(walk, chosen, walk.forced), { shown } = walk.menu.places[walk.forced];
    return el('li', { class: 'leaf' }, sign('x'), ` ${shown} can no more be taken: it ${why}.`);
  }
  const most = Math.floor(boundOf(walk, chosen, from, node).bound / 1000);
  const rest = chosen.length ? `${names}, with what else may come to ${chosen.length === 1 ? 'it' : 'them'}`
    : 'All that is left';
  const by = node.number === undefined ? '' : ` (${node.number} is ${walk.menu.places[node.number].shown}):`;
  const end = most < walk.worth ? `less than the ${walk.worth} of the bundle` : 'and a tie goes to the bundle';
  const summary = `${by} ${rest}: worth ${most} at most, ${end}`;
  return el('li', { class: 'leaf' },
    opening([sign(node.symbol + (node.number ?? '')), summary], () => boundWords(walk, chosen, from, node)));
}

/**
 * The line of a section that is taken, with what follows below it. It is open where it leads to the bundle.
 * @param {Walk} walk @param {number[]} chosen @param {TreeNode} node @param {number} place
 * @returns {HTMLElement}
 */
function takenLine(walk, chosen, node, place) {
  const now = [...chosen, place], it = walk.menu.places[place];
  const isOnTheWay = now.every(that => walk.champion.includes(that))
    && walk.champion.every(that => that > place || now.includes(that));
  const must = node.symbol === '!' ? ', which has to be taken' : '';
  const rest = `${must} (number ${place}, rating ${it.rating}, price ${grouped(it.price)}): ${leftWords(walk, now)}`;
  const summary = [sign(node.symbol), ' with ', el('b', {}, it.shown), rest];
  return el('li', { class: isOnTheWay ? 'way' : '' },
    opening(summary, () => levelOf(walk, now, place + 1, node.with), isOnTheWay));
}

/**
 * @param {Walk} walk @param {number[]} chosen @param {number} from @param {TreeNode} node
 * @returns {HTMLElement}
 */
function levelOf(walk, chosen, from, node) {
  const lines = [];
  /** @type {number[]} */
  let closed = [];
  const flush = () => { if (closed.length) lines.push(closedLine(walk, chosen, closed)); closed = []; };
  for (let place = from; node; place++, node = node.without) {
    if (node.symbol === '-') { closed.push(place); continue; }
    flush();
    const isTaken = '+!'.includes(node.symbol);
    lines.push(isTaken ? takenLine(walk, chosen, node, place) : leafLine(walk, chosen, place, node));
    if (!node.without) break;
  }
  return el('ul', { class: 'tree' }, lines);
}

/**
 * The whole drawing, with the tree's text and the table of its places. What is drawn agrees with each sign of the tree.
 * @param {Walk} walk @param {string} text
 */
export function drawingOf(walk, text) {
  const root = nodesOf(text), undue = firstUndue(walk, root);
  if (undue) {
    return [
      p(`The page does not draw this tree: by what it works out itself another sign is due at byte ${undue.at}. `
        + 'What the program says of the tree counts, and not what the page works out.'),
      el('p', { class: 'tree-text' }, code(text)),
    ];
  }
  const places = tableOf('The numbers in the signs', [
    { head: 'Number', of: it => it.place },
    { head: 'Section', of: it => it.shown, isText: true },
    { head: 'Rating', of: it => it.rating },
    { head: 'Price', of: it => it.price },
  ], walk.menu.places, { filterAt: 20 });
  return [
    p('Read from the top down. A line that opens takes its section, and shows what follows; the next line does without '
      + `it. At first ${leftWords(walk, [])}.`),
    keyOf(text, walk),
    levelOf(walk, [], 0, root),
    opening('The signs as they are published, and the sections that they number',
      () => [el('p', { class: 'tree-text' }, code(text)), places]),
  ];
}
