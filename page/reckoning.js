// What the page works out by itself, to draw a tree that the program has checked: which sections clash, what a bundle
// is worth, what is left, and the bound that closes a node (FORMATS, "Best bundles" and "Trees").

import { grouped, listed, plural } from './wording.js';

/** @param {Meeting} one @param {Meeting} other */
function overlaps(one, other) {
  return one.day === other.day && one.from < other.to && other.from < one.to;
}

/**
 * Why two different sections cannot be taken together, in words; null where they can.
 * @param {Section} one @param {Section} other
 */
export function clashOf(one, other) {
  if (one.course === other.course) return 'is of the same course as';
  const shares = [...one.parts].some(it => other.parts.includes(it));
  const meets = one.meetings.some(it => other.meetings.some(that => overlaps(it, that)));
  return shares && meets ? 'meets at the same time as' : null;
}

/** @returns {Wishes} */
export const noWishes = () => ({ ratings: new Map(), pairs: [] });

/**
 * The places of a student's menu: the rated sections in the order of the catalogue, and the adjustments between them.
 * @param {{ catalogue: Section[], roll: Student[], wishes: WishesOfAll, text: { prices: number[] },
 *   spelling?: Spelling }} market
 * @param {number} student
 * @returns {Menu}
 */
export function menuOf(market, student) {
  const wishes = market.wishes.get(market.roll[student].name) ?? noWishes();
  const rated = market.catalogue.filter(it => wishes.ratings.get(it.name) > 0);
  const places = rated.map((section, place) => ({
    place, section, name: section.name, shown: market.spelling?.shown('section', section.name) ?? section.name,
    rating: wishes.ratings.get(section.name), price: market.text.prices[section.at],
  }));
  const of = new Map(places.map(it => [it.name, it.place])), together = places.map(() => new Map());
  for (const [one, other, worth] of wishes.pairs) {
    if (!of.has(one) || !of.has(other)) continue;
    together[of.get(one)].set(of.get(other), worth);
    together[of.get(other)].set(of.get(one), worth);
  }
  return { places, together, of };
}

/**
 * What a bundle is worth to the student, in points.
 * @param {Menu} menu @param {number[]} chosen places of the menu
 */
export function worthOf(menu, chosen) {
  const beside = (/** @type {number} */ it, /** @type {number[]} */ others) =>
    others.reduce((sum, other) => sum + (menu.together[it].get(other) ?? 0), 0);
  return chosen.reduce((sum, it, at) => sum + menu.places[it].rating + beside(it, chosen.slice(0, at)), 0);
}

/**
 * The prices of sections together, in tokens.
 * @param {Market} market @param {string[]} names
 */
export const priceOf = (market, names) =>
  names.reduce((sum, name) => sum + market.text.prices[market.sectionOf.get(name).at], 0);

/**
 * The budget of the aftermarket, in tokens.
 * @param {Market} market @param {number} student
 */
export const raisedBudget = (market, student) =>
  market.text.budgets[student] + Math.floor(market.text.budgets[student] * market.settings.raise / 100);

/**
 * The clearing error: the sum of the squares of what is wanted above the seats, and below them where the price is not
 * 0.
 * @param {Map<string, number>} counts @param {Section[]} catalogue @param {number[]} prices
 */
export function errorOf(counts, catalogue, prices) {
  return catalogue.reduce((sum, it) => {
    const excess = counts.get(it.name) - it.seats;
    return sum + (prices[it.at] === 0 && excess < 0 ? 0 : excess * excess);
  }, 0);
}

/**
 * The tree as nodes.
 * @param {string} text @returns {TreeNode}
 */
export function nodesOf(text) {
  let at = 0;
  const next = () => {
    /** @type {TreeNode} */
    const root = {};
    for (let node = root; ;) {
      node.at = at;
      node.symbol = text[at++];
      if ('bcm'.includes(node.symbol)) {
        const digits = /^\d*/.exec(text.slice(at, at + 2))[0];
        at += digits.length;
        node.number = Number(digits);
      }
      if (node.symbol === '+') node.with = next();
      if (node.symbol === '!') { node.with = next(); return root; }
      if (!'+-'.includes(node.symbol)) return root;
      node.without = {};
      node = node.without;
    }
  };
  return next();
}

/**
 * What a tree is walked with: the menu, the budget, the student's caps, what may be taken (all, where none is given),
 * the bundle that it proves, and the section that has to be taken, if one has.
 * @param {Market} market @param {number} student
 * @param {{ budget: number, allowed?: Set<string>, champion: string[], forced?: string }} of
 * @returns {Walk}
 */
export function walkOf(market, student, { budget, allowed, champion, forced }) {
  const menu = menuOf(market, student), { credits, courses } = market.roll[student];
  const places = champion.map(it => menu.of.get(it));
  return {
    menu, budget, credits, courses, allowed, champion: places, worth: worthOf(menu, places),
    forced: forced === undefined ? null : menu.of.get(forced),
  };
}

/**
 * What is left of each resource beside what is chosen.
 * @param {Walk} walk @param {number[]} chosen @returns {Left}
 */
export function leftOf(walk, chosen) {
  const sum = (/** @type {(it: Place) => number} */ of) =>
    chosen.reduce((total, it) => total + of(walk.menu.places[it]), 0);
  return {
    b: walk.budget - sum(it => it.price), c: walk.credits - sum(it => it.section.credits),
    m: walk.courses - chosen.length,
  };
}

/**
 * Beside what something is taken, or left, in words; nothing where nothing is taken yet.
 * @param {{ menu: Menu }} walk @param {number[]} chosen
 */
export const besideWords = ({ menu }, chosen) =>
  chosen.length ? ` beside ${listed(chosen.map(it => menu.places[it].shown))}` : '';

/**
 * What closes a place, which tells itself in words; null where it is open. (Trees have thousands of places, and few are
 * told.)
 * @param {Walk} walk @param {number[]} chosen @param {number} place @param {Left} left beside what is chosen
 * @returns {(() => string) | null}
 */
function closingOf(walk, chosen, place, left) {
  const { section, name, price } = walk.menu.places[place];
  if (walk.allowed && !walk.allowed.has(name)) return () => 'had no free seat at that turn';
  for (const it of chosen) {
    const other = walk.menu.places[it], clash = clashOf(section, other.section);
    if (clash) return () => `${clash} ${other.shown}`;
  }
  if (price > left.b) {
    return () => `has the price ${grouped(price)}, and ${plural(left.b, 'token is', 'tokens are')} left`
      + besideWords(walk, chosen);
  }
  if (section.credits > left.c) {
    return () =>
      `has ${plural(section.credits, 'credit')}, and ${plural(left.c, 'credit is', 'credits are')} left`
      + besideWords(walk, chosen);
  }
  if (left.m < 1) return () => `would be one section more than the ${walk.courses} that the roll allows`;
  return null;
}

/**
 * Why a place is not open, in words; null where it is.
 * @param {Walk} walk @param {number[]} chosen @param {number} place
 */
export const closedBy = (walk, chosen, place) => closingOf(walk, chosen, place, leftOf(walk, chosen))?.() ?? null;

/**
 * The open places from `from` on, each with its worth: its rating, its adjustments with the chosen ones, and the
 * positive ones with later open ones; none is worth less than 0.
 * @param {Walk} walk @param {number[]} chosen @param {number} from
 */
export function openPlaces(walk, chosen, from) {
  const left = leftOf(walk, chosen), open = new Set();
  for (let it = from; it < walk.menu.places.length; it++) if (!closingOf(walk, chosen, it, left)) open.add(it);
  return [...open].map(place => {
    const together = walk.menu.together[place];
    let worth = chosen.reduce((sum, it) => sum + (together.get(it) ?? 0), walk.menu.places[place].rating);
    for (const [it, more] of together) if (it > place && more > 0 && open.has(it)) worth += more;
    return { place, worth: Math.max(0, worth) };
  });
}

/**
 * What a place takes of each resource.
 * @type {Record<string, (it: Place) => number>}
 */
export const TAKES = { b: it => it.price, c: it => it.section.credits, m: () => 1 };

/**
 * The bound of a leaf, in thousandths of a point: what is chosen, what is left at the rate of the leaf's place, and
 * what each course may bring above that. Of the plain bound the rate is 0.
 * @param {Walk} walk @param {number[]} chosen @param {number} from @param {TreeNode} node
 * @param {ReturnType<typeof openPlaces>} [open] the open places, which all bounds of a node share
 */
export function boundOf(walk, chosen, from, node, open = openPlaces(walk, chosen, from)) {
  const takes = TAKES[node.symbol] ?? (() => 0);
  const by = open.find(it => it.place === node.number);
  const rate = by ? Math.floor(1000 * by.worth / takes(walk.menu.places[by.place])) : 0;
  const best = new Map();
  for (const { place, worth } of open) {
    const it = walk.menu.places[place], brings = 1000 * worth - rate * takes(it);
    if (brings > (best.get(it.section.course)?.brings ?? 0)) {
      best.set(it.section.course, { name: it.shown, brings, worth, takes: takes(it) });
    }
  }
  const left = leftOf(walk, chosen)[/** @type {'b' | 'c' | 'm'} */ (node.symbol)] ?? 0;
  const value = worthOf(walk.menu, chosen), brought = [...best.values()];
  const bound = 1000 * value + rate * left + brought.reduce((sum, it) => sum + it.brings, 0);
  return { rate, by, left, value, brought, bound };
}

/**
 * The lowest decided place on which the chosen ones and the bundle differ; null where they do on none.
 * @param {Walk} walk @param {number[]} chosen @param {number} from
 */
export function firstDifference(walk, chosen, from) {
  for (let it = 0; it < from; it++) if (chosen.includes(it) !== walk.champion.includes(it)) return it;
  return null;
}

/**
 * Whether the lowest decided place on which the chosen ones and the bundle differ is the bundle's: then a bundle of
 * equal worth is no better.
 * @param {Walk} walk @param {number[]} chosen @param {number} from
 */
export const losesTies = (walk, chosen, from) => walk.champion.includes(firstDifference(walk, chosen, from));

/**
 * Whether the symbol of a node is the one that is due by what the page works out.
 * @param {Walk} walk @param {number[]} chosen @param {number} place @param {TreeNode} node
 */
export function isDue(walk, chosen, place, node) {
  const isEnd = place >= walk.menu.places.length;
  if (node.symbol === 'x') return closedBy(walk, chosen, walk.forced) !== null;
  if (node.symbol === '!') return place === walk.forced;
  if (node.symbol === '*') return isEnd && String(chosen) === String(walk.champion);
  if (node.symbol === '-') return !isEnd && closedBy(walk, chosen, place) !== null;
  if (node.symbol === '+') return !isEnd && closedBy(walk, chosen, place) === null;
  return boundOf(walk, chosen, place, node).bound < 1000 * (walk.worth + (losesTies(walk, chosen, place) ? 1 : 0));
}

/**
 * The first node of a tree whose symbol is not the one that is due by what the page works out; null where all are.
 * @param {Walk} walk @param {TreeNode} root
 * @returns {TreeNode | null}
 */
export function firstUndue(walk, root) {
  const waiting = [{ chosen: /** @type {number[]} */ ([]), place: 0, node: root }];
  while (waiting.length) {
    const { chosen, place, node } = waiting.pop();
    if (!isDue(walk, chosen, place, node)) return node;
    if (node.without) waiting.push({ chosen, place: place + 1, node: node.without });
    if (node.with) waiting.push({ chosen: [...chosen, place], place: place + 1, node: node.with });
  }
  return null;
}
