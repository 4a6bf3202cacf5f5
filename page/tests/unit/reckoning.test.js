// What the page works out by itself agrees with each tree that the worked examples and the example term have.

import assert from 'node:assert/strict';
import { existsSync } from 'node:fs';
import { join } from 'node:path';
import test from 'node:test';
import { explanationOf } from '../../one_student.js';
import {
  clashOf, errorOf, firstUndue, isDue, menuOf, nodesOf, priceOf, raisedBudget, walkOf, worthOf,
} from '../../reckoning.js';
import { catalogueOf } from '../../tables.js';
import { treeAt, turnsOf } from '../../texts.js';
import { TOP, VECTORS, casesOf, marketIn, namesIn, read } from './common.js';

const TERM = join(TOP, 'examples/term');
const OF_TERM = {
  catalogue: 'catalogue.csv', roll: 'roll.csv', settings: 'settings.json', text: 'published.txt',
  sessions: ['desk.session', 'web.session'],
};

/** Walks a tree; answers how many nodes it has. */
function walked(walk, tree, label) {
  let count = 0;
  const go = (chosen, from, top) => {
    for (let node = top, place = from; node; place++, node = node.without) {
      count++;
      assert.ok(isDue(walk, chosen, place, node), `${label}: ${tree} at ${node.at}`);
      if (node.with) go([...chosen, node.symbol === '!' ? walk.forced : place], place + 1, node.with);
    }
  };
  go([], 0, nodesOf(tree));
  assert.equal(firstUndue(walk, nodesOf(tree)), null);
  return count;
}

/** Walks all trees of a market's text. */
function walkAll(market, label) {
  let count = 0;
  for (const { at, name } of market.roll) {
    const bundle = market.text.bundles[at], budget = market.text.budgets[at], { bytes } = market.parts.text;
    const walk = walkOf(market, at, { budget, champion: bundle.names });
    count += walked(walk, treeAt(bytes, bundle), `${label}, ${name}`);
    for (const turn of turnsOf(market, at)) {
      const of = { budget: raisedBudget(market, at), allowed: turn.allowed, champion: turn.names };
      count += walked(walkOf(market, at, of), treeAt(bytes, turn), `${label}, ${name} pass ${turn.pass}`);
    }
  }
  return count;
}

test('each tree of the example term is walked as it stands', () => {
  assert.ok(walkAll(marketIn(TERM, OF_TERM), 'term') > 5000);
});

test('each tree of the accepted worked examples is walked as it stands', { skip: !existsSync(VECTORS) }, () => {
  let texts = 0;
  for (const folder of casesOf('check')) {
    const words = read(folder, 'words').trimEnd().split('\n');
    if (read(folder, 'stdout') !== 'accepted\n') continue;
    walkAll(marketIn(folder, namesIn(words)), folder);
    texts++;
  }
  assert.ok(texts > 10, `${texts} texts`);
});

test('each tree of the explanations is walked as it stands', { skip: !existsSync(VECTORS) }, () => {
  let trees = 0;
  for (const folder of casesOf('explain')) {
    const words = read(folder, 'words').trimEnd().split('\n'), [name, section] = words.slice(5, 7);
    if (read(folder, 'status').trim() !== '0') continue;
    const told = explanationOf(read(folder, 'stdout')), market = marketIn(folder, namesIn(words, 2));
    if (!told.tree) continue;
    const { at } = market.roll.find(it => it.name === name), budget = market.text.budgets[at];
    const walk = walkOf(market, at, { budget, champion: told.best, forced: section }), menu = menuOf(market, at);
    walked(walk, told.tree, folder);
    assert.equal(walk.worth, told.worth, folder);
    const held = worthOf(menu, market.text.bundles[at].names.map(it => menu.of.get(it)));
    assert.equal(held, told.worth + told.lost, folder);
    trees++;
  }
  assert.ok(trees > 3, `${trees} trees`);
});

test('sections clash by course, or where they meet in the same half of the term', () => {
  const [a, b, c, d, e] = catalogueOf('section,course,seats,credits,meetings,parts\nA1,A,1,1,M0900-1000,12\n'
    + 'A2,A,1,1,,12\nB,B,1,1,M0959-1100,1\nC,C,1,1,M1000-1100,2\nD,D,1,1,T0900-1000;M0930-0945,2\n');
  assert.equal(clashOf(a, b), 'is of the same course as');
  assert.equal(clashOf(a, c), 'meets at the same time as');
  assert.equal(clashOf(a, d), null, 'one ends when the other begins');
  assert.equal(clashOf(a, e), 'meets at the same time as');
  assert.equal(clashOf(c, d), null, 'they are of different halves');
});

test('a bundle is worth its ratings and its adjustments, and costs its prices', () => {
  const catalogue = catalogueOf('section,course,seats,credits,meetings\nX,X,1,1,\nY,Y,1,1,\nZ,Z,1,1,\n');
  const market = {
    catalogue, roll: [{ name: 'u' }], text: { prices: [5, 7, 11], budgets: [33] }, settings: { raise: 10 },
    wishes: new Map([['u', {
      ratings: new Map([['X', 10], ['Y', 20], ['Z', 0]]), pairs: [['X', 'Y', -3], ['X', 'Z', 50]],
    }]]), sectionOf: new Map(catalogue.map(it => [it.name, it])),
  };
  const menu = menuOf(market, 0);
  assert.deepEqual(menu.places.map(it => it.name), ['X', 'Y'], 'Z is rated 0');
  assert.equal(worthOf(menu, [0, 1]), 27);
  assert.equal(priceOf(market, ['X', 'Z']), 16);
  assert.equal(raisedBudget(market, 0), 36);
});

test('the clearing error squares seats too many, and free ones where the price is not 0', () => {
  const catalogue = catalogueOf('section,course,seats,credits,meetings\nX,X,3,1,\nY,Y,3,1,\nZ,Z,3,1,\n');
  assert.equal(errorOf(new Map([['X', 5], ['Y', 1], ['Z', 1]]), catalogue, [0, 9, 0]), 4 + 4);
});

test('a sign that is not due is found', () => {
  const market = marketIn(TERM, OF_TERM), { at } = market.roll.find(it => it.name === 'n.jones');
  const bundle = market.text.bundles[at], budget = market.text.budgets[at];
  const walk = walkOf(market, at, { budget, champion: bundle.names }), tree = treeAt(market.parts.text.bytes, bundle);
  assert.equal(firstUndue(walk, nodesOf(tree)), null);
  assert.equal(firstUndue(walk, nodesOf(tree.replace('*', 'n'))).at, tree.indexOf('*'));
  assert.equal(firstUndue({ ...walk, budget: walk.budget - 700 }, nodesOf(tree)) === null, false);
});
