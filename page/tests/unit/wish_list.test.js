import assert from 'node:assert/strict';
import { test } from 'node:test';

import {
  adjust, adjustmentOf, emptyList, isName, notesOf, quoteOf, rate, ratingOf, sessionFile,
} from '../../wish_list.js';
import { cases } from './vectors.js';

const section = (/** @type {number} */ at, /** @type {string} */ name, /** @type {any} */ more = {}) =>
  ({ at, name, course: name, seats: 1, credits: 1, meetings: [], parts: '12', ...more });
const CATALOGUE = [
  section(0, 'A', { course: 'X' }), section(1, 'B', { credits: 5, meetings: [{ day: 'M', from: '0900', to: '1000' }] }),
  section(2, 'C', { meetings: [{ day: 'M', from: '0930', to: '1030' }] }), section(3, 'D', { course: 'X' }),
];

test('a rating is a whole number within its range', () => {
  assert.deepEqual(['0', ' 100 ', '', '007'].map(ratingOf), [0, 100, 0, 7].map(points => ({ points })));
  const faultOf = (/** @type {string} */ it) => /** @type {any} */ (ratingOf(it)).fault;
  for (const it of ['101', '-1', '1.5', '1e1', 'x', '１']) assert.match(faultOf(it), /0 to 100/);
  assert.deepEqual(['-200', '+5', '-0'].map(adjustmentOf), [-200, 5, 0].map(points => ({ points })));
  for (const it of ['201', '-201']) assert.match(/** @type {any} */ (adjustmentOf(it)).fault, /-200 to 200/);
});

test('the file takes back what was said before, and says all in the order of the catalogue', () => {
  const list = emptyList('ann');
  const typed = /** @type {[string, number][]} */ ([['C', 3], ['A', 9], ['B', 4], ['B', 0]]);
  for (const [name, points] of typed) rate(list, name, points);
  adjust(list, CATALOGUE[2], CATALOGUE[0], -7);
  adjust(list, CATALOGUE[0], CATALOGUE[1], 5);
  const text = new TextDecoder().decode(sessionFile(list, CATALOGUE));
  assert.equal(text, '# What ann wishes.\nclear ann\nrate ann A 9\nrate ann C 3\npair ann A B 5\npair ann A C -7\n');
});

test('no more is rated than the desk takes, and an old rating can still be changed', () => {
  const list = emptyList('ann');
  for (let it = 0; it < 60; it++) assert.equal(rate(list, `S${it}`, 1), '');
  assert.match(rate(list, 'A', 1), /At most 60/);
  assert.equal(rate(list, 'S5', 7), '');
  assert.equal(list.ratings.size, 60);
  for (let it = 0; it < 200; it++) list.pairs.set(`S${it} T`, 1);
  assert.match(adjust(list, CATALOGUE[0], CATALOGUE[1], 1), /At most 200/);
  assert.match(adjust(list, CATALOGUE[0], CATALOGUE[0], 1), /two different/);
});

test('clashes and what passes a cap alone are told', () => {
  const list = emptyList('ann');
  for (const it of CATALOGUE) rate(list, it.name, 1);
  const { clashes, tooLarge, credits } = notesOf(list, CATALOGUE, { credits: 4, courses: 2 });
  assert.deepEqual(clashes, [
    { one: 'A', other: 'D', why: 'is of the same course as' },
    { one: 'B', other: 'C', why: 'meets at the same time as' },
  ]);
  assert.deepEqual([tooLarge, credits], [['B'], 8]);
});

test('names are those of FORMATS', () => {
  for (const it of ['n.jones', 'A', 'x'.repeat(32), '000113', '-_.']) assert.ok(isName(it), it);
  for (const it of ['', 'x'.repeat(33), 'a b', 'é', 'a\n']) assert.ok(!isName(it), it);
});

test('what quote prints is read', () => {
  assert.deepEqual(quoteOf('bundle ann [A,B]\nutility 9\n'), { names: ['A', 'B'], worth: 9 });
  assert.deepEqual(quoteOf('bundle ann []\nutility 0\n'), { names: [], worth: 0 });
  for (const it of cases('quote').filter(it => it.status === 0)) assert.ok(quoteOf(it.stdout).worth >= 0, it.name);
});
