// What goes to the worker: long bytes ahead of their message, in pieces; what comes back is small, and read when it is
// looked at.

import assert from 'node:assert/strict';
import { test } from 'node:test';

import { decoded, encoded, isSame, withText } from '../../bytes.js';
import { Lines } from '../../lines.js';
import { assembled, lifted } from '../../pieces.js';
import { originalsIn } from '../../spelling.js';
import { firstRecords } from '../../tables.js';
import { orderOf, upToOrder, wishedLines, wishesBy } from '../../wishes.js';

test('long bytes go ahead of their message, each once, and short ones with it', () => {
  const long = new Uint8Array(2 ** 21).fill(7), short = encoded('abc').subarray(1);
  const message = { id: 3, files: [['a', long], ['b', short]], again: { bytes: long }, none: null, word: 'x' };
  const { shell, ahead } = lifted(message);
  assert.deepEqual(ahead.map(([key, bytes]) => [key, bytes === long]), [[0, true]]);
  assert.equal(shell.files[1][1].buffer.byteLength, 2);
  const came = assembled(structuredClone(shell), new Map([[0, long.slice()]]));
  assert.deepEqual(came, message);
  assert.equal(came.files[0][1], came.again.bytes);
});

test('values of other kinds go as they are', () => {
  const value = { map: new Map([['__proto__', 1]]), list: [undefined, 2] };
  assert.deepEqual(assembled(lifted(value).shell, new Map()), value);
});

test('the text of an answer is that of its bytes', () => {
  const answer = withText({ status: 0, out: encoded('\ufeffx\n'), ms: 1, memory: 0 });
  assert.equal(answer.text, '\ufeffx\n');
  const same = (/** @type {string} */ one, /** @type {string} */ other) => isSame(encoded(one), encoded(other));
  assert.deepEqual([same('ab', 'ab'), same('ab', 'ac'), same('a', '')], [true, false, false]);
});

test('a line is told by its first words, and where the rest of it stands', () => {
  const lines = new Lines(encoded('turn 1 ann [A] +*n\nturning\nturn 2'));
  assert.deepEqual(lines.wordsOf(1, 4), { words: ['turn', '1', 'ann', '[A]'], from: 15, to: 18 });
  assert.deepEqual(lines.wordsOf(3, 2), { words: ['turn', '2'], from: 33, to: 33 });
  assert.deepEqual([1, 2, 3, 4].map(it => lines.begins(it, 'turn')), [true, false, true, false]);
  assert.equal(lines.boundsOf(4), undefined);
});

test('of a table no more is read than a market has, and a field of any length is none', () => {
  assert.deepEqual(firstRecords('a,b\nc,d\ne,f\n', 2), [['a', 'b'], ['c', 'd']]);
  assert.equal(firstRecords(`a,b\n"${'x'.repeat(201)}`, 9), null);
  assert.equal(firstRecords('a,'.repeat(20), 9), null);
  assert.deepEqual(firstRecords('', 9), []);
});

test('of spellings no more is read than a school has', () => {
  const row = (/** @type {number} */ it) => `student,Name ${it},s${it}`;
  const rows = Array.from({ length: 20001 }, (_, at) => row(at));
  const many = ['kind,original,name', `student,${'x'.repeat(201)},long`, ...rows];
  const { size } = originalsIn(encoded(many.join('\n'))).get('student');
  assert.equal(size, 20000);
});

test('the order line is read as far as any order goes', () => {
  assert.deepEqual(orderOf(encoded('course-match 1\norder 2 1 2\nbudget')), [2, 1, 2]);
  const whole = encoded('course-match 1\norder 2 1 2\nbudget'), head = upToOrder(whole);
  assert.deepEqual([decoded(head), orderOf(head)], ['course-match 1\norder 2 1 2', [2, 1, 2]]);
  assert.deepEqual(['', 'order 1', 'x\n'].map(it => decoded(upToOrder(encoded(it)))), ['', 'order 1', 'x\n']);
  assert.ok(orderOf(encoded(`course-match 1\norder${' 1'.repeat(2 ** 21)}`)).length < 2 ** 20);
});

test('what a student wants is read when it is asked for', () => {
  const lines = wishedLines('entry 1 done rate ann A 5\nrate ann A 5\nrate __proto__ B 3\npair ann A B -2\nclose\n');
  assert.deepEqual([...lines.keys()], ['ann', '__proto__']);
  const wishes = wishesBy(lines);
  assert.deepEqual([...wishes.get('ann').ratings], [['A', 5]]);
  assert.deepEqual(wishes.get('ann').pairs, [['A', 'B', -2]]);
  assert.deepEqual([...wishes.get('__proto__').ratings], [['B', 3]]);
  assert.equal(wishes.get('constructor'), undefined);
  assert.equal(wishes.get('ann'), wishes.get('ann'));
});
