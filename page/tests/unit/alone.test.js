import assert from 'node:assert/strict';
import { test } from 'node:test';

import { blankSessions, commandLines, namedIn, pricesWithin, roomOf, saidByAll, saidIn } from '../../alone.js';
import { firstWords } from '../../lines.js';
import { sessionsWords } from '../../wishes.js';

const bytes = (/** @type {string} */ it) => new TextEncoder().encode(it);
const text = (/** @type {Uint8Array} */ it) => new TextDecoder().decode(it);
const section = (/** @type {number} */ at, /** @type {string} */ name, /** @type {any} */ more) =>
  ({ at, name, course: name, seats: 0, credits: 1, meetings: [], parts: '12', ...more });

test('a line is a command by its words, and keeps its bytes', () => {
  const lines = commandLines(bytes('\ufeff# a comment\n\n \t\nrate ann A 5\r\n\r\n rate  ann\tB 6\r\r\n#x\nclose'));
  assert.deepEqual(lines.map(text), ['rate ann A 5\r', ' rate  ann\tB 6\r\r', 'close']);
});

test('the first words of a line are told', () => {
  const words = (/** @type {string} */ it) => firstWords(bytes(`>${it}<`), 1, bytes(it).length + 1);
  assert.deepEqual(words(' rate  ann\tB 6\r\r'), { first: 'rate', second: 'ann' });
  assert.deepEqual(words('clear ann\r'), { first: 'clear', second: 'ann' });
  assert.deepEqual(words('clear ann\r\r'), { first: 'clear', second: 'ann\r' });
  assert.deepEqual(words('close \t'), { first: 'close', second: undefined });
  assert.deepEqual(words('\r'), { first: '', second: undefined });
  assert.deepEqual(words(`clear ${'é'.repeat(3)}`).second, 'ééé');
  assert.deepEqual(words(`clear ${'a'.repeat(90)}`).second, 'a'.repeat(90));
  assert.deepEqual(words('\ufeffclose').first, '\ufeffclose');
});

test('the lines of a student are kept as they stand, behind a comment', () => {
  const said = saidIn(bytes('rate ann A 5\r\r\nrate bob A 7\nclear ann\nclose\npair ann A B -3'), 'ann');
  assert.equal(text(said.bytes), '# The lines of one student.\nrate ann A 5\r\r\nclear ann\npair ann A B -3\n');
  assert.equal(said.count, 3);
});

test('names are counted apart from lines that name nobody', () => {
  const { names, others } = namedIn(bytes('rate ann A 5\nrate ann B 5\nclear bob\nclose\nrate\nwhat ann\n'));
  assert.deepEqual([[...names], others], [[['ann', 2], ['bob', 1]], 3]);
});

test('all sessions are heard in the order of the text, up to a close', () => {
  const sessions = [bytes('rate ann A 1\nrate ann A 3\n'), bytes('rate ann A 2\nclear bob\nclose\nrate ann A 9\n')];
  const said = saidByAll([1, 2, 1, 2, 2, 2], sessions);
  assert.equal(text(said.get('ann').bytes), '# The lines of one student.\nrate ann A 1\nrate ann A 2\nrate ann A 3\n');
  assert.deepEqual([...said].map(([name, it]) => [name, it.count]), [['ann', 3], ['bob', 1]]);
});

test('blank sessions have as many commands as the order takes', () => {
  assert.deepEqual(blankSessions([3, 1, 3]).map(it => text(it.bytes)), ['x\n', '', 'x\nx\n']);
  assert.deepEqual(blankSessions([]).map(it => text(it.bytes)), ['']);
  assert.equal(blankSessions([64, 1]).length, 64);
});

test('an order that is none has sessions too, so that the program can say what is wrong with it', () => {
  const distinct = Array.from({ length: 150000 }, (_, at) => 100000 + at);
  for (const it of [[1, NaN], [NaN], [1.5, -3, 0], distinct]) assert.ok([1, 64].includes(blankSessions(it).length));
  const given = { name: 'a', kind: 'session', bytes: bytes('rate ann A 1\n') };
  for (const it of [[NaN, 1, 1], [...distinct, 1, 1], [1, 1, 9e15]]) {
    assert.match(sessionsWords([given], it)[0], /^The order of the text takes 2 commands of session 1/);
  }
});

test('what is not to be had costs more than the budget', () => {
  const catalogue = [section(0, 'A', {}), section(1, 'B', {})];
  assert.deepEqual(pricesWithin(catalogue, [5, 6], new Set(['B']), 100), [101, 6]);
  assert.deepEqual(pricesWithin(catalogue, [5, 6], undefined, 100), [5, 6]);
});

test('the market of one student has a seat in each section, its budget, and its bundle as the whole text', () => {
  const meetings = [{ day: 'M', from: '0900', to: '1020' }, { day: 'W', from: '0900', to: '1020' }];
  const catalogue = [section(0, 'A', { credits: 3, meetings, parts: '1' }), section(1, 'B', { course: 'X' })];
  const room = roomOf(catalogue, {
    name: 'ann', credits: 8, courses: 5, budget: 70, prices: [50, 30], names: ['A'], tree: '+*n',
    said: { bytes: bytes('rate ann A 5\n'), count: 1 },
  });
  assert.equal(text(room.catalogue.bytes),
    'section,course,seats,credits,meetings,parts\nA,A,1,3,M0900-1020;W0900-1020,1\nB,X,1,1,,12\n');
  assert.equal(text(room.roll.bytes), 'student,budget,credits,courses\nann,70,8,5\n');
  assert.equal(text(room.prices.bytes), 'section,price\nA,50\nB,30\n');
  assert.equal(text(room.text.bytes), [
    'course-match 2', 'order 1', 'budget ann 70', 'start A 0', 'start B 0', 'error 0', 'price A 50', 'price B 30',
    'bundle ann [A] +*n', 'turn 1 ann [A] +*n', 'final ann [A]', 'used A 1 1', 'used B 0 1', 'end', '',
  ].join('\n'));
});
