// Long and strange inputs: lines keep their bytes, nothing is made of what is not asked for, what is shown can be seen.

import assert from 'node:assert/strict';
import test from 'node:test';
import { decoded, encoded } from '../../bytes.js';
import { Lines, commandCount, eachCommand } from '../../lines.js';
import { lookOf } from '../../look.js';
import { eachRecord, recordAt } from '../../tables.js';
import { wishedIn } from '../../whole_market.js';
import { inPrintedOrder, packed, repliesOf } from '../../wishes.js';
import { quoted, visible } from '../../wording.js';
import { excerptOf, refusalOf } from '../../words.js';

const given = (name, kind, text) => ({ name, kind, bytes: encoded(text) });

test('commands are the lines that the desk hears', () => {
  const found = [];
  const bytes = encoded('\ufeff# none\n\n \t\r\n rate a X 1\r\r\n\r\r\nclose');
  eachCommand(bytes, (from, to, number) => found.push([number, decoded(bytes.subarray(from, to))]));
  assert.deepEqual(found, [[4, ' rate a X 1\r\r'], [5, '\r\r'], [6, 'close']]);
  assert.equal(commandCount(encoded('\n'.repeat(1e6))), 0);
});

test('a line keeps its bytes in the printed order, so that the desk refuses what it refused', () => {
  const [session] = inPrintedOrder([2, 1, 2], [encoded('rate a X 1\r\r\n'), encoded('# one\nclear a\r\n\trate a X 2')]);
  assert.equal(decoded(session), 'clear a\r\nrate a X 1\r\r\n\trate a X 2');
});

test('more than a session may have comes in several, and a mark within stays what it was', () => {
  const long = encoded('x'.repeat(6 * 2 ** 20)), marked = encoded('\ufeffclear a');
  const parts = packed([long, long, long, marked]);
  assert.deepEqual(parts.map(it => it.length), [12 * 2 ** 20 + 1, 6 * 2 ** 20 + 11]);
  assert.deepEqual([...packed([marked])[0].subarray(0, 5)], [35, 10, 0xef, 0xbb, 0xbf]);
  const full = encoded('x'.repeat(2 ** 24 - 1));
  assert.deepEqual(packed([full, full]).map(it => it.length), [2 ** 24 - 1, 2 ** 24 - 1]);
});

test('where one call has not room for all sessions, each student has its own lines', () => {
  const line = encoded('rate a X 1' + ' '.repeat(2 ** 23)), order = Array.from({ length: 65 }, (_, at) => at + 1);
  const said = new Map([['a', { bytes: encoded('# own\nrate a X 1\n') }]]);
  const calls = wishedIn(order, Array(65).fill(line), said, [{ name: 'a' }, { name: 'b' }]);
  assert.deepEqual(calls.map(it => it.map(decoded)), [['# own\nrate a X 1\n']]);
});

test('a reply is told with its line, and what cannot be read as it can be shown', () => {
  const sessions = [given('a', 'session', '# x\nrate\0 a\nclear a\n')];
  assert.deepEqual(repliesOf('entry 1 unreadable unreadable\nentry 1 done clear a\n', sessions),
    [{ file: 'a', row: 2, reply: 'unreadable', command: 'rate\\0 a' }]);
  const parts = {
    sessions, catalogue: given('c', 'catalogue', 'section,\nX,\n'), roll: given('r', 'roll', 'student,\na,\n'),
  };
  const look = lookOf('entry 1 unreadable unreadable\nentry 1 done clear a\n', parts);
  assert.deepEqual([look.all, look.silent, look.unwanted, look.several], [2, ['a'], ['X'], []]);
});

test('a line of a text is found without the others', () => {
  const lines = new Lines(encoded('one\ntwo\n'));
  assert.deepEqual([0, 1, 2, 3, 4, NaN].map(it => lines.at(it)), [undefined, 'one', 'two', '', undefined, undefined]);
  assert.equal(new Lines(encoded('\n'.repeat(1e6))).at(3), '');
});

test('a record is found without those behind it, and one that is not closed ends with the text', () => {
  assert.deepEqual(recordAt('a,b\nc,"d\n' + 'x'.repeat(1e6), 2), ['c', 'd\n' + 'x'.repeat(1e6)]);
  assert.deepEqual(recordAt('a\nb', 3), []);
  assert.deepEqual(eachRecord('a\n'.repeat(1e6)).next().value, ['a']);
});

test('signs that no screen shows are written out, and a text from right to left turns nothing beside it', () => {
  assert.equal(visible('a\0b\t\x1b\x7f\ufeff'), 'a\\0b\\t\\x1b\\x7f\\ufeff');
  assert.equal(visible('a\u202eb'), 'a‹right-to-left override›b');
  assert.equal(visible('\u05d0'), '\u2068\u05d0\u2069');
  assert.equal(visible('\u{1e900}'), '\u2068\u{1e900}\u2069');
  assert.equal(visible('a\u200bb\u2028c\xadd\u034fe\u{e0041}'), 'a\\u200bb\\u2028c\\xadd\\u034fe\\u{e0041}');
  assert.equal(visible('Zo\u00eb \u{1f600} \u0646\u200c'), '\u2068Zo\u00eb \u{1f600} \u0646\u200c\u2069');
  assert.equal(quoted('x\r'), '“x\\r”');
});

test('a finding is shown in its line', () => {
  const parts = {
    catalogue: given('c', 'catalogue', 'section,course,seats,credits,meetings\nX,X,1,1,\n'),
    roll: given('r', 'roll', 'student,budget,credits,courses\nann,100,5,5\n'), sessions: [],
    text: given('t', 'text', 'course-match 1\norder 1\nbudget ann 100\nstart X 0\nerror 0\nprice X 0\n'
      + 'bundle ann [X] +*n\nturn 1 ann [X] +*n\nfinal ann [X]\nused X 1 1\nend\n'),
  };
  assert.deepEqual(excerptOf('student ann tree leaf at 2', parts),
    { line: 7, column: 18, before: 'bundle ann [X] +*', marked: 'n', behind: '' });
  assert.deepEqual(excerptOf('used X', parts),
    { line: 10, column: null, before: 'used X 1 1', marked: '', behind: '' });
  assert.equal(excerptOf('turn 1 order', parts).line, 8);
  const answer = { status: 8, text: 'finding: line 3 form\n' }, call = { inputs: [] };
  const text = given('t', 'text', 'course-match 1\norder 1\nbudget \0bob 100\n');
  const { told, excerpt, causes } = refusalOf({ answer, call, parts: { ...parts, text } });
  assert.equal(told.title, 'This text does not hold');
  assert.equal(excerpt.before, 'budget \\0bob 100');
  assert.match(causes.join(' '), /begins with “budget ann”.*lacks 1 \(\\0bob\)/);
});

test('what is said of a refused text is said at once, and is short, whatever stands in the text', () => {
  const parts = {
    catalogue: given('c', 'catalogue', 'section,course,seats,credits,meetings\nX,X,1,1,\n'),
    roll: given('r', 'roll', 'student,budget,credits,courses\nann,100,5,5\n'), sessions: [],
  };
  const answer = { status: 8, text: 'finding: line 3 form\n' }, call = { inputs: [] };
  const names = Array.from({ length: 5000 }, (_, at) => `budget a${at}`).join('\n');
  for (const [line, words] of [
    ['['.repeat(2 ** 19), /begins with “budget ann”/], [`budget ${'n'.repeat(2 ** 22)}`, /lacks 1 \(n{77}\.\.\)/],
    [`budget ann [${'ab,'.repeat(2 ** 20)}]`, /c has no section ab, ab/],
    [names, /Of the first 4,000 students of the text r lacks 4,000 \(a0, a1, .* a11 and 3988 more\)/],
  ]) {
    const text = given('t', 'text', `course-match 1\norder 1\n${line}`), begun = performance.now();
    const { causes } = refusalOf({ answer, call, parts: { ...parts, text } });
    assert.ok(performance.now() - begun < 5000, line.slice(0, 20));
    assert.match(causes.join(' '), words);
    assert.ok(causes.join(' ').length < 1000, line.slice(0, 20));
  }
});
