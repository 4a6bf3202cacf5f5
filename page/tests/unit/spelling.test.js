import assert from 'node:assert/strict';
import { test } from 'node:test';

import { AS_NAMED, originalsIn, spellingBy, spellingOf } from '../../spelling.js';

const NAMES = '\ufeffkind,original,name\nsection,"GÉNI 102 B",GENI_102_B\nstudent,José Núñez,Jose_Nunez\n'
  + 'student,Ann,ann\nstudent,,bob\nstudent,Other,ann\n';
const spelling = spellingOf(new TextEncoder().encode(NAMES));

test('a name is shown as the school spells it', () => {
  assert.equal(spelling.shown('section', 'GENI_102_B'), 'GÉNI 102 B');
  assert.equal(spelling.shown('student', 'GENI_102_B'), 'GENI_102_B');
  assert.equal(spelling.shown('student', 'ann'), 'Ann');
  assert.equal(spelling.shown('student', 'bob'), 'bob');
  assert.equal(spelling.count, 3);
});

test('signs that no screen shows are written out, and what runs from right to left is kept apart', () => {
  const names = 'kind,original,name\nstudent,\u05d3\u05d5\u05d3,david\nstudent,a\u202eb,ab\n';
  const { shown } = spellingOf(new TextEncoder().encode(names));
  assert.equal(shown('student', 'david'), '\u2068\u05d3\u05d5\u05d3\u2069');
  assert.doesNotMatch(shown('student', 'ab'), /\u202e/);
});

test('where spellings do not tell names apart, the names stand beside them', () => {
  const names = 'kind,original,name\nsection,X,A\nsection, X ,B\nsection,D,C\nsection,C,E\nsection,F,F\n'
    + 'constructor,X,A\nstudent,X,A\n';
  const tables = { catalogue: ['A', 'B', 'C', 'D', 'E', 'F'].map(name => ({ name })), roll: [{ name: 'A' }] };
  const { shown } = spellingBy(originalsIn(new TextEncoder().encode(names)), tables);
  const all = ['A', 'B', 'C', 'D', 'E', 'F', 'G'].map(it => shown('section', it));
  assert.deepEqual(all, ['X (A)', ' X  (B)', 'D (C)', 'D', 'C (E)', 'F', 'G']);
  assert.equal(shown('student', 'A'), 'X');
});

test('a spelling leads back to the name, exact ones first', () => {
  assert.deepEqual(spelling.meant('student', 'José Núñez'), ['Jose_Nunez']);
  assert.deepEqual(spelling.meant('student', ' josé '), ['Jose_Nunez']);
  assert.deepEqual(spelling.meant('student', 'n'), ['Jose_Nunez', 'ann']);
  assert.deepEqual(spelling.meant('student', ''), []);
});

test('without a file names are shown as they are, and a file of other columns has none', () => {
  assert.equal(AS_NAMED.shown('student', 'ann'), 'ann');
  assert.equal(AS_NAMED.shown('section', 'A\u202eB'), 'A‹right-to-left override›B');
  assert.equal(spellingOf(new TextEncoder().encode('a,b\n1,2\n')).count, 0);
});
