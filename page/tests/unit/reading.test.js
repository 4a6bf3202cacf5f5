// Files are known by what stands in them, and read as the program reads them.

import assert from 'node:assert/strict';
import test from 'node:test';
import { encoded } from '../../bytes.js';
import { envyOf } from '../../envy.js';
import { kindOf, partsOf } from '../../files.js';
import { settingsFile, settingsIn, settingsWords, wrongField } from '../../settings.js';
import { changesIn, comparedWords } from '../../sums.js';
import { catalogueOf, meetingWords, records, rollOf } from '../../tables.js';
import { possibleOrders, sessionsWords, silentAmong } from '../../wishes.js';
import { listed, plural, quoted, shortList, timed } from '../../wording.js';
import { findingWords } from '../../words.js';

test('records are those of RFC 4180, with the line ends of every system', () => {
  assert.deepEqual(records('a,b\r\n"c,""d""",e\rf,\n\n"g\nh",i'),
    [['a', 'b'], ['c,"d"', 'e'], ['f', ''], ['g\nh', 'i']]);
  assert.deepEqual(records(''), []);
  assert.deepEqual(records('"'), [['']]);
});

test('tables are read by their columns', () => {
  const [section] = catalogueOf('section,course,seats,credits,meetings,parts\nA,B,3,2,T1030-1200;R1030-1200,1\n');
  assert.equal(meetingWords(section), 'Tue Thu 10:30-12:00, first half');
  assert.deepEqual(rollOf('student,budget,credits,courses\nann,100,5,4\n'),
    [{ at: 0, name: 'ann', base: 100, credits: 5, courses: 4, carry: 0 }]);
});

test('of a catalogue that the program did not see no word is taken for another, and no sign stays hidden', () => {
  const words = (/** @type {string} */ meetings, /** @type {string} */ parts) =>
    meetingWords(catalogueOf(`section,course,seats,credits,meetings,parts\nA,B,3,2,${meetings},${parts}\n`)[0]);
  for (const it of ['constructor', '__proto__', 'toString']) assert.equal(words('', it), 'no meetings');
  assert.equal(words('\u202eT1030-1200', '2'), '‹right-to-left override› T1:03--1:20, second half');
});

test('a file is known by its first lines, and then by its name', () => {
  for (const [name, first, kind] of [
    ['students.csv', '\ufeffstudent,sections,credits,spent,left', 'other'],
    ['rosters.csv', '\ufeffsection,student', 'other'],
    ['summary.html', '<!DOCTYPE html>', 'other'],
    ['students/000113.session', '# What 000113 said, in the order in which the desk took it.', 'own'],
    ['web.session', '# What we said\nclear 000113', 'session'],
    ['roll.next.csv', 'student,budget,credits,courses,carry', 'roll'],
    ['a', 'course-match 2', 'text'], ['a', 'section,course,seats,credits,meetings', 'catalogue'],
    ['a', '{"inputs": [], "text": null}', 'manifest'], ['a', '{"seed": 1}', 'settings'],
    ['settings.old', 'seed=1', 'settings'], ['a', 'hello', 'unknown'],
  ]) assert.equal(kindOf(name, encoded(first + '\n')), kind, name + first);
  assert.equal(kindOf('roll.csv', new Uint8Array([0x50, 0x4b, 3, 4])), 'unknown');
});

test('a file is known at once, also one whose first line has a word of a header again and again', () => {
  const begun = performance.now();
  for (const it of ['section', 'student', 'SECTION']) assert.equal(kindOf('a', encoded(it.repeat(9000))), 'unknown');
  assert.equal(kindOf('a', encoded(`${'section'.repeat(9000)},course`)), 'catalogue');
  assert.equal(kindOf('a', encoded('Section,Price\n')), 'other');
  assert.ok(performance.now() - begun < 2000);
});

test('of a market there is one file of each kind, and a manifest goes before what the files tell', async () => {
  const given = (name, kind, text = name) => ({ name, kind, bytes: encoded(text) });
  const all = [given('c.csv', 'catalogue'), given('r.csv', 'roll'), given('s.json', 'settings'), given('t', 'text')];
  const fits = await partsOf([...all, given('a.session', 'session')]);
  assert.deepEqual([fits.faults, fits.lacks], [[], []]);
  const twice = await partsOf([...all, given('r2.csv', 'roll'), given('a.session', 'session')]);
  assert.match(twice.faults[0], /the roll \(r\.csv and r2\.csv\): remove all but one/);
  const manifest = given('m.json', 'manifest', JSON.stringify({ inputs: [{ role: 'session', file: 'x/b.session' }] }));
  const named = await partsOf([...all, manifest, given('a.session', 'session'), given('b.session', 'session')]);
  assert.deepEqual(named.parts.sessions.map(it => it.name), ['b.session']);
  assert.deepEqual(named.unused.map(it => it.name), ['a.session']);
});

test('of a manifest of any length a few faults are told, each in brief', () => {
  const inputs = Array.from({ length: 5000 }, (_, at) => ({ role: 'session', file: `${'x'.repeat(90)}${at}` }));
  const manifest = { name: 'm.json', kind: 'manifest', bytes: encoded(JSON.stringify({ inputs })) };
  const { faults } = partsOf([manifest]);
  assert.equal(faults.length, 13);
  assert.match(faults[0], /^m\.json names x{77}\.\., which is not among the files/);
  assert.equal(faults[12], '4,988 more faults of it stand behind these.');
});

test('the sessions are put into the orders that have as many commands as the text says', () => {
  const given = (name, lines) => ({ name, kind: 'session', bytes: encoded('# none\n' + 'close\n'.repeat(lines)) });
  const sessions = [given('a', 2), given('b', 1), given('c', 1)];
  const orders = possibleOrders([2, 1, 1], [1, 2, 2, 3], 9);
  assert.deepEqual(orders.map(it => it.map(at => sessions[at].name).join('')), ['bac', 'cab']);
  assert.deepEqual(possibleOrders([2, 1, 1], [1, 2], 9), []);
  const [, lacking] = sessionsWords(sessions.slice(1), [1, 1, 2]);
  assert.deepEqual(silentAmong(sessions.slice(1), [1, 1, 2]), ['No line of c is a student\'s wish.']);
  assert.match(lacking, /No session of 2 commands is left for it/);
});

test('a student may be named as the program names the sum of all', () => {
  const { settled, final, totals } = envyOf('settled ann 0 1 0\nsees total [X] beyond one\nsettled total 1 0 0\n'
    + 'sees ann [X,Y] but for Y\nsettled total 1 1 0\nfinal ann 0 0 0\nfinal total 0 0 0\nfinal total 0 0 0\n');
  assert.deepEqual(settled.get('total').counts, [1, 0, 0]);
  assert.deepEqual(settled.get('total').sees, { other: 'ann', names: ['X', 'Y'], but: 'Y' });
  assert.equal(settled.get('ann').sees.but, null);
  assert.deepEqual([totals.settled, totals.final], [[1, 1, 0], [0, 0, 0]]);
  assert.equal(final.size, 2);
});

test('settings keep their digits, and are refused where no number stands', () => {
  const values = settingsIn('{"seed": 18446744073709551615, "steps": [3,\n 12], "raise": 3, "raise": 10}');
  assert.deepEqual(values, { seed: '18446744073709551615', steps: '3, 12', raise: '10' });
  assert.deepEqual(settingsIn('{"raise": 10, "\\u0072aise": 50, "x": "\\"raise\\": 1"}'), { raise: '50' });
  const all = { seed: '1', spread: '0', accept: '0', turns: '0', tabu: '1', patience: '1', steps: '3 12', raise: '0' };
  assert.equal(wrongField(all), undefined);
  assert.equal(wrongField({ ...all, turns: '1,000' }), 'turns');
  assert.equal(wrongField({ ...all, steps: '3; 12' }), 'steps');
  assert.equal(JSON.parse(new TextDecoder().decode(settingsFile(all).bytes)).steps.length, 2);
  assert.match(settingsWords('range of steps', '{}'), /a list of 1 to 16 numbers/);
  const strange = `{${Array.from({ length: 9000 }, (_, at) => `"k${at}": 1`).join()}}`;
  assert.match(settingsWords('unknown key', strange), /^It has “k0”, .*“k11” and 8988 more, which is no setting/);
});

test('findings are told in words', () => {
  assert.match(findingWords('student ann tree leaf at 7'), /ann, .* its first 7 characters another bound is due/);
  assert.match(findingWords('seats X 3 of 2'), /3 students have X, which has 2 seats/);
  assert.equal(findingWords('something new'), 'something new');
});

test('numbers and names stand in sentences', () => {
  assert.equal(listed(['A', 'B', 'C']), 'A, B and C');
  assert.equal(listed([]), 'nothing');
  assert.equal(plural(1, 'pass', 'passes') + plural(2, 'pass', 'passes'), '1 pass2 passes');
  assert.equal(shortList(Array.from({ length: 14 }, (_, at) => String(at))).endsWith('11 and 2 more'), true);
  assert.equal(timed(0.2) + timed(3449), '1 ms3.4 s');
  assert.equal(quoted('x'.repeat(90)).length, 81);
});

test('a published sum is compared in each of the ways in which it is pasted', () => {
  const sum = 'ab'.repeat(32);
  assert.match(comparedWords(` ${sum.toUpperCase()}  course-match.wasm`, sum), /^It is the sum/);
  assert.match(comparedWords('00'.repeat(32), sum), /^It is not the sum/);
  assert.match(comparedWords(sum.slice(1), sum), /no SHA-256/);
  assert.equal(comparedWords(' ', sum), '');
  const about = { sums: { module: sum, example: sum, worker: sum } };
  assert.deepEqual(changesIn({ sums: { module: sum, example: sum, worker: sum } }, about), []);
  assert.deepEqual(changesIn({ sums: { module: null, example: null, worker: null } }, about), []);
  const [change] = changesIn({ sums: { module: sum, example: '', worker: sum } }, about);
  assert.match(change, /^The example term of this page/);
});
