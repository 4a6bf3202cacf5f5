import assert from 'node:assert/strict';
import { test } from 'node:test';

import { heldPrices, lineOf, wayWords, yesWords } from '../../answer_view.js';
import { explainedIn, explanationOf, judgedStages, linesInText, stagesOf, unjudgedWords } from '../../one_student.js';
import { menuOf } from '../../reckoning.js';
import { AS_NAMED } from '../../spelling.js';
import { briefReason, briefWorth, longReason, shortReason, stagesName } from '../../stage_words.js';
import { changesOf, countsOf, turnsOf } from '../../texts.js';
import { heldSince, signRuns } from '../../signs_view.js';
import { triedOf } from '../../what_if_view.js';
import { briefAnswer, firstAnswer, laterAnswer, missedSections, missedWords, turnWords } from '../../why_view.js';
import { grouped, plural, tokens } from '../../wording.js';
import { term } from './vectors.js';

const market = /** @type {any} */ ({ ...term(), spelling: AS_NAMED });
const student = market.roll.findIndex((/** @type {Student} */ it) => it.name === 'n.jones');
const stages = stagesOf(market, student);

/** The paragraphs that unfold. */
const shortAnswer = (/** @type {any} */ of, /** @type {any[]} */ ...[at, among, name, replies, ifFree]) =>
  [firstAnswer(of, at, name, replies), laterAnswer(of, at, among, name, replies, ifFree)?.words]
    .filter(Boolean).join(' ');

const GIVES = 'n.jones would have had to give something up for it:';

test('stages are the second one and each turn as it stood', () => {
  assert.deepEqual(stages.map(it => it.pass), [0, 1, 2, 3, 4, 5]);
  assert.deepEqual([...new Set(stages.map(it => it.budget))], [4542, 4996]);
  assert.deepEqual(stages[2].before, ['ACCT-611-B', 'FNCE-601-A', 'HCMG-841-A']);
  assert.ok(stages[2].allowed.has('MGMT-691-B') && !stages[1].allowed.has('MGMT-691-B'));
  assert.deepEqual([stagesName(stages[0], stages[0]), stagesName(stages[3], stages[5])],
    ['Second stage', 'Aftermarket, passes 3 to 5']);
});

test('what is held on is one list, and at each turn that was free which the others had left', () => {
  const { text, catalogue, roll } = market, held = text.bundles.map((/** @type {Bundle} */ it) => it.names);
  const changed = [], stood = roll.map(() => []);
  for (const it of text.turns) {
    const counts = countsOf(held, catalogue), before = held[it.student], isSame = before.join() === it.names.join();
    const free = new Map(catalogue.map((/** @type {Section} */ { name, seats }) => [name, seats - counts.get(name)]));
    stood[it.student].push({ before, free });
    assert.equal(before === it.names, isSame);
    if (!isSame) changed.push(it.number);
    held[it.student] = it.names;
  }
  const own = (/** @type {Student} */ it) => turnsOf(market, it.at).map(({ before, free }) => ({ before, free }));
  for (const it of roll) assert.deepEqual(own(it), stood[it.at]);
  assert.deepEqual(changesOf(market).map(it => it.number), changed);
  assert.ok(changed.length && changed.length < text.turns.length);
  assert.deepEqual(text.finals, held);
  assert.ok(text.finals.every((/** @type {string[]} */ it, /** @type {number} */ at) => it === held[at]));
});

test('the signs of each bundle can be chosen, equal ones that follow each other once', () => {
  const menu = menuOf(market, student), runs = signRuns(stages, menu);
  assert.deepEqual(runs.map(({ stage, last }) => stagesName(stage, last)),
    ['Second stage', 'Aftermarket, pass 1', 'Aftermarket, pass 2', 'Aftermarket, passes 3 to 5']);
  assert.equal(runs[0].stage.tree, '++--------+*nb5b1');
  const others = stages.map(it => it.pass === 5 ? { ...it, allowed: new Set([...it.allowed, 'FNCE-717-A']) } : it);
  assert.deepEqual(signRuns(others, menu).slice(3).map(it => it.stage.pass), [3, 5]);
});

test('the stage since which the bundle of the end is held', () => {
  assert.equal(heldSince(stages).pass, 2);
  assert.equal(heldSince(stages.slice(0, 2)).pass, 0);
  const again = ['A', 'B', 'A'].map((it, pass) => /** @type {any} */ ({ names: [it], pass }));
  assert.equal(heldSince(again).pass, 2);
});

test('the first line says each budget, and what is held says of which one its prices are', () => {
  assert.equal(yesWords(market, student, true), 'Yes: at these prices nothing better was to be had for 4,542 tokens, '
    + 'nor at the turns of n.jones in the aftermarket for 4,996, which is 4,542 raised by 10 percent.');
  assert.equal(yesWords(market, student, false), 'Yes: at these prices nothing better was to be had for 4,542 tokens.');
  const held = ', worth 262 by the ratings of n.jones, prices together 4,930 of the raised 4,996 tokens.';
  assert.equal(heldPrices(market, student), held);
  const second = market.text.bundles.map((/** @type {Bundle} */ it) => it.names);
  const same = { ...market, text: { ...market.text, finals: second } };
  assert.match(heldPrices(same, student), /^, worth 260 by the .* prices together 3,914 of 4,542 tokens\.$/);
  const silent = { ...market, wishes: new Map() };
  assert.equal(heldPrices(silent, student), ', prices together 4,930 of the raised 4,996 tokens.');
  const nothing = { ...market, text: { ...market.text, finals: market.text.finals.map(() => []) } };
  assert.equal(heldPrices(nothing, student), '.');
});

test('what was bought first stands beside what the turns made of it', () => {
  assert.equal(wayWords(market, student, stages), 'First n.jones bought a bundle with HCMG-841-A, worth 260; at turns '
    + 'in the aftermarket n.jones took MGMT-691-B and gave up HCMG-841-A (pass 2).');
  const again = { ...stages[3], before: stages[3].names, names: ['ACCT-611-B'] };
  assert.match(wayWords(market, student, [...stages.slice(0, 3), again]),
    /gave up HCMG-841-A \(pass 2\); gave up FNCE-601-A and MGMT-691-B \(pass 3\)\.$/);
  assert.equal(wayWords(market, student, stages.slice(0, 2)), '');
});

test('each stage is judged by the finding of its own market, and a stopped call judges nothing', async () => {
  const answers = [
    { status: 0, text: 'accepted\n' }, { status: 8, text: 'finding: student n.jones tree open at 3\n' },
    { status: 'stopped', text: '' },
  ];
  /** @type {string[]} */
  const asked = [];
  const ask = async (/** @type {string} */ _, /** @type {any} */ call) => {
    asked.push(call.words[0]);
    return /** @type {any} */ (answers[Math.min(asked.length, 3) - 1]);
  };
  const judged = await judgedStages(ask, market, student);
  assert.deepEqual(judged.slice(0, 2).map(it => it.finding), [null, 'student n.jones tree open at 3']);
  assert.match(judged[2].unjudged, /stopped/);
  assert.deepEqual(new Set(asked), new Set(['check']));
});

test('a budget that no roll can give to one student alone is not asked about', async () => {
  assert.equal(unjudgedWords({ budget: 900000 }), '');
  assert.match(unjudgedWords({ budget: 900001 }), /900,001 tokens is more than a roll can give, which is 900,000 at/);
});

test('what explain prints is read, and where it refuses the answer is handed on', async () => {
  const text = 'n.jones FNCE-717-A beside price\nbest [ACCT-611-B,FNCE-717-A] 188\nlost 72\ntree ++x\n';
  const told = explanationOf(text);
  assert.deepEqual(told,
    { reason: 'beside price', best: ['ACCT-611-B', 'FNCE-717-A'], worth: 188, lost: 72, tree: '++x' });
  const answer = /** @type {any} */ ({ status: 8, text: 'finding: x\n' });
  const asked = await explainedIn(async () => answer, market, student, stages[0], 'FNCE-717-A');
  assert.equal('answer' in asked && asked.answer, answer);
});

test('reasons are short for a line and long below it; a tie is said to be one', () => {
  const told = { reason: 'beside price', best: ['ACCT-611-B', 'FNCE-717-A'], worth: 188, lost: 72, tree: '' };
  assert.equal(shortReason(market, student, stages[0], 'FNCE-717-A', told), 
    'n.jones would have had to give something up for it: its price is 3,252, and what n.jones bought left 628 of 4,542 '
      + 'tokens (by the ratings of n.jones the best with it was worth 188, without it 260)');
  const [why, best] = longReason(market, student, stages[0], 'FNCE-717-A', told);
  assert.match(why, /whose prices together are 3,914\. Of its budget of 4,542 that leaves 628/);
  assert.match(best, /prices together 4,103\), worth 188 by the ratings of n\.jones.*worth 260, 72 more\./);
  const tie = { ...told, worth: 260, lost: 0 };
  assert.match(shortReason(market, student, stages[0], 'FNCE-717-A', tie), /\(a tie: with it the best is worth as/);
  assert.match(longReason(market, student, stages[0], 'FNCE-717-A', tie)[1], /as much: a tie; of bundles of equal/);
});

test('of a turn the reason speaks of the raised budget and of what was held', () => {
  const told = { reason: 'beside price', best: ['LGST-806-A'], worth: 88, lost: 174, tree: '' };
  assert.equal(shortReason(market, student, stages[2], 'LGST-806-A', told), 
    'n.jones would have had to give something up for it: its price is 2,670, and what n.jones took left 66 of 4,996 '
      + 'tokens (by the ratings of n.jones the best with it was worth 88, without it 262)');
  const [why, best] = longReason(market, student, stages[2], 'LGST-806-A', told);
  assert.match(why, /n\.jones took ACCT-611-B, FNCE-601-A and MGMT-691-B, whose prices together are 4,930/);
  assert.match(best, /of what was held and what was free/);
});

test('what was left is of something, and a reason names who is spoken of', () => {
  const short = (/** @type {string} */ reason, /** @type {string} */ name, other = '') =>
    shortReason(market, student, stages[0], name, { reason, other });
  assert.equal(short('beside credits', 'FNCE-717-A'),
    `${GIVES} it has 2 credits, and what n.jones bought left 2 of 8 credits`);
  assert.equal(short('beside courses', 'FNCE-717-A'),
    `${GIVES} n.jones bought 5 sections, and the roll allows no more`);
  assert.equal(short('clash', 'FNCE-601-B', 'FNCE-601-A'),
    `${GIVES} it is of the same course as FNCE-601-A, which n.jones bought`);
  assert.equal(short('alone price', 'FNCE-717-A'), 'its price is 3,252, more than the whole budget of 4,542 tokens');
  assert.equal(short('held', 'HCMG-841-A'), 'n.jones bought it, and gave it up later for a better bundle');
  const turns = [1, 2].map(it => shortReason(market, student, stages[it], 'HCMG-841-A', { reason: 'held' }));
  assert.deepEqual(turns.map(it => it.split(' ')[1]), ['kept', 'took']);
});

test('a bundle that is worth as much as the one given up is said to be as good', () => {
  const wishes = market.wishes.get('n.jones'), told = { reason: 'held' };
  const ratings = new Map(wishes.ratings).set('MGMT-691-B', wishes.ratings.get('HCMG-841-A'));
  const equal = { ...market, wishes: new Map(market.wishes).set('n.jones', { ...wishes, ratings, pairs: [] }) };
  const words = (/** @type {any} */ of, /** @type {number} */ at) =>
    [shortReason, longReason].map(it => String(it(of, student, stages[at], 'HCMG-841-A', told)));
  assert.match(words(equal, 0)[0], /^n\.jones bought it, and gave it up later for a bundle that is as good, which the/);
  assert.match(words(equal, 0)[1], /second stage, and gave it up in the aftermarket for a bundle that is as good.*ear/);
  assert.match(words(equal, 1)[1], /kept HCMG-841-A, and gave it up later for a bundle that is as good/);
  assert.match(words(market, 0)[1], /gave it up in the aftermarket for a bundle that it prefers\.$/);
});

test('why not says what was free when the aftermarket began, and what at the turns', () => {
  const counts = countsOf(market.text.bundles.map((/** @type {Bundle} */ it) => it.names), market.catalogue);
  const counted = { ...market, counts }, told = { reason: 'beside price' };
  const reply = (/** @type {Stage} */ stage, last = stage, of = told) => ({ stage, last, told: of });
  const short = (/** @type {string} */ name, /** @type {any[]} */ ...later) =>
    shortAnswer(counted, student, stages, name, [reply(stages[0]), ...later], null);
  assert.equal(short('FNCE-717-A'), `${GIVES} its price is 3,252, and what n.jones bought left 628 of 4,542 tokens. `
    + 'Aftermarket: 8 of 12 seats were free when it began, and none at any turn of n.jones.');
  const ifFree = (/** @type {'nothing' | 'taken'} */ it) => shortAnswer(counted, student, stages, 'FNCE-717-A',
    [reply(stages[0])], it);
  assert.match(ifFree('nothing'), / any turn of n\.jones\. With a free seat too n\.jones would not have taken it\.$/);
  assert.match(ifFree('taken'), /none at any turn of n\.jones\. With a free seat n\.jones would have taken it\.$/);
  assert.match(turnWords(market, student, 'nothing'), / 100 of 100\. With a free seat too n\.jones would not have /);
  assert.match(turnWords(market, student, 'taken'), / would have taken it at one of these turns, by the program\.$/);
  assert.match(turnWords(market, student, null), /is number 100 of 100\.$/);
  const full = { ...counted, counts: new Map([['FNCE-717-A', 12]]) };
  assert.match(shortAnswer(full, student, stages, 'FNCE-717-A', [reply(stages[0])], null),
    /Aftermarket: no seat was free when it began, nor at any turn of n\.jones\.$/);
  const one = { ...counted, counts: new Map([['FNCE-717-A', 11]]) };
  assert.match(shortAnswer(one, student, stages.slice(0, 2), 'FNCE-717-A', [reply(stages[0])], null),
    /1 of 12 seats was free when it began, and none at the turn of n\.jones\.$/);
  assert.match(short('LGST-806-A', reply(stages[1]), reply(stages[2], stages[5])),
    /its price is 2,670, .* pass 5: \d of 9 seats were free at the turn of n\.jones, but what n\.jones took left 66/);
  assert.match(short('MGMT-691-B', reply(stages[2], stages[2], { reason: 'held' }), reply(stages[3])),
    / Aftermarket, pass 2: n\.jones took it, and gave it up later for a better bundle\.$/);
  const [first, later] = [[188, 72], [190, 72]].map(([worth, lost]) => ({ ...told, worth, lost }));
  const line = (/** @type {any} */ one, /** @type {any} */ other) => shortAnswer(counted, student, stages, 'LGST-806-A',
    [reply(stages[0], stages[0], one), reply(stages[2], stages[5], other)], null);
  assert.match(line(first, later),
    /left 628 of .* 188, without it 260\)\..* left 66 of .* \(.* 190, without it 262\)\.$/);
  assert.match(line(first, first), /left 628 of .* 188, without it 260\)\..* left 66 of 4,996 tokens\.$/);
  const clash = { reason: 'clash', other: 'FNCE-601-A' };
  const both = [reply(stages[0], stages[0], clash), reply(stages[3], stages[5], clash)];
  assert.equal(shortAnswer(counted, student, stages, 'FNCE-601-B', both, null), `${GIVES} it is of the same course as `
    + 'FNCE-601-A, which n.jones bought. '
    + 'Aftermarket, pass 5: 2 of 20 seats were free at the turn of n.jones, but the same holds.');
});

test('the line that unfolds is a short sentence, and has no more than the program said', () => {
  const brief = (/** @type {string} */ reason, other = '', more = {}) =>
    briefReason(market, student, stages[0], 'FNCE-601-B', { reason, other, ...more });
  const reasons = ['beside price', 'beside credits', 'beside courses', 'unrated', 'alone courses', 'less',
    'alone price', 'alone credits'];
  assert.deepEqual(reasons.map(it => brief(it)), [
    'too dear with the rest', 'too many credits with the rest', 'one section too many with the rest',
    'not rated above 0', 'the roll allows no section at all', 'worth no more with it, by the adjustments',
    'its price of 1,928 is above the whole budget', 'its credits, 2, are more than the roll allows',
  ]);
  assert.equal(brief('clash', 'FNCE-601-A'), 'same course as FNCE-601-A');
  const other = market.catalogue.find((/** @type {Section} */ it) => it.name === 'FNCE-601-B');
  const moved = { ...other, name: 'M', course: 'M' }, sectionOf = new Map(market.sectionOf).set('M', moved);
  assert.equal(briefReason({ ...market, sectionOf }, student, stages[0], 'FNCE-601-B', { reason: 'clash', other: 'M' }),
    'same time as M');
  const held = [0, 1, 2].map(it => briefReason(market, student, stages[it], 'HCMG-841-A', { reason: 'held' }));
  assert.deepEqual(held.map(it => it.split(',')[0]), ['bought', 'kept', 'taken']);
  assert.equal(briefWorth({ reason: 'beside price', worth: 188, lost: 72 }), ': worth 188 with it, 260 without');
  assert.equal(briefWorth({ reason: 'clash', worth: 260, lost: 0 }), ': a tie, worth as much with it');
  assert.equal(briefWorth({ reason: 'alone price' }), '');
});

test('a question and its aftermarket have a line each, the question the one that decided', () => {
  const counts = countsOf(market.text.bundles.map((/** @type {Bundle} */ it) => it.names), market.catalogue);
  const counted = { ...market, counts }, told = { reason: 'beside price', worth: 188, lost: 72 };
  const reply = (/** @type {Stage} */ stage, last = stage, /** @type {Explanation} */ of = told) =>
    ({ stage, last, told: of });
  const lines = (/** @type {string} */ name, /** @type {any[]} */ replies, /** @type {any} */ ifFree = null) => {
    const later = laterAnswer(counted, student, stages, name, replies, ifFree);
    return [briefAnswer(counted, student, name, replies, ifFree), later && `${later.title}: ${later.brief}`];
  };
  assert.deepEqual(lines('FNCE-717-A', [reply(stages[0])], 'nothing'), [
    'Too dear with the rest: worth 188 with it, 260 without.',
    'Aftermarket: no seat was free at any turn of n.jones.',
  ]);
  assert.equal(lines('FNCE-717-A', [reply(stages[0])], 'taken')[0],
    'Too dear with the rest; in the aftermarket no seat was free.');
  assert.deepEqual(lines('LGST-806-A', [reply(stages[0]), reply(stages[2])]), [
    'Too dear with the rest: worth 188 with it, 260 without.',
    'Aftermarket, pass 2: 1 of 9 seats was free; too dear with the rest.',
  ]);
  const held = { reason: 'held' }, gone = 'Aftermarket, pass 1: kept, and given up later for a better bundle.';
  assert.deepEqual(lines('HCMG-841-A', [reply(stages[0]), reply(stages[1], stages[1], held)]), [gone, gone]);
  const first = 'Bought, and given up later for a better bundle.';
  assert.deepEqual(lines('HCMG-841-A', [reply(stages[0], stages[0], held), reply(stages[1], stages[1], held)]),
    [first, gone]);
  assert.deepEqual(lines('HCMG-841-A', [reply(stages[0], stages[0], held)]), [first, null]);
});

test('sections that are missed stand by rating, those above the least of the held first', () => {
  const { higher, others } = missedSections(market, student);
  assert.deepEqual(higher.map(it => it.rating), [100, 100, 100, 98, 88, 86, 76]);
  assert.deepEqual(others.map(it => it.name), ['HCMG-841-A']);
  assert.equal(missedWords(market, student, 7), 'n.jones rated these sections higher than MGMT-691-B (rated 74), the '
    + 'lowest of those that n.jones holds in the end:');
  assert.match(missedWords(market, student, 0), /^n\.jones rated no other section higher than MGMT-691-B \(rated 74\)/);
});

test('the lines of the text have their numbers', () => {
  const lines = linesInText(market, student);
  assert.deepEqual(lines[0], { number: 66, text: 'budget n.jones 4542' });
  assert.equal(lines.at(-1).text, 'final n.jones [ACCT-611-B,FNCE-601-A,MGMT-691-B]');
});

test('the line of a bundle is the one that the text has it in', () => {
  const lines = new TextDecoder().decode(market.parts.text.bytes).split('\n');
  const at = (/** @type {number} */ pass) => lines[lineOf(market, student, { pass }) - 1].split(' [')[0];
  assert.deepEqual([0, 1, 5].map(at), ['bundle n.jones', 'turn 1 n.jones', 'turn 5 n.jones']);
});

test('what is tried is a rating and a budget, or is told to be none', () => {
  assert.deepEqual(triedOf('', '', '900000'), { budget: 900000 });
  assert.deepEqual(triedOf('A', '7', ' 5 '), { section: 'A', points: 7, budget: 5 });
  for (const it of ['900001', '-1', '1,000', '']) assert.match(String(triedOf('', '', it)), /from 0 to 900,000/);
  assert.match(String(triedOf('A', '101', '5')), /0 to 100/);
});

test('numbers have a comma between thousands', () => {
  assert.deepEqual([0, 999, 1000, 1234567, -1000, 0.12345].map(grouped),
    ['0', '999', '1,000', '1,234,567', '-1,000', '0.12345']);
  assert.deepEqual([1, 2, 3691].map(tokens), ['1 token', '2 tokens', '3,691 tokens']);
  assert.equal(plural(2000, 'student'), '2,000 students');
});
