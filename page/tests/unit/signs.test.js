import assert from 'node:assert/strict';
import { test } from 'node:test';

import { walkOf } from '../../reckoning.js';
import { boundsMean, meanings, waysWords } from '../../sign_key.js';
import { beginsWith, championOf, pairedWorth, pastedSigns, points, stepsOf } from '../../signs.js';
import { treeAt, turnsOf } from '../../texts.js';
import { cases, marketOfCase, term } from './vectors.js';

/** The trees of a market: how each is walked, and its text. @param {any} market */
function treesOf(market) {
  return market.roll.flatMap((/** @type {Student} */ { at, name }) => {
    const budget = market.text.budgets[at], bundle = market.text.bundles[at], { names } = bundle;
    const tree = (/** @type {PrintedBundle} */ it) => treeAt(market.parts.text.bytes, it);
    const raised = budget + Math.floor(budget * market.settings.raise / 100);
    return [
      { name, walk: walkOf(market, at, { budget, champion: names }), tree: tree(bundle) },
      ...turnsOf(market, at).map(turn => ({
        name: `${name} pass ${turn.pass}`, tree: tree(turn),
        walk: walkOf(market, at, { budget: raised, allowed: turn.allowed, champion: turn.names }),
      })),
    ];
  });
}

/** A student's bundle of the second stage, with its tree. @param {any} market @param {number} student */
function bundleOf(market, student) {
  const bundle = market.text.bundles[student];
  return { names: bundle.names, tree: treeAt(market.parts.text.bytes, bundle) };
}

const lastStep = (/** @type {Walk} */ walk, /** @type {string} */ tree) => [...stepsOf(walk, tree)].at(-1);

test('each sign of the trees of an accepted text is the one that is due', () => {
  let count = 0;
  for (const it of cases('check').filter(it => it.status === 0)) {
    for (const { name, walk, tree } of treesOf(marketOfCase(it))) {
      assert.equal(lastStep(walk, tree).kind, 'end', `${it.name}: ${name}`);
      assert.deepEqual(championOf(tree), { champion: walk.champion, forced: null });
      count++;
    }
  }
  for (const { name, walk, tree } of treesOf(term())) assert.equal(lastStep(walk, tree).kind, 'end', name);
  assert.ok(count > 20 || !cases('check').length);
});

test('a tree that does not fit is told at the byte that the finding names', () => {
  for (const it of cases('check')) {
    const [, student, at] = /^finding: student (\S+) tree \w+ at (\d+)\n$/.exec(it.stdout) ?? [];
    if (!student) continue;
    const market = /** @type {any} */ (marketOfCase(it));
    const place = market.roll.findIndex((/** @type {Student} */ that) => that.name === student);
    const { names, tree } = bundleOf(market, place);
    const last = lastStep(walkOf(market, place, { budget: market.text.budgets[place], champion: names }), tree);
    assert.deepEqual([last.kind, last.at], ['fault', Number(at)], it.name);
  }
});

test('a forced tree of explain is walked to its end', () => {
  let count = 0;
  for (const it of cases('explain')) {
    const [first, best, , tree] = it.stdout.split('\n');
    if (!tree?.startsWith('tree ')) continue;
    const market = marketOfCase(it), [name, forced] = first.split(' ');
    const student = market.roll.findIndex(that => that.name === name), budget = market.text.budgets[student];
    const champion = best.split(' ')[1].slice(1, -1).split(',');
    const walk = walkOf(/** @type {any} */ (market), student, { budget, champion, forced });
    assert.equal(lastStep(walk, tree.slice(5)).kind, 'end', it.name);
    assert.deepEqual(championOf(tree.slice(5)), { champion: walk.champion, forced: walk.forced });
    count++;
  }
  assert.ok(count > 3 || !cases('explain').length);
});

test('the signs of n.jones are read as the guide reads them', () => {
  const market = /** @type {any} */ (term());
  const student = market.roll.findIndex((/** @type {any} */ it) => it.name === 'n.jones');
  const { names, tree } = bundleOf(market, student);
  const steps = [...stepsOf(walkOf(market, student, { budget: 4542, champion: names }), tree)];
  assert.deepEqual(steps.map(it => it.sign), ['+', '+', ...'--------', '+', '*', 'n', 'b5', 'b1', '']);
  const told = steps.map(it => `${it.section} ${it.words}`.trim());
  assert.equal(told[0], 'ACCT-611-B is taken (rating 88, price 851): left are 3,691 of 4,542 tokens, 6 of 8 credits '
    + 'and 4 of 5 sections.');
  assert.deepEqual(told.slice(2, 4), ['FNCE-601-B is left out: it is of the same course as FNCE-601-A.',
    'FNCE-717-A is left out: it has the price 3,252, and 1,749 tokens are left beside ACCT-611-B and FNCE-601-A.']);
  assert.equal(told[1], 'FNCE-601-A is taken beside ACCT-611-B (rating 100, price 1,942): left are 1,749 of 4,542 '
    + 'tokens, 4 of 8 credits and 3 of 5 sections.');
  assert.equal(told[11], 'This is the bundle: ACCT-611-B, FNCE-601-A and HCMG-841-A, worth 260. Nothing is left to '
    + 'decide.');
  assert.deepEqual(steps.map(it => it.back).slice(11), ['', 'Back at HCMG-841-A, now without it:',
    'Back at FNCE-601-A, now without it:', 'Back at ACCT-611-B, now without it:', '']);
  assert.equal(told[12], 'With ACCT-611-B and FNCE-601-A, worth 188, and no other section up to HCMG-841-A: nothing '
    + 'else can come to it. So at most 188, less than the 260 of the bundle.');
  assert.match(told[13], /2,989 tokens bring 109 \(its rating 100, and 9 more by pairs: two sections that were said/);
  assert.match(told[13], /together\): 0\.036 points a token, rounded down\. With all that is left at that rate/);
  assert.match(told[13], / = 260\.508\. Worth is a whole number, so at most 260, as much as the bundle; and a tie/);
  assert.match(told[13], /tie goes to the bundle, which alone has FNCE-601-A: the first section, in the order of the/);
  assert.match(told[14], / = 247\.429\. Worth is a whole number, so at most 247, less than the 260 of the bundle\.$/);
  assert.match(told[15], /was looked at or ruled out, and none is better/);
});

test('a sign says that a section is taken or left out, and no number of a place stands beside it', () => {
  const words = [...stepsOf(...treeOfJones())].map(it => `${it.back} ${it.section} ${it.words}`).join(' ');
  assert.doesNotMatch(words, /may (not )?be taken|[Pp]lace \d/);
  assert.deepEqual([...words.matchAll(/number (\d+)/g)].map(it => it[1]), ['5', '1']);
});

test('the key has the signs that occur and no others, each bound with its own section', () => {
  const [walk, tree] = treeOfJones(), key = meanings(tree, walk);
  assert.deepEqual(key.map(it => it.sign), ['+', '-', '*', 'n', 'b5', 'b1']);
  assert.equal(key[4].words, 'stop: even with the tokens left spent as well as on MGMT-690-A (number 5), or better '
    + 'where a section brings more for a token, the bundle is not beaten');
  assert.equal(key[5].words, 'the same with FNCE-601-A (number 1)');
  assert.match(key[1].words, /left out: it is of the same course as one that is taken, .* too little is left for it$/);
  assert.match(meanings('-', { ...walk, allowed: new Set() })[0].words, /, or it had no free seat$/);
  assert.equal(waysWords(tree), 'Each + opens two ways, with the section and without it, and each way ends in * or n '
    + 'or b: so no bundle was missed.');
  assert.equal(waysWords('*'), '');
  const bounds = boundsMean('m0m1m2m3m4m5m6m7m7', 'm', walk.menu);
  assert.deepEqual(bounds.map(it => it.sign), ['m0', 'm1', 'm2', 'm3', 'm4', 'm5', 'm..']);
  assert.match(bounds[6].words, /^the same with \S+ \(number 6\) and \S+ \(number 7\)$/);
});

/** The second stage of n.jones: how its tree is walked, and the tree. @returns {[Walk, string]} */
function treeOfJones() {
  const market = /** @type {any} */ (term());
  const student = market.roll.findIndex((/** @type {any} */ it) => it.name === 'n.jones');
  const { names, tree } = bundleOf(market, student);
  return [walkOf(market, student, { budget: 4542, champion: names }), tree];
}

test('each place that a sign speaks of has its section beside it', () => {
  const [walk, tree] = treeOfJones(), words = [...stepsOf(walk, tree)].map(it => it.words);
  assert.match(words[13], /^With ACCT-611-B, worth 88, and no other section up to FNCE-601-A: 3,691 tokens are left\./);
  assert.match(words[14], /^Without ACCT-611-B nothing is taken yet: 4,542 tokens are left\. At FNCE-601-A \(/);
  assert.equal(beginsWith(walk, [0, 1], 2, 188), 'With ACCT-611-B and FNCE-601-A, worth 188:');
  assert.equal(beginsWith(walk, [], 0, 0), 'At first nothing is taken yet:');
  assert.equal(beginsWith(walk, [], 2, 0), 'Without the sections up to FNCE-601-A nothing is taken yet:');
  assert.deepEqual([pairedWorth(5, 5), pairedWorth(5, 2)], ['5', '2 (its rating 5, and 3 less by pairs: two sections '
    + 'that were said to be worth more, or less, together)']);
  assert.deepEqual([36, 260508, 1260000].map(points), ['0.036', '260.508', '1,260']);
});

test('sections are spelt as the school spells them', () => {
  const shown = (/** @type {string} */ _, /** @type {string} */ name) => `<${name}>`;
  const market = /** @type {any} */ ({ ...term(), spelling: { shown } });
  const student = market.roll.findIndex((/** @type {any} */ it) => it.name === 'n.jones');
  const { names, tree } = bundleOf(market, student), walk = walkOf(market, student, { budget: 4542, champion: names });
  const words = [...stepsOf(walk, tree)].map(it => `${it.back} ${it.section} ${it.words}`).join(' ');
  assert.ok(words.includes('<ACCT-611-B>') && !/[^<]ACCT-611-B/.test(words) && !/[^<]FNCE-601-B/.test(words));
});

test('signs that do not fit name what is due', () => {
  const market = /** @type {any} */ (term());
  const student = market.roll.findIndex((/** @type {any} */ it) => it.name === 'n.jones');
  const { names, tree } = bundleOf(market, student);
  const walk = walkOf(market, student, { budget: 4542, champion: names });
  assert.match(lastStep(walk, tree.replace('b5', 'b6')).words, /“b6” stands here.*“b5” is due/);
  assert.match(lastStep(walk, tree + 'n').words, /“n” stands here.*nothing more is due/);
  assert.match(lastStep(walk, tree.slice(0, -2)).words, /the signs end here.*“b1” is due/);
  assert.match(lastStep(walk, '?').words, /“\?” stands here/);
  const short = walkOf(market, student, { budget: 4542, champion: names.slice(0, 2) });
  assert.match(lastStep(short, tree).words, /HCMG-841-A are worth 260, better than the 188 of the bundle/);
  assert.equal(championOf('+-'), null);
});

test('what is pasted is a line of the text, of explain, or signs alone', () => {
  assert.deepEqual(pastedSigns('bundle ann [A,B] ++*nn\n'),
    { tree: '++*nn', bundle: ['A', 'B'], student: 'ann', pass: undefined });
  assert.deepEqual(pastedSigns('turn 2 ann [] *'), { tree: '*', bundle: [], student: 'ann', pass: 2 });
  assert.deepEqual(pastedSigns('tree ++x+x!n'), { tree: '++x+x!n' });
  assert.deepEqual(pastedSigns(' ++*\nnn '), { tree: '++*nn' });
  const turned = pastedSigns('bundle a\u202eb [A\0] +\u200b*');
  assert.deepEqual([turned.student, turned.bundle, turned.tree], ['a‹right-to-left override›b', ['A\\0'], '+\\u200b*']);
});
