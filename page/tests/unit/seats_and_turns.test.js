import assert from 'node:assert/strict';
import { test } from 'node:test';

import { findingWithoutRatings, turnOrder } from '../../seats_and_turns.js';
import { cases, marketOfCase, term } from './vectors.js';

const NEEDS_NO_RATINGS = /^finding: (?:student \S+ unaffordable|seats|turn \d+ (?:order|taken)|not quiet|final|used)/;
const OF_FORM_OR_ORDER = /^finding: (?:line|journal|budget)|^input/;

test('what needs no ratings is found as check finds it, and nothing else is', () => {
  let found = 0;
  for (const it of cases('check').filter(it => !OF_FORM_OR_ORDER.test(it.stdout))) {
    const finding = findingWithoutRatings(/** @type {any} */ (marketOfCase(it)));
    if (NEEDS_NO_RATINGS.test(it.stdout)) {
      assert.equal(`finding: ${finding}\n`, it.stdout, it.name);
      found++;
    } else if (it.status === 0) assert.equal(finding, null, it.name);
  }
  assert.ok(found > 8 || !cases('check').length);
});

test('nothing is found in the text of the example term', () => {
  assert.equal(findingWithoutRatings(/** @type {any} */ (term())), null);
});

test('caps and clashes are kept without a look at ratings', () => {
  const market = /** @type {any} */ (term());
  const at = market.roll.findIndex((/** @type {any} */ it) => it.name === 'n.jones');
  market.text.bundles[at] = { ...market.text.bundles[at], names: ['ACCT-611-A', 'ACCT-611-B'] };
  assert.equal(findingWithoutRatings(market), 'student n.jones infeasible');
});

test('turns go by budget, equal ones by the roll', () => {
  assert.deepEqual(turnOrder([3, 5, 3, 9]), [3, 1, 0, 2]);
});
