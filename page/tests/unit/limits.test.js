// The limits that the page knows, beside those of the program's source.
import assert from 'node:assert/strict';
import { readFileSync } from 'node:fs';
import { test } from 'node:test';

import { MOST_BASE } from '../../alone.js';
import { MOST_SECTIONS, MOST_STUDENTS } from '../../tables.js';
import { MOST_ADJUSTMENT, MOST_PAIRS, MOST_RATED, MOST_RATING } from '../../wish_list.js';

const SOURCE = new URL('../../../crates/market_units/src/limits.rt', import.meta.url);
const LIMITS = Object.fromEntries([...readFileSync(SOURCE, 'utf8').matchAll(/^pub const (\w+): \w+ = ([\d_]+);/gm)]
  .map(([, name, digits]) => [name, Number(digits.replaceAll('_', ''))]));

test('each limit is the program\'s', () => {
  assert.deepEqual(
    { MOST_BASE, MOST_SECTIONS, MOST_STUDENTS, MOST_ADJUSTMENT, MOST_PAIRS, MOST_RATED, MOST_RATING },
    {
      MOST_BASE: LIMITS.MAX_BASE, MOST_SECTIONS: LIMITS.MAX_SECTIONS, MOST_STUDENTS: LIMITS.MAX_STUDENTS,
      MOST_ADJUSTMENT: LIMITS.MAX_ADJUSTMENT, MOST_PAIRS: LIMITS.MAX_PAIRS, MOST_RATED: LIMITS.MAX_RATINGS,
      MOST_RATING: LIMITS.MAX_RATING,
    },
  );
});

test('and each that a sentence tells', () => {
  const words = readFileSync(new URL('../../words.js', import.meta.url), 'utf8');
  const told = [
    ['MAX_STUDENTS', 'at most N students'], ['MAX_SECTIONS', 'at most N sections'],
    ['MAX_COMMANDS', 'at most N commands'], ['MAX_INPUT_BYTES', 'at most N bytes'],
    ['MAX_TEXT_BYTES', 'a published text N)'],
  ];
  for (const [name, said] of told) {
    assert.ok(words.includes(said.replace('N', LIMITS[name].toLocaleString('en'))), name);
  }
});
