// What else of a text was checked where students' own lines alone are there, and what of these lines was passed over.
// It stands below the answer.

import { el, opening, p } from './elements.js';
import { plural } from './wording.js';

const REST = 'All else in the text that can be checked without other students\' lines is right. Not checked: how the '
  + 'prices came about, and other students\' bundles.';

const CHECKED = [
  'The program says: each line has its due form, none is missing, and each student\'s budget is the one that the roll, '
    + 'the settings and the draw give.',
  'The page reads: nobody\'s sections clash, come to more than its budget or pass its caps; at no time has a section '
    + 'more students than seats; turns come in their due order; and what is held in the end follows from them.',
  'Whether others have their best bundles, nobody can tell without their lines.',
];

/**
 * What was checked besides, which unfolds, and what was passed over; nothing where all sessions are there, or
 * nobody's lines.
 * @param {Market} market
 * @returns {any[]}
 */
export function knownNodes({ isOwn, said, parts, roll, catalogue, notes }) {
  if (!isOwn || !said.size) return [];
  const sizes = `${plural(roll.length, 'student')}, ${plural(catalogue.length, 'section')}`;
  return [
    opening(REST, () => [
      p(`${parts.text.name}: ${sizes}.`), el('ul', {}, CHECKED.map(it => el('li', {}, it))),
    ], false, { class: 'basis paper known' }),
    ...notes.map(it => el('p', { class: 'note' }, it)),
  ];
}
