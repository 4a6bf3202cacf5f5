// What stands above the files and the views: whether the text holds, what is missing, and what does not fit.

import { $, button, code, el, opening, p } from './elements.js';
import { NEEDED, OWN, SESSIONS, savedAs } from './files.js';
import { listed, plural, shortList, timed } from './wording.js';
import { WISH_LINE, silentWords } from './wishes.js';
import { findingWords } from './words.js';

/**
 * Shows a verdict.
 * @param {'right' | 'wrong' | 'open'} kind @param {string} title @param {...any} children
 */
export function showVerdict(kind, title, ...children) {
  $('verdict').className = kind;
  $('verdict').replaceChildren(el('h2', {}, title), ...children.flat(2));
}

/** Takes away what stood there. */
export const clearVerdict = () => $('verdict').replaceChildren();

const FAILED = 'Load the page anew and give the files again. If it fails again, keep the files, and tell these words '
  + 'to whoever gave you this page.';

/**
 * Tells that the page failed.
 * @param {any} fault
 */
export const showFailure = fault => showVerdict('wrong', 'The page failed', p(String(fault)), p(FAILED));

/**
 * Tells that the page is not as it was built.
 * @param {string[]} changes in words
 */
export function showChanged(changes) {
  $('changed').hidden = false;
  $('changed').append(...changes.map(it => p(it)), p('Nothing was run. Take the page anew from whoever gave it to you, '
    + 'and tell them these words.'));
}

/** Tells that a folder was dropped that the browser does not open. */
export const showUnopened = () => showVerdict('wrong', 'The folder was not opened',
  p('This browser does not open a folder to this page: open the folder, and give the files that are in it. What was '
    + 'given before stays as it was.'));

/**
 * Tells what is missing, or does not fit together.
 * @param {GivenFile[]} files @param {string[]} faults @param {string[]} lacks
 */
export function showOpen(files, faults, lacks) {
  const title = faults.length ? 'The files do not fit together' : 'Not all files are there yet';
  showVerdict('open', title, ...faults.map(it => p(it)), lacks.length ? lacksWords(files, lacks) : '');
}

/** @param {GivenFile[]} files @param {string[]} lacks */
function lacksWords(files, lacks) {
  const canRate = files.some(it => it.kind === 'catalogue') && !files.some(it => it.kind === 'text');
  const canRun = files.some(it => it.kind === 'session') && lacks.includes(NEEDED.text)
    && lacks.every(it => it === NEEDED.text || it === NEEDED.settings);
  const published = lacks.filter(it => it !== SESSIONS), it = lacks.length === 1 ? 'it' : listed(published);
  const named = (/** @type {GivenFile[]} */ of) => of.map(it => it.name);
  const unknown = files.filter(it => it.kind === 'unknown');
  const unread = named(unknown.filter(it => it.isUnread)), saved = unknown.filter(it => savedAs(it.bytes));
  const strange = named(unknown.filter(it => !it.isUnread && !savedAs(it.bytes)));
  const others = lacks.some(it => it !== SESSIONS) ? named(files.filter(it => it.kind === 'other')) : [];
  const missing = lacks.map(it => it === SESSIONS ? OWN : it);
  return [
    p(`Missing: ${listed(missing)}.${published.length ? ` Your school publishes ${it}.` : ''}`
      + (canRun ? ' The school itself makes it from the other files, with “Run a market”.' : '')),
    canRate ? p('“Rate sections” needs nothing more: there a student says what it wants before the desk closes.') : '',
    lacks.includes(SESSIONS) ? p('Whoever has all sessions (what everybody wished) gives these in place of its own '
      + 'lines: then the whole text is checked.') : '',
    others.length ? p(`By what stands in it, none of the missing files is ${shortList(others)}: take it anew from the `
      + 'school, or choose in the list of the files what it is.') : '',
    unread.length ? p(`${listed(unread)} cannot be read: the browser does not open it, or it is longer than any file `
      + `of a `
      + 'market.') : '',
    saved.map(it => p(`${it.name} is ${savedAs(it.bytes)}.`)),
    strange.length
      ? p(`What ${shortList(strange)} is, the page cannot tell: choose it in the list of the files.`) : '',
  ];
}

/**
 * Tells why a text was refused.
 * @param {Refusal} refusal @param {string} file the text's name
 * @param {(() => void) | null} again checks once more what was stopped
 */
export function showRefused({ told, excerpt, causes, first }, file, again) {
  const all = () => [p(told.words),
    ...told.finding ? [findingPart(told.finding, excerpt, file), causes.map(it => p(it))].flat(2) : [],
    told.help ? p(told.help) : ''];
  showVerdict('wrong', told.title, first.map(it => p(it)), first.length ? opening(MORE, all) : all(),
    again ? button('Check again', again) : '');
}

const MORE = 'What else is to be said of it';

/**
 * Where a finding stands in the text: its line, with the symbol of the tree, or the entry of the order, marked.
 * @param {string} finding @param {Excerpt | null} excerpt @param {string} file the text's name
 * @param {string} [by] who found it
 */
function findingPart(finding, excerpt, file, by = 'the program\'s words') {
  if (!excerpt) return p(code(finding));
  const { line, column, before, marked, behind } = excerpt;
  const place = `line ${line}${column === null ? '' : `, column ${column}`} of ${file}`;
  const said = p(`This is ${place} (${by}: `, code(`finding: ${finding}`), '):');
  return [said, el('pre', { class: 'place', tabindex: '0', role: 'region', 'aria-label': place },
    el('bdi', {}, before, marked ? el('mark', {}, marked) : '', behind))];
}

/**
 * Tells a finding of the page's own reading, where not all sessions are there.
 * @param {string} finding @param {Excerpt | null} excerpt @param {string} file the text's name
 */
export function showFound(finding, excerpt, file) {
  showVerdict('wrong', 'This text does not hold',
    p(findingWords(finding)), findingPart(finding, excerpt, file, 'found by the page itself'),
    p('Do not trust it as it stands: ask the school about the line that is named.'));
}

/**
 * Tells that no line that was given is one of a student of the roll.
 * @param {Market} market @param {GivenFile[]} own the files of own lines
 */
export function showStrangers({ notes, parts }, own) {
  const silent = own.map(silentWords).filter(Boolean), first = silent.length ? [...silent, WISH_LINE] : [];
  const all = () => [
    p(`None of them is of a student of ${parts.roll.name}: give your own lines, and the roll of the same term.`),
    ...notes.map(it => p(it)),
  ];
  showVerdict('open', 'Whose lines are these?', first.map(it => p(it)), first.length ? opening(MORE, all) : all());
}

/**
 * Tells that a text holds.
 * @param {Checked} checked @param {{ students: number, sections: number }} counts
 * @param {GivenFile[]} unused what a manifest does not name
 */
export function showAccepted({ parts, answer }, { students, sections }, unused) {
  showVerdict('right', 'This text holds',
    p(`${parts.text.name} was checked in ${timed(answer.ms)}: ${plural(students, 'student')}, `
      + `${plural(sections, 'section')}. In the second stage each student has the best bundle that its budget `
      + `buys `
      + 'at the published prices. At each turn of the aftermarket the student takes the best of what it holds and what '
      + 'is free. At no time has a section more students than seats. “Whole text” says what that means, and what it '
      + 'does not mean.'),
    unused.length
      ? p(`The manifest does not name ${shortList(unused.map(it => it.name))}, so the check left that out.`) : '');
}
