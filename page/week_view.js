// Draws a week's timetable.

import { el, p } from './elements.js';
import { halfWords, weekOf } from './timetable.js';
import { listed } from './wording.js';

/**
 * The week of sections as a table; under it what has no meetings.
 * @param {Section[]} sections
 * @param {string} caption
 * @param {(name: string) => string} shown the school's spelling of a section
 */
export function weekView(sections, caption, shown) {
  const { days, rows, without } = weekOf(sections);
  if (!sections.length) return p('No section.');
  const heads = el('tr', {}, el('td', {}), days.map(it => el('th', { scope: 'col' }, it)));
  const lines = rows.map(row => el('tr', {},
    el('th', { scope: 'row' }, el('span', {}, `${row.from}–`), el('span', {}, row.to)),
    row.cells.map(cell => el('td', cell.length ? { class: 'meets' } : {}, cell.map(it => sectionCell(it, shown))))));
  const table = el('table', { class: 'week' }, el('caption', { class: 'aside' }, caption), el('thead', {}, heads),
    el('tbody', {}, lines));
  const still = listed(without.map(it => shown(it.name)));
  const rest = without.length ? el('p', { class: 'quiet' }, `Without meetings: ${still}.`) : null;
  return el('div', { class: 'week-frame' }, rows.length ? table : null, rest);
}

/** @param {Section} section @param {(name: string) => string} shown */
function sectionCell(section, shown) {
  const half = halfWords(section);
  return el('div', {}, breakable(shown(section.name)), half ? el('span', { class: 'quiet' }, ` ${half}`) : null);
}

/**
 * A name that may be broken behind a dash, an underscore or a point.
 * @param {string} name
 */
const breakable = name => name.split(/(?<=[-_.])/).flatMap((it, at) => at ? [el('wbr'), it] : [it]);
