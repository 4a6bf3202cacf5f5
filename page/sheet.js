// The sheet of one student, for paper: what stands on the page, with the files' sums and the date.

import { button, el, p } from './elements.js';

const HOW = 'Print this as a sheet: answers that are folded here stand open on it, with the sums of the files and the '
  + 'date.';

const MONTHS = ['January', 'February', 'March', 'April', 'May', 'June', 'July', 'August', 'September', 'October',
  'November', 'December'];

/**
 * A day and its time in words, as they are written in Britain. (The browser's own words for it take it 40 ms at first.)
 * @param {Date} time
 */
export function dayWords(time) {
  const [hours, minutes] = [time.getHours(), time.getMinutes()].map(it => String(it).padStart(2, '0'));
  return `${time.getDate()} ${MONTHS[time.getMonth()]} ${time.getFullYear()} at ${hours}:${minutes}`;
}

/**
 * Writes the date onto the sheet that stands on the page, as it is printed.
 * @type {(() => void) | undefined}
 */
let dated;

/**
 * The part that stands on paper alone, and the button that prints.
 * @param {Market} market
 */
export function sheetNodes(market) {
  const day = el('span'), sums = market.files.map(it =>
    el('tr', {}, el('th', { scope: 'row' }, it.name), el('td', { class: 'sum' }, it.sum ?? 'not computed by this '
      + 'browser')));
  if (dated) removeEventListener('beforeprint', dated);
  dated = () => { day.textContent = dayWords(new Date()); };
  addEventListener('beforeprint', dated);
  dated();
  return [
    el('div', { class: 'on-screen' }, p(HOW), el('p', { class: 'buttons' }, button('Print the sheet', () => print()))),
    el('div', { class: 'on-paper' }, p('Printed on ', day, ', from these files (SHA-256):'),
      el('table', {}, el('tbody', {}, sums))),
  ];
}
