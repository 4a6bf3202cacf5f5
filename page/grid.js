// Tables that sort, filter and copy.

import { button, copied, el, p } from './elements.js';
import { grouped, plural } from './wording.js';

/** @param {string | number} one @param {string | number} other */
function compare(one, other) {
  if (typeof one === 'number' && typeof other === 'number') return one - other;
  return String(one).localeCompare(String(other), 'en', { numeric: true });
}

/**
 * A table of rows. `of` of a column gives the value by which a row sorts and which is copied, `show` what stands in the
 * cell, if that is another thing.
 * @template Row
 * @param {string} caption
 * @param {Column<Row>[]} columns
 * @param {Row[]} rows
 * @param {{ filterAt?: number }} options from how many rows on there is a filter
 */
export function tableOf(caption, columns, rows, options = {}) {
  if (!rows.length) return p(el('b', {}, caption), ': nothing');
  /** @type {{ shown: Row[], by: number | null, isFalling: boolean }} */
  const now = { shown: rows, by: null, isFalling: false };
  const body = el('tbody'), said = el('span', { role: 'status', class: 'quiet' });
  const draw = () => drawAsSeen(body, now.shown, row => rowOf(row, columns));
  const arrange = () => {
    now.shown = arranged(rows, columns, now, filter.value);
    said.textContent = filter.value.trim() ? `${now.shown.length} of ${rows.length}` : '';
    draw();
  };
  const heads = headsOf(columns, now, arrange);
  const filter = el('input',
    { type: 'search', placeholder: 'filter', 'aria-label': `Filter: ${caption}`, oninput: arrange });
  const copy = button('Copy', async () => {
    const isCopied = await copied(textOf(columns, now.shown));
    said.textContent = isCopied ? `${plural(now.shown.length, 'row')} copied` : 'this browser did not let the page '
      + 'copy';
  }, { class: 'small', 'aria-label': `Copy: ${caption}` });
  draw();
  const table = el('table', {},
    el('caption', { class: 'aside' }, caption), el('thead', {}, el('tr', {}, heads)), body);
  const frame = el('div', { class: 'scrolls', role: 'region', 'aria-label': caption, tabindex: '0' }, table);
  const more = el('p', { class: 'quiet on-screen', hidden: true }, 'More columns stand to the right: move the table '
    + 'sideways.');
  new ResizeObserver(() => { more.hidden = frame.scrollWidth <= frame.clientWidth + 1; }).observe(frame);
  return el('div', { class: 'table' },
    el('div', { class: 'tools' }, el('b', {}, caption), rows.length >= (options.filterAt ?? 8) && filter, copy, said),
    more, frame);
}

/** How many rows are drawn at once: as many as a table shows before it is scrolled. */
const ROWS_AT_ONCE = 20;

/**
 * Draws the first rows in the place of those that were drawn, and more as the last one comes into view. What is drawn
 * anew draws no more of what it was. All are drawn by the body's `fill`, which is called before the page is printed.
 * @template Row
 * @param {HTMLElement & { fill?: () => void }} body @param {Row[]} rows
 * @param {(row: Row) => HTMLElement} make makes what is drawn of a row
 */
export function drawAsSeen(body, rows, make) {
  const add = (/** @type {number} */ count) => {
    const from = body.children.length;
    body.append(...rows.slice(from, from + count).map(make));
  };
  body.replaceChildren();
  add(ROWS_AT_ONCE);
  const fill = body.fill = () => add(rows.length);
  if (rows.length <= ROWS_AT_ONCE) return;
  const watch = new IntersectionObserver(seen => {
    if (!seen.some(it => it.isIntersecting)) return;
    watch.disconnect();
    if (body.fill !== fill) return;
    add(ROWS_AT_ONCE);
    if (body.children.length < rows.length) watch.observe(body.lastElementChild);
  });
  watch.observe(body.lastElementChild);
}

/** @param {Column<any>} column */
const classOf = column => column.isText ? '' : 'number';

/**
 * The heads, each of which sorts.
 * @param {Column<any>[]} columns @param {any} now @param {() => void} arrange
 */
function headsOf(columns, now, arrange) {
  /** @type {any[]} */
  const heads = columns.map((column, at) =>
    el('th', { scope: 'col', class: classOf(column) }, button(column.head, () => sortBy(at), { class: 'head' })));
  const sortBy = (/** @type {number} */ at) => {
    [now.by, now.isFalling] = [at, now.by === at && !now.isFalling];
    heads.forEach(head => head.removeAttribute('aria-sort'));
    heads[at].setAttribute('aria-sort', now.isFalling ? 'descending' : 'ascending');
    arrange();
  };
  return heads;
}

/** @template Row @param {Row} row @param {Column<Row>[]} columns */
function rowOf(row, columns) {
  return el('tr', {}, columns.map((column, at) => {
    const value = column.of(row), isWords = !at && String(value).includes(' ');
    return el(at ? 'td' : 'th', { scope: at ? null : 'row', class: isWords ? 'words' : classOf(column) },
      column.show ? column.show(row) : typeof value === 'number' ? grouped(value) : value);
  }));
}

/**
 * The rows that hold what the filter says, in the order that is asked for.
 * @template Row
 * @param {Row[]} rows
 * @param {Column<Row>[]} columns
 * @param {{ by: number | null, isFalling: boolean }} order
 * @param {string} typed
 */
function arranged(rows, columns, { by, isFalling }, typed) {
  const wanted = typed.trim().toLowerCase();
  const has = (/** @type {Row} */ row) => columns.some(it => String(it.of(row)).toLowerCase().includes(wanted));
  const shown = wanted ? rows.filter(has) : rows;
  if (by === null) return shown;
  return [...shown].sort((one, other) =>
    (isFalling ? -1 : 1) * compare(columns[by].of(one), columns[by].of(other)));
}

/**
 * The rows as they are copied: tabs between the columns.
 * @param {Column<any>[]} columns @param {any[]} rows
 */
const textOf = (columns, rows) =>
  [columns.map(it => it.head), ...rows.map(row => columns.map(it => it.of(row)))].map(it => it.join('\t')).join('\n');
