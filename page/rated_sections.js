// The sections of the form, each with a field for its rating, and a search.

import { el } from './elements.js';
import { drawAsSeen } from './grid.js';
import { meetingWords } from './tables.js';
import { rate, ratingOf } from './wish_list.js';

/** The table of all sections. */
export class RatedSections {
  /**
   * @param {Section[]} catalogue
   * @param {Spelling} spelling
   * @param {WishList} list what is rated
   * @param {() => void} changed is called when a rating was typed
   */
  constructor(catalogue, spelling, list, changed) {
    this.spelling = spelling;
    this.list = list;
    this.changed = changed;
    this.catalogue = catalogue;
    /**
     * What was drawn of a section so far: it stays as it is while others are searched.
     * @type {Map<Section, { node: HTMLElement, field: HTMLInputElement }>}
     */
    this.drawn = new Map();
    this.body = el('tbody');
  }

  /** The table with its search. */
  part() {
    const search = el('input',
      { id: 'rate-search', type: 'search', placeholder: 'search', 'aria-label': 'Search sections' });
    const only = el('input', { id: 'rate-only', type: 'checkbox' });
    const arrange = () => this.arrange(search.value, only.checked);
    search.addEventListener('input', arrange);
    only.addEventListener('change', arrange);
    const heads = ['Your rating', 'Section', 'Credits', 'Meets'].map(it => el('th', { scope: 'col' }, it));
    arrange();
    return el('div', { class: 'sections' },
      el('div', { class: 'tools' }, search, el('label', { class: 'check' }, only, ' rated only')),
      el('div', { class: 'scrolls', role: 'region', 'aria-label': 'Sections', tabindex: '0' },
        el('table', {}, el('caption', { class: 'aside' }, 'Sections and your ratings'),
          el('thead', {}, el('tr', {}, heads)), this.body)));
  }

  /**
   * Shows the sections that have all the words in their names, course and meetings.
   * @param {string} words @param {boolean} isRatedOnly
   */
  arrange(words, isRatedOnly) {
    const wanted = words.toLowerCase().split(/\s+/).filter(Boolean);
    const has = (/** @type {string} */ text) => wanted.every(it => text.includes(it));
    const shown = this.catalogue.filter(it => (!isRatedOnly || this.list.ratings.has(it.name))
      && (!wanted.length || has(this.searched(it))));
    drawAsSeen(this.body, shown, it => this.rowOf(it).node);
  }

  /** Writes what is rated into the fields. */
  draw() {
    for (const [{ name }, { field }] of this.drawn) field.value = String(this.list.ratings.get(name) ?? '');
  }

  /** Whether what stands in a field is no rating. */
  isWrong() {
    return [...this.drawn.values()].some(it => it.field.hasAttribute('aria-invalid'));
  }

  /**
   * What is drawn of a section.
   * @param {Section} section
   */
  rowOf(section) {
    if (!this.drawn.has(section)) this.drawn.set(section, this.row(section));
    return this.drawn.get(section);
  }

  /** @param {Section} it */
  searched(it) {
    return [it.name, it.course, this.spelling.shown('section', it.name), meetingWords(it)].join(' ').toLowerCase();
  }

  /** @param {Section} section */
  row(section) {
    const shown = this.spelling.shown('section', section.name), fault = el('div', { class: 'fault' });
    const field = el('input', {
      inputmode: 'numeric', size: 4, autocomplete: 'off', value: this.list.ratings.get(section.name) ?? '',
      'aria-label': `Your rating of ${shown}, 0 to 100`,
    });
    field.addEventListener('input', () => {
      const typed = ratingOf(field.value);
      fault.textContent = 'fault' in typed ? typed.fault : rate(this.list, section.name, typed.points);
      if (fault.textContent) field.setAttribute('aria-invalid', 'true');
      else field.removeAttribute('aria-invalid');
      this.changed();
    });
    const node = el('tr', {}, el('td', {}, field, fault), el('th', { scope: 'row' }, shown),
      el('td', {}, String(section.credits)), el('td', { class: 'words' }, meetingWords(section)));
    return { node, field };
  }
}
