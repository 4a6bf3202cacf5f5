// The form before the desk closes: a student rates sections, sees its best bundle at prices of 0, and saves its lines.

import { button, el, labelled, p, save, suggestions } from './elements.js';
import { RatedSections } from './rated_sections.js';
import { AS_NAMED } from './spelling.js';
import { weekView } from './week_view.js';
import {
  MOST_PAIRS, MOST_RATED, adjust, adjustmentOf, emptyList, isName, keptIn, notesOf, pairKey, quoteOf, sessionFile,
} from './wish_list.js';
import { listed, plural, shortList } from './wording.js';
import { STOPPED_WORDS } from './words.js';
import { read, toldOf, work } from './work.js';

const ABOUT_RATING = 'Before the desk closes a student says here what it wants. Nothing is sent: what is saved at the '
  + 'end is a file, which the student gives to its school.';
const SAVING = 'The file says all that you wish, and takes back what you said before. Give it to your school before '
  + 'its desk closes; give it to this page again to go on with it.';
const NAME_WORDS = 'A name is 1 to 32 letters (A to Z, a to z), digits, dashes, underscores and dots.';
const NOTHING_RATED = 'Nothing is rated yet.';
const PLAIN = { autocomplete: 'off', autocapitalize: 'off', spellcheck: 'false' };

/** The form of the student who rates, and what it has said so far; the files may change meanwhile. */
export class RatingForm {
  constructor() {
    /** @type {WishList} */
    this.list = emptyList('');
    this.caps = { credits: 800, courses: 8 };
    /** @type {RatingFiles} */
    this.given = { catalogue: [], roll: [], sessions: [], spelling: AS_NAMED, strange: [] };
    /** Whether something is in the form that no file has. */
    this.isUnsaved = false;
    /** How often earlier lines were looked for. */
    this.looks = 0;
    /**
     * Whether the best bundle is being asked for, whether something was changed since, and of which catalogue the
     * program has answered.
     * @type {{ isBusy: boolean, isOld: boolean, of?: GivenFile }}
     */
    this.asking = { isBusy: false, isOld: false };
    /**
     * What is drawn anew as something changes.
     * @type {any}
     */
    this.drawn = {};
  }

  /** Whether something would be lost with the page. */
  mayLose() {
    return this.isUnsaved;
  }

  /**
   * The form for these files; what was rated before stays.
   * @param {GivenFile[]} files @param {GivenFile | undefined} file the catalogue
   * @param {ReadTables} tables what stands in the catalogue and the roll
   * @param {Spelling} spelling
   */
  view(files, file, { catalogue: sections, roll, strange }, spelling) {
    const of = (/** @type {string} */ kind) => files.filter(it => it.kind === kind);
    this.given = { file, spelling, roll, strange, sessions: [...of('own'), ...of('session')], catalogue: sections };
    const head = [el('h2', { tabindex: '-1' }, 'Rate sections'), p(ABOUT_RATING)];
    if (!file) return [...head, p('First give the catalogue above, and the roll if you have it.')];
    if (strange.includes(file.name)) return [...head, p(`${file.name} is no catalogue: a field in it is too long.`)];
    const { catalogue } = this.given, changed = () => this.changed(true);
    const rows = this.drawn.rows = new RatedSections(catalogue, spelling, this.list, changed);
    const who = this.whoPart(), beside = this.besidePart(), pairs = this.pairsPart();
    queueMicrotask(() => this.changed(false));
    return [...head, who, el('div', { class: 'rating' }, rows.part(), beside), pairs, this.savePart()];
  }

  /** @param {string} section */
  shown(section) {
    return this.given.spelling.shown('section', section);
  }

  /** Who rates, with the caps of the roll. */
  whoPart() {
    const { roll, spelling } = this.given, told = el('p', { class: 'quiet', role: 'status' });
    const name = el('input', { id: 'rate-name', list: 'rate-names', value: this.list.name, ...PLAIN });
    const credits = el('input', { id: 'rate-credits', inputmode: 'numeric', size: 4, value: this.caps.credits });
    const courses = el('input', { id: 'rate-courses', inputmode: 'numeric', size: 3, value: this.caps.courses });
    const earlier = el('p', { class: 'buttons' });
    const named = () => {
      this.takeName(name.value.trim(), credits, courses, told);
      this.lookEarlier(earlier);
    };
    const capped = () => this.takeCaps(credits.value, courses.value, told);
    name.addEventListener('input', named);
    for (const it of [credits, courses]) it.addEventListener('input', capped);
    named();
    return el('div', { class: 'who' }, labelled('Your name, as on the roll', name),
      suggestions(name, 'rate-names', () => roll.map(it => [it.name, spelling.shown('student', it.name)])),
      labelled('Most credits', credits), labelled('Most sections', courses), told, earlier);
  }

  /** @param {string} typed @param {any} credits @param {any} courses @param {any} told */
  takeName(typed, credits, courses, told) {
    const { roll, spelling } = this.given, meant = spelling.meant('student', typed);
    const one = meant.length === 1 ? meant[0] : typed;
    const of = roll.find(it => it.name === typed) ?? roll.find(it => it.name === one);
    this.list.name = of ? of.name : typed;
    for (const it of [credits, courses]) it.disabled = Boolean(of);
    if (of) {
      this.caps = { credits: of.credits, courses: of.courses };
      [credits.value, courses.value] = [String(of.credits), String(of.courses)];
    }
    told.textContent = this.nameWords(of ?? null, typed);
    this.changed(false);
  }

  /** @param {Student | null} of @param {string} typed */
  nameWords(of, typed) {
    if (of) {
      return `By the roll ${of.name} may take ${plural(of.credits, 'credit')} and ${plural(of.courses, 'section')} at `
        + 'most.';
    }
    if (!typed) return '';
    if (!isName(typed)) return NAME_WORDS;
    return this.given.roll.length ? 'No student of the roll has this name: capital letters count.' : '';
  }

  /** @param {string} credits @param {string} courses @param {any} told */
  takeCaps(credits, courses, told) {
    const isRight = /^\d{1,3}$/.test(credits) && Number(credits) <= 800 && /^[0-8]$/.test(courses);
    told.textContent = isRight ? '' : 'Credits are a whole number from 0 to 800, sections one from 0 to 8.';
    if (!isRight) return;
    this.caps = { credits: Number(credits), courses: Number(courses) };
    this.changed(false);
  }

  /**
   * Looks for what this student said before in the files that were given, and makes buttons that take it. Whoever types
   * a name has typed others on the way: the answer on the last one counts.
   * @param {HTMLElement} to
   */
  async lookEarlier(to) {
    const { name } = this.list, { sessions, roll } = this.given, number = ++this.looks;
    to.replaceChildren();
    if (!sessions.length || !(roll.length ? roll.some(it => it.name === name) : isName(name))) return;
    const counts = await read('Looking for your lines', 'counts', sessions.map(it => it.bytes), name) ?? [];
    if (number !== this.looks) return;
    const words = (/** @type {number} */ at) =>
      `Take the ${plural(counts[at], 'line')} of ${name} in ${sessions[at].name}`;
    to.replaceChildren(...sessions.flatMap((file, at) =>
      counts[at] ? button(words(at), () => this.takeEarlier(file)) : []));
  }

  /**
   * Asks the program what earlier lines come to, and takes that in the place of all that stands in the form.
   * @param {GivenFile} session
   */
  async takeEarlier(session) {
    const { name } = this.list, { file, catalogue } = this.given, student = { name, ...this.caps };
    const found = await read('Reading the lines', 'earlier', file, catalogue, session.bytes, student);
    if (!found || 'failed' in found) return this.tell(found ? found.failed : STOPPED_WORDS.words);
    const { wishes } = found, sectionOf = new Map(catalogue.map(it => [it.name, it]));
    const pairs = (wishes?.pairs ?? []).map(([one, other, points]) =>
      /** @type {[string, number]} */ ([pairKey(sectionOf.get(one), sectionOf.get(other)), points]));
    this.list.ratings = new Map([...wishes?.ratings ?? []].filter(([, it]) => it > 0));
    this.list.pairs = new Map(pairs);
    this.drawn.rows.draw();
    this.changed(true);
    return this.tell(`Taken: ${plural(this.list.ratings.size, 'rating')} and ${plural(pairs.length, 'adjustment')}.`);
  }

  /** What stands beside the sections: the best bundle with its week, how much is rated, and what clashes. */
  besidePart() {
    const best = this.drawn.best = el('div', { 'aria-live': 'polite' }), notes = this.drawn.notes = el('div');
    return el('div', { class: 'beside' }, best, notes);
  }

  /**
   * Draws anew what depends on what is rated.
   * @param {boolean} isUnsaved whether something was said that no file has
   */
  changed(isUnsaved) {
    this.isUnsaved ||= isUnsaved;
    if (isUnsaved) this.tell('');
    this.drawNotes();
    this.drawPairs();
    this.quote();
  }

  drawNotes() {
    const { catalogue } = this.given, { clashes, tooLarge, credits } = notesOf(this.list, catalogue, this.caps);
    const rated = [...this.list.ratings.keys()], left = rated.filter(it => !catalogue.some(that => that.name === it));
    const both = (/** @type {any} */ it) => `${this.shown(it.one)} ${it.why} ${this.shown(it.other)}`;
    this.drawn.notes?.replaceChildren(...[
      p(`Rated: ${rated.length} of at most ${MOST_RATED} sections, ${plural(credits, 'credit')} together; you may hold `
        + `${plural(this.caps.credits, 'credit')} and ${plural(this.caps.courses, 'section')}.`),
      left.length ? p(`The catalogue does not have ${shortList(left.map(it => this.shown(it)))}: they are not `
        + 'saved.') : null,
      tooLarge.length ? p(`Alone more than your credits: ${shortList(tooLarge.map(it => this.shown(it)))}.`) : null,
      clashes.length ? el('details', {}, el('summary', {}, `${plural(clashes.length, 'pair')} of them cannot be held `
        + 'together'),
        el('ul', {}, clashes.map(it => el('li', {}, both(it))))) : null,
    ].filter(Boolean));
  }

  /**
   * Asks the program for the best bundle where each price is 0; while it answers nothing else is asked. A catalogue is
   * asked about also where nothing is rated: what the program refuses is not shown without saying so.
   */
  async quote() {
    this.asking.isOld = true;
    const isKnown = this.asking.of === this.given.file;
    if (!this.list.ratings.size && isKnown) this.drawn.best?.replaceChildren(p(NOTHING_RATED));
    if (this.asking.isBusy || !this.list.ratings.size && isKnown) return;
    this.asking.isBusy = true;
    while (this.asking.isOld && this.given.file && this.drawn.best) {
      this.asking.isOld = false;
      const name = isName(this.list.name) ? this.list.name : 'you';
      const { file } = this.given, call = quoteCall(file, this.lines(name), name, this.caps);
      const answer = await work('Asking for the best bundle', call);
      if (answer.status === 0) this.asking.of = file;
      if (!this.asking.isOld && answer.status !== 'stopped') await this.drawBest(answer, call);
    }
    this.asking.isBusy = false;
  }

  /** @param {Answer} answer @param {Call} call */
  async drawBest(answer, call) {
    const to = this.drawn.best;
    if (answer.status !== 0) return to.replaceChildren(p((await toldOf(answer, call)).words));
    if (!this.list.ratings.size) return to.replaceChildren(p(NOTHING_RATED));
    const { names, worth } = quoteOf(answer.text), shown = (/** @type {string} */ it) => this.shown(it);
    if (!names.length) return to.replaceChildren(p('With these ratings and caps the best bundle has no section.'));
    const sections = names.map(it => this.given.catalogue.find(that => that.name === it));
    return to.replaceChildren(
      p(el('b', {}, `If each price were 0, your best bundle would be ${listed(names.map(shown))}`),
        `, worth ${worth}. Prices will be others: rate what else you would take.`),
      weekView(sections, 'The week of that bundle', shown));
  }

  /**
   * The lines of this student, of what the catalogue has.
   * @param {string} name
   */
  lines(name) {
    return sessionFile(keptIn({ ...this.list, name }, this.given.catalogue), this.given.catalogue);
  }

  /** Adjustments of pairs of rated sections. */
  pairsPart() {
    const told = el('p', { class: 'fault', role: 'status' }), list = this.drawn.pairs = el('ul', { class: 'plain' });
    const [one, other] = this.drawn.choices = ['rate-one', 'rate-other'].map(id => el('select', { id }));
    const points = el('input', { id: 'rate-points', inputmode: 'numeric', size: 5, autocomplete: 'off' });
    const onsubmit = (/** @type {Event} */ event) => {
      event.preventDefault();
      told.textContent = this.adjusted(one.value, other.value, points.value);
      if (told.textContent) return;
      points.value = '';
      this.changed(true);
    };
    return el('section', {}, el('h3', {}, 'Together worth more, or less'),
      p('Two sections together may be worth more to you than apart, or less: -200 to 200 points, for at most '
        + `${MOST_PAIRS} pairs.`),
      el('form', { class: 'pair', onsubmit },
        labelled('Section', one), labelled('with', other), labelled('Points', points), el('button', {}, 'Adjust')),
      told, list);
  }

  /**
   * Adjusts a pair; answers what is wrong, in words.
   * @param {string} one @param {string} other @param {string} typed
   */
  adjusted(one, other, typed) {
    const { catalogue } = this.given, of = (/** @type {string} */ name) => catalogue.find(it => it.name === name);
    const points = adjustmentOf(typed);
    if (!one || !other) return 'Choose two sections that you rated.';
    return 'fault' in points ? points.fault : adjust(this.list, of(one), of(other), points.points);
  }

  drawPairs() {
    const rated = this.given.catalogue.filter(it => this.list.ratings.has(it.name));
    const option = (/** @type {Section} */ { name }) => el('option', { value: name }, this.shown(name));
    for (const it of this.drawn.choices ?? []) {
      const before = it.value;
      it.replaceChildren(el('option', { value: '' }, 'choose'), ...rated.map(option));
      it.value = rated.some(that => that.name === before) ? before : '';
    }
    this.drawn.pairs?.replaceChildren(...[...this.list.pairs].map(([key, worth]) => this.pairRow(key, worth)));
  }

  /** @param {string} key @param {number} worth */
  pairRow(key, worth) {
    const [one, other] = key.split(' '), words = `${this.shown(one)} with ${this.shown(other)}`;
    const idle = [one, other].filter(it => !this.list.ratings.has(it)).map(it => this.shown(it));
    const onclick = () => { this.list.pairs.delete(key); this.changed(true); };
    return el('li', {}, `${words}: ${worth > 0 ? '+' : ''}${worth}`,
      idle.length ? ` (${listed(idle)} not rated: it counts only once it is)` : '', ' ',
      button('Remove', onclick, { class: 'small', 'aria-label': `Remove the adjustment of ${words}` }));
  }

  savePart() {
    this.drawn.told = el('p', { role: 'status' });
    return el('section', {}, el('h3', {}, 'Save your lines'), p(SAVING),
      el('p', { class: 'buttons' }, button('Save my lines', () => this.save(), { class: 'main' })), this.drawn.told);
  }

  save() {
    const { name, ratings, pairs } = keptIn(this.list, this.given.catalogue);
    if (!isName(name)) return this.tell('Write your name first, as it stands on the roll.');
    if (this.drawn.rows.isWrong()) return this.tell('A rating above is none: correct it first.');
    save(`${name}.session`, this.lines(name));
    this.isUnsaved = false;
    return this.tell(`${name}.session has ${plural(ratings.size, 'rating')} and ${plural(pairs.size, 'adjustment')}.`);
  }

  /** @param {string} words */
  tell(words) {
    this.drawn.told.textContent = words;
  }
}

/**
 * The call of `quote` of one student.
 * @param {GivenFile} catalogue @param {Uint8Array} lines @param {string} name
 * @param {{ credits: number, courses: number }} caps
 * @returns {Call}
 */
function quoteCall(catalogue, lines, name, { credits, courses }) {
  /** @type {GivenFile} */
  const session = { name: 'your lines', kind: 'session', bytes: lines };
  return {
    form: 'quote', words: ['quote', 'input 1', 'input 2', name, String(credits), String(courses)],
    inputs: [catalogue, session], files: [['input 1', catalogue.bytes], ['input 2', lines]],
  };
}
