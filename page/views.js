// The views, of which each has a tab, and what is looked at in them.

import { auditorParts } from './auditor.js';
import { $, button, el, p, suggestions, toAnswer } from './elements.js';
import { drawInTurn } from './in_turn.js';
import { knownNodes } from './known_view.js';
import { studentView } from './student.js';

const VIEWS = ['student', 'rate', 'auditor', 'registrar'];
const shown = {
  view: 'student',
  /**
   * What is shown, where a text holds.
   * @type {Market | null}
   */
  market: null,
  /** Whether the whole text is to be drawn, once it is looked at. */
  waits: false,
};

/**
 * Shows one view, and hides the others.
 * @param {string} view
 */
export function show(view) {
  shown.view = view;
  for (const it of VIEWS) {
    $(it).hidden = it !== view;
    $(`to-${it}`).setAttribute('aria-selected', String(it === view));
    $(`to-${it}`).tabIndex = it === view ? 0 : -1;
  }
  if (view !== 'auditor' || !shown.waits) return;
  shown.waits = false;
  drawInTurn($('auditor'), auditorParts(shown.market, showStudent));
}

/** The element of the view that is shown. */
export const shownView = () => $(shown.view);

/** Listens to whoever goes from view to view, also by the browser's back button. */
export function listenToViews() {
  for (const it of VIEWS) $(`to-${it}`).addEventListener('click', () => { show(it); remember(); });
  $('tabs').addEventListener('keydown', goByKey);
  addEventListener('popstate', recall);
}

/**
 * Goes from tab to tab by the keys of the arrows, Home and End.
 * @param {KeyboardEvent} event
 */
function goByKey(event) {
  const at = VIEWS.indexOf(shown.view), last = VIEWS.length - 1;
  const to = { ArrowRight: at < last ? at + 1 : 0, ArrowLeft: at ? at - 1 : last, Home: 0, End: last }[event.key];
  if (to === undefined) return;
  event.preventDefault();
  show(VIEWS[to]);
  remember();
  $(`to-${VIEWS[to]}`).focus();
}

/**
 * Draws what a student and an auditor see: what the text says, or, where none holds, the given words.
 * @param {Market | null} market @param {string} words
 */
export function drawReaders(market, words) {
  shown.market = market;
  $('student').replaceChildren(...market ? [chooser(market), el('div', { id: 'student-answer' }, knownNodes(market))]
    : [p(words)]);
  const isWhole = market && !market.isOwn;
  shown.waits = isWhole;
  drawInTurn($('auditor'), isWhole ? [] : [() => p(market ? ALL_SESSIONS : words)]);
  if (market) recall();
  const only = market && named(market).length === 1 && market.isOwn ? named(market)[0] : null;
  if (only && $('student-answer').dataset.name !== only.name) drawStudent(only);
}

const ALL_SESSIONS = 'The whole text is checked with all sessions, which say what everybody wished. What one student '
  + 'can know of it with its own lines alone stands under “One student”.';

/**
 * The students who can be looked at: all of the roll, or those whose own lines are there.
 * @param {Market} market
 */
const named = market => market.isOwn ? market.roll.filter(it => market.said.has(it.name)) : market.roll;

/**
 * Where a student's name is typed.
 * @param {Market} market
 */
function chooser(market) {
  const input = el('input', {
    id: 'student-name', list: 'student-names', autocomplete: 'off', autocapitalize: 'off', spellcheck: 'false',
  });
  const names = suggestions(input, 'student-names', () =>
    named(market).map(it => [it.name, market.spelling.shown('student', it.name)]));
  input.addEventListener('input', () => {
    if (named(market).some(it => it.name === input.value)) showStudent(input.value, false);
    else showNobody();
  });
  const onsubmit = (/** @type {Event} */ event) => { event.preventDefault(); showStudent(input.value); };
  const hidden = market.isOwn && named(market).length === 1;
  return el('form', { class: 'chooser', onsubmit, hidden }, el('label', { for: 'student-name' }, 'Name of the student'),
    input, names, el('button', { class: 'main' }, 'Show'), el('div', { id: 'student-said', role: 'status' }));
}

/**
 * Shows the student of a name, or, where several have what was typed in theirs, asks which.
 * @param {string} typed @param {boolean} [focuses] whether the answer gets the focus
 */
function showStudent(typed, focuses = true) {
  const students = named(shown.market), name = typed.trim(), meant = shown.market.spelling.meant('student', name);
  const near = students.filter(it => it.name.toLowerCase().includes(name.toLowerCase()) || meant.includes(it.name));
  const found = students.find(it => it.name === name) ?? (near.length === 1 ? near[0] : null);
  if (shown.view !== 'student') show('student');
  if (!found) {
    showNobody();
    $('student-said').replaceChildren(...near.length && name ? whichOf(near) : [nobodyWords(shown.market)]);
    return;
  }
  $('student-said').textContent = focuses ? '' : 'shown below';
  drawStudent(found);
  remember(!focuses);
  if (!focuses) return;
  const head = $('student-answer').querySelector('h2');
  head.focus({ preventScroll: true });
  toAnswer(head);
}

/** @param {Market} market */
const nobodyWords = market => market.isOwn ? 'No lines of a student of this name were given.'
  : 'No student of the roll has this name.';

/** @param {Student} student */
function drawStudent({ name, at }) {
  const answer = $('student-answer');
  $('student-name').value = name;
  if (answer.dataset.name !== name) answer.replaceChildren(...studentView(shown.market, at));
  answer.dataset.name = name;
}

function showNobody() {
  delete $('student-answer').dataset.name;
  $('student-answer').replaceChildren(...knownNodes(shown.market));
  $('student-said').textContent = '';
}

/** @param {Student[]} near */
const whichOf = near => [
  'Which of them? ',
  ...near.slice(0, 12).flatMap(it => {
    const name = shown.market.spelling.shown('student', it.name);
    return [button(name, () => showStudent(it.name), { class: 'link' }), ' '];
  }),
  near.length > 12 ? `and ${near.length - 12} more` : '',
];

/**
 * Keeps what is looked at in the browser's history, so that its back button leads to what was looked at before, and not
 * away. (It is not in the address: no student's name is left in what the browser keeps.) Of names that are shown while
 * one types, the last one is kept.
 * @param {boolean} [isTyped]
 */
export function remember(isTyped = false) {
  const before = history.state, name = $('student-answer')?.dataset.name ?? before?.name;
  if (shown.view === before?.view && name === before?.name) return;
  history[isTyped && before?.isTyped ? 'replaceState' : 'pushState']({ view: shown.view, name, isTyped }, '');
}

/** Looks at what the history has: also once a page that was loaded anew has its files again. */
export function recall() {
  const { view = 'student', name } = history.state ?? {}, found = shown.market?.roll.find(it => it.name === name);
  show(view);
  if (!found) return;
  drawStudent(found);
  $('student-said').textContent = '';
}
