// The signs behind a student's bundles, and signs that are pasted, explained one after another.

import { button, code, el, namesCell, opening, p, toAnswer } from './elements.js';
import { unratedIn } from './one_student.js';
import { menuOf, walkOf } from './reckoning.js';
import { keyOf, placeNames, sign } from './sign_key.js';
import { CAUSES, championOf, pastedSigns, stepsOf } from './signs.js';
import { section, sections, stageName, stagesName, studentName } from './stage_words.js';
import { tokens } from './wording.js';

/** How many steps stand at once; the rest come by a button. */
const STEPS = 40;

/** How many signs of a tree stand where it is chosen. */
const MOST_SIGNS = 60;

/**
 * The bundles whose signs can be chosen, and the signs of the chosen one, explained; others can be pasted.
 * @param {Market} market @param {number} student @param {Stage[]} stages
 */
export function signsNodes(market, student, stages) {
  const told = el('div', { class: 'answer', id: 'signs-told', 'aria-live': 'polite' });
  const name = studentName(market, student);
  const now = { stage: stages[0] };
  const press = (/** @type {number} */ at) =>
    choices.forEach((it, number) => it.setAttribute('aria-pressed', String(number === at)));
  const choose = (/** @type {number} */ at) => {
    press(at);
    now.stage = runs[at].stage;
    told.replaceChildren(...chosenNodes(market, student, now.stage));
  };
  const paste = (/** @type {string} */ typed) => {
    press(-1);
    told.replaceChildren(...explained(market, student, [now.stage, heldSince(stages), ...stages], typed));
    toAnswer(told);
  };
  const runs = signRuns(stages, menuOf(market, student));
  /** @type {HTMLElement[]} */
  const choices = runs.map((it, at) => el('button',
    { type: 'button', class: 'choice', onclick: () => { choose(at); toAnswer(told); } }, choiceNodes(market, it)));
  choose(0);
  return [
    p('Behind each bundle of the text stand signs, which prove that nothing better was to be had. Choose a bundle of '
      + `${name}: its signs are explained below, one by one.`),
    el('div', { class: 'choices', role: 'group', 'aria-label': `Bundles of ${name}` }, choices),
    opening('Explain other signs', () => pasteForm(paste)),
    told,
  ];
}

/**
 * The stages whose signs can be chosen: those that follow each other with the same signs of the same are one.
 * @param {Stage[]} stages @param {Menu} menu
 */
export function signRuns(stages, menu) {
  /** @type {{ stage: Stage, last: Stage, key: string }[]} */
  const runs = [];
  for (const it of stages) {
    const free = menu.places.filter(({ name }) => it.allowed?.has(name)).map(({ name }) => name);
    const key = [it.pass > 0, it.budget, it.names.join(), it.tree, free.join()].join(' ');
    if (runs.at(-1)?.key === key) runs.at(-1).last = it;
    else runs.push({ stage: it, last: it, key });
  }
  return runs;
}

/** @param {Market} market @param {{ stage: Stage, last: Stage }} run */
const choiceNodes = (market, { stage, last }) => [
  el('b', {}, `${stagesName(stage, last)}: `), namesCell(stage.names.map(it => section(market, it))), ' ',
  code(stage.tree.length > MOST_SIGNS ? `${stage.tree.slice(0, MOST_SIGNS)}..` : stage.tree),
];

/**
 * The field for signs that are pasted.
 * @param {(typed: string) => void} paste
 */
function pasteForm(paste) {
  const plain = { autocomplete: 'off', autocapitalize: 'off', spellcheck: 'false' };
  const field = el('textarea', { id: 'signs', rows: 2, ...plain });
  const onsubmit = (/** @type {Event} */ event) => {
    event.preventDefault();
    paste(field.value);
  };
  return [
    p('Paste signs, or a whole line of the text or of an answer. Signs alone are read as of the bundle that was chosen '
      + 'last, where they are not those of another.'),
    el('form', { class: 'signs', onsubmit }, el('label', { for: 'signs' }, 'The signs'), field,
      el('button', { class: 'main' }, 'Explain')),
  ];
}

/**
 * The stage since which a student holds what it holds in the end.
 * @param {Stage[]} stages
 */
export function heldSince(stages) {
  const last = stages.at(-1).names.join();
  return stages[stages.findLastIndex(it => it.names.join() !== last) + 1];
}

/**
 * The signs of a stage's bundle, explained.
 * @param {Market} market @param {number} student @param {Stage} stage
 * @returns {any[]}
 */
function chosenNodes(market, student, stage) {
  const { names, budget, allowed, tree } = stage, strange = unratedIn(market, student, names);
  if (strange.length) return [p(`Its signs cannot be read, since not rated above 0: ${sections(market, strange)}.`)];
  const walk = walkOf(market, student, { budget, allowed, champion: names });
  return [p(`These signs stand behind ${sections(market, names)} (${stageName(stage).toLowerCase()}, with a budget of `
    + `${tokens(budget)}):`), ...readNodes(walk, tree)];
}

/**
 * The signs of a tree, what each means, and all of them one after another.
 * @param {Walk} walk @param {string} tree
 */
const readNodes = (walk, tree) => [
  el('p', { class: 'tree-text' }, code(tree)),
  keyOf(tree, walk), walk.menu.places.length ? placeNames(walk.menu) : '',
  p(el('b', {}, 'One by one, from the left:')), ...stepNodes(stepsOf(walk, tree)),
];

/**
 * Signs that were pasted, explained.
 * @param {Market} market @param {number} student @param {Stage[]} stages that which counts most first
 * @param {string} typed
 * @returns {any[]}
 */
function explained(market, student, stages, typed) {
  const pasted = pastedSigns(typed), { name } = market.roll[student];
  if (!pasted.tree) return [p('Nothing stands in the field.')];
  if (pasted.student && pasted.student !== name) {
    return [p(`This is a line of ${pasted.student}, and shown is ${name}: signs can be read only with the ratings of `
      + 'their own student.')];
  }
  const proved = championOf(pasted.tree), menu = menuOf(market, student);
  const isWithin = proved?.champion.every(it => it < menu.places.length);
  const own = isWithin ? proved.champion.map(it => menu.places[it].name) : null;
  const stage = stageOf(stages, pasted, own), names = pasted.bundle ?? own ?? stage.names;
  const strange = unratedIn(market, student, names);
  if (strange.length) return [p(`Not rated above 0: ${sections(market, strange)}.`)];
  const forced = menu.places[proved?.forced ?? -1]?.name;
  const walk = walkOf(market, student, { budget: stage.budget, allowed: stage.allowed, champion: names, forced });
  const asked = forced ? `, ${section(market, forced)} being the section that is asked for` : '';
  const where = stageName(stage).toLowerCase(), of = sections(market, names);
  return [p(`Read as the signs of ${of} in the ${where}, with a budget of ${tokens(stage.budget)}${asked}.`),
    ...readNodes(walk, pasted.tree)];
}

/**
 * The stage that signs belong to: of the same signs, else of the same pass, else of the same bundle, else the first.
 * @param {Stage[]} stages @param {ReturnType<typeof pastedSigns>} pasted @param {string[] | null} own
 */
function stageOf(stages, pasted, own) {
  const bundle = pasted.bundle ?? own;
  return stages.find(it => it.tree === pasted.tree)
    ?? stages.find(it => it.pass === pasted.pass) ?? stages.find(it => it.names.join() === bundle?.join()) ?? stages[0];
}

/** @param {Generator<Step>} steps */
function stepNodes(steps) {
  const list = el('ul', { class: 'plain steps' }), end = el('div');
  const more = button('Further signs', () => add(), { class: 'small' });
  let next = steps.next();
  const isLast = () => next.value && ['end', 'fault'].includes(next.value.kind);
  const add = () => {
    for (let count = 0; next.value && (count < STEPS || isLast()); count++) {
      const step = next.value;
      if (step.kind === 'end') end.append(el('p', { class: 'right' }, step.words));
      else if (step.kind === 'fault') end.append(...faultNodes(step));
      else list.append(stepNode(step));
      next = steps.next();
    }
    more.hidden = !next.value;
  };
  add();
  return [list, more, end];
}

/** @param {Step} step */
const stepNode = ({ kind, sign: symbol, back, section: of, words }) => el('li', { class: kind }, sign(symbol), ' ',
  el('span', {}, back ? el('span', { class: 'back' }, `${back} `) : null, of ? [el('b', {}, of), ' '] : null, words));

/** @param {Step} step */
const faultNodes = ({ back, words }) => [
  el('p', { class: 'wrong' }, back ? `${back} ` : '', words), p('One of these may be the cause:'),
  el('ul', {}, CAUSES.map(it => el('li', {}, it))),
];
