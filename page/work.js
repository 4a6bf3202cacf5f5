// The one program of the page, and what the page tells while it works.

import { $ } from './elements.js';
import { Program } from './program.js';
import { STOPPED_WORDS } from './words.js';

/** @type {Program} */
let program;
const progress = {
  /** how many calls wait for their answers */
  count: 0,
  title: '',
  note: '',
  /** when the first of them began, in milliseconds of the page */
  begun: 0,
  /** @type {ReturnType<typeof setInterval> | undefined} */
  clock: undefined,
};

/** @param {WebAssembly.Module} module @param {string} worker the source of its script */
export function startProgram(module, worker) {
  program = new Program(module, worker);
}

/** Whether a call waits for its answer. */
export const isWorking = () => progress.count > 0;

/** Stops the work: whoever waits for an answer gets `stopped`. */
export const stopWork = () => program.stop();

/**
 * Runs one call of the program, and tells that it works and for how long.
 * @param {string} title what it does
 * @param {{ words: string[], files: [string, Uint8Array][] }} call
 * @param {string} [note] what is known of how long it takes
 * @returns {Promise<Answer>}
 */
export const work = (title, call, note) => told(title, () => program.ask(call), note);

/** @typedef {typeof import('./readings.js').READINGS} Readings */

/**
 * Has the worker read something, and tells so as of a run; null where that was stopped.
 * @template {keyof Readings} Name
 * @param {string} title what it does @param {Name} name @param {...any} given
 * @returns {Promise<Awaited<ReturnType<Readings[Name]>> | null>}
 */
export const read = (title, name, ...given) => told(title, () => program.read(name, given));

/**
 * What an answer that is no result says: what was refused may be long, so the worker reads it.
 * @param {Answer} answer @param {Call} call
 * @returns {Promise<Told>}
 */
export const toldOf = async (answer, call) => answer.status === 'stopped' ? STOPPED_WORDS
  : await read('Reading what is refused', 'told', answer, call) ?? STOPPED_WORDS;

/**
 * Tells that something is done, as long as it is.
 * @template Value
 * @param {string} title @param {() => Promise<Value>} go @param {string} [note]
 */
async function told(title, go, note = '') {
  if (!progress.count++) {
    progress.begun = performance.now();
    progress.clock = setInterval(tell, 100);
  }
  [progress.title, progress.note] = [`${title} ..`, note];
  try {
    return await go();
  } finally {
    if (--progress.count === 0) rest();
  }
}

function tell() {
  const ms = performance.now() - progress.begun;
  if (ms <= 300) return;
  $('working').hidden = false;
  for (const it of [$('working-words'), $('working-said')]) {
    if (it.textContent !== progress.title) it.textContent = progress.title;
  }
  $('working-time').textContent = ms < 1000 ? '' : `${Math.floor(ms / 1000)} s`;
  $('working-note').textContent = ms < 1000 ? '' : progress.note;
}

function rest() {
  clearInterval(progress.clock);
  const had = $('working').contains(document.activeElement);
  $('working').hidden = true;
  $('working-said').textContent = '';
  // (what has the focus must not vanish with it: the pressed one of the views has it then)
  if (had) /** @type {HTMLElement} */ (document.querySelector('[role=tab][aria-selected=true]'))?.focus();
}
