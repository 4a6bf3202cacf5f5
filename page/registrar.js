// What a registrar does here: chooses settings, looks what the desk replies, runs the market and saves what it
// publishes.

import { isSame } from './bytes.js';
import { summed } from './checking.js';
import { $, button, el, p, save } from './elements.js';
import { partsOf } from './files.js';
import { tableOf } from './grid.js';
import { callOf } from './program.js';
import {
  NAMES, RANGES, settingsFile, settingsIn, settingsNotes, settingsText, usual, wrongField,
} from './settings.js';
import { REPLIES } from './wishes.js';
import { brief, listed, plural, quoted, shortList, timed } from './wording.js';
import { STOPPED_WORDS } from './words.js';
import { read, toldOf, work } from './work.js';

/**
 * What each setting does.
 * @type {Record<string, string>}
 */
const ABOUT = {
  seed: 'Draws the ranks that tell equal budgets apart, and the prices of a search that starts anew. Publish it, or '
    + 'how it is drawn, before the wishes close.',
  spread: 'Tokens between the budgets of neighbouring ranks. With 1 or more no two students of equal base and carry '
    + 'have equal budgets. A large spread makes the draw matter more.',
  accept: 'The greatest clearing error with which the search may end: the sum, over all sections, of the square of the '
    + 'students too many, or of the seats left free where the price is not 0. If the search does not come so far, the '
    + 'run tells the least error that it saw.',
  turns: 'How many turns the search has. The time of a run grows with it.',
  tabu: 'For how many turns the search does not come back to what it has seen.',
  patience: 'After how many turns without a better result the search starts anew from drawn prices.',
  steps: 'Each number is one try of the search: it raises each price by so many tokens for each student too many, or '
    + 'lowers it by so many for each free seat, all sections at once. Each is one more question to all students, each '
    + 'turn.',
  raise: 'By how many percent budgets rise in the aftermarket, where the free seats go.',
};

/**
 * What a run made, and of what.
 * @typedef {object} Made
 * @property {Parts} parts
 * @property {GivenFile} settings
 * @property {GivenFile} text
 * @property {string} manifest
 * @property {number} ms
 * @property {string} warning
 * @property {boolean} [isSaved]
 */

/** The registrar's view. */
export class Registrar {
  /**
   * @param {About} about what a manifest says of the program
   * @param {(text: GivenFile, settings: GivenFile) => void} take gives what a run made to the check
   */
  constructor(about, take) {
    this.about = about;
    this.take = take;
    /** @type {Made | null} */
    this.made = null;
    /**
     * What was typed into the form, and of which settings.
     * @type {{ of: GivenFile | undefined, values: Record<string, string> } | null}
     */
    this.typed = null;
    this.isRunning = false;
    this.isStopped = false;
    this.students = 0;
  }

  /** Whether something would be lost with the page. */
  mayLose() {
    return this.isRunning || this.made !== null && !this.made.isSaved;
  }

  /** Tells that the files were changed: a run that is under way is of other files. */
  filesChanged() {
    this.isStopped ||= this.isRunning;
  }

  /**
   * The whole view.
   * @param {GivenFile[]} files @param {number} students how many the roll has
   * @returns {any[]}
   */
  view(files, students) {
    this.students = students;
    const { parts, faults, lacks, isByManifest } = partsOf(files, ['catalogue', 'roll']);
    const head = [el('h2', { tabindex: '-1' }, 'Run a market'),
      p('This makes the text that is to be published, out of the catalogue, the roll, the settings and the sessions. '
        + 'The files stay on this machine.')];
    if (lacks.length || faults.length) {
      return [...head, p(faults.join(' ') || `First give the files above. Missing: ${listed(lacks)}.`)];
    }
    const looked = el('div'), told = el('div', {}, this.toldBefore(parts));
    const used = listed([parts.catalogue, parts.roll, ...parts.sessions].map(it => it.name));
    return [...head, p(`It takes ${used}.${orderWords(parts, isByManifest)}`), this.form(parts, looked, told),
      el('div', { class: 'answer', id: 'run-answer', 'aria-live': 'polite' }, looked, told)];
  }

  /**
   * What stands there of a run before: it is shown where the files are given that it was made of.
   * @param {Parts} parts
   */
  toldBefore(parts) {
    if (this.made && isMadeOf(this.made, parts)) return this.madePart(this.made);
    return this.isStopped ? p('The files were changed, so the run was stopped: run the market again.') : '';
  }

  /** @param {Parts} parts @param {HTMLElement} looked @param {HTMLElement} told */
  form(parts, looked, told) {
    const of = parts.settings;
    const onsubmit = (/** @type {Event} */ event) => {
      event.preventDefault();
      if (!isBusy) run();
    };
    const oninput = () => {
      forgetFaults();
      this.typed = { of, values: formValues(form) };
    };
    let isBusy = false;
    const run = async () => {
      isBusy = true;
      looked.replaceChildren();
      await this.runWith(parts, formValues(form), told);
      isBusy = false;
    };
    const values = this.typed?.of === of && this.typed?.values || (of ? settingsIn(settingsText(of)) : {});
    const form = el('form', { onsubmit, oninput }, of ? settingsNotes(of).map(it => p(el('b', {}, it))) : '',
      settingsFields(values), el('p', { class: 'buttons' },
        button('Look at the wishes', () => lookAtWishes(parts, looked)),
        el('button', { class: 'main' }, 'Run the market')));
    return form;
  }

  /**
   * Runs the market with the values of the form.
   * @param {Parts} parts @param {Record<string, string>} values @param {HTMLElement} told
   */
  async runWith(parts, values, told) {
    const wrong = wrongField(values);
    forgetFaults();
    if (wrong) {
      return markField(wrong, `${quoted(values[wrong])} stands here. Expected: `
        + `${wrong === 'steps' ? '' : 'a whole number, '}${RANGES[wrong]}, without point, exponent, sign or leading `
        + `zeros.`);
    }
    told.replaceChildren();
    [this.isRunning, this.isStopped, this.made] = [true, false, null];
    await this.run(parts, settingsFile(values), told);
    this.isRunning = false;
  }

  /** @param {Parts} parts @param {GivenFile} settings @param {HTMLElement} told */
  async run(parts, settings, told) {
    const call = callOf('run', { ...parts, settings }), note = timeWords(this.students, settings);
    const answer = await work('Running the market', call, note);
    if (answer.status !== 0) {
      const words = await toldOf(answer, call);
      return told.replaceChildren(...refusedRun(words, answer, call.inputs));
    }
    /** @type {GivenFile} */
    const text = { name: 'published.txt', kind: 'text', bytes: answer.out };
    const manifest = await this.manifestOf({ ...parts, settings }, text, answer.ms);
    this.made = { parts, settings, text, ms: answer.ms, manifest, warning: await wishesWarning(parts) };
    told.replaceChildren(...this.madePart(this.made));
  }

  /**
   * What the registrar's tools read to check a text without naming its files again.
   * @param {Parts} parts @param {GivenFile} text @param {number} ms
   */
  async manifestOf(parts, text, ms) {
    /** @type {[string, GivenFile][]} */
    const kinds = [
      ['catalogue', parts.catalogue], ['roll', parts.roll], ['settings', parts.settings],
      ...parts.sessions.map(it => /** @type {[string, GivenFile]} */ (['session', it])),
    ];
    await summed([...kinds.map(([, it]) => it), text]);
    const inputs = kinds.map(([role, it]) => ({ role, file: it.name, sha256: it.sum ?? null }));
    return JSON.stringify({
      inputs, words: ['run', '1', ...inputs.map(it => it.file)], program: this.about.sums.module,
      text: { file: text.name, sha256: text.sum ?? null }, elapsed: Math.round(ms / 100) / 10,
      made: new Date().toISOString(), page: this.about.version,
      ...this.about.proved ? {} : { unproved: 'built without proofs: trust nothing in it' },
    }, null, 2) + '\n';
  }

  /** @param {Made} made */
  madePart(made) {
    const settings = settingsIn(settingsText(made.settings)), said = NAMES.map(it => `${it} ${settings[it]}`);
    return [el('h3', {}, 'The market has prices'),
      p(`The run took ${timed(made.ms)}, with these settings: ${said.join('; ')}.`),
      made.warning ? p(el('b', {}, made.warning)) : '',
      p('Publish the text with the catalogue, the roll, the settings and the sessions: whoever has them can check it. '
        + 'The manifest, which the registrar\'s tools read, has the names of these files and the SHA-256 of each.'),
      el('p', { class: 'buttons' },
        button('Save the published text', () => { made.isSaved = true; save('published.txt', made.text.bytes); }),
        button('Save the settings', () => save('settings.json', made.settings.bytes)),
        button('Save the manifest', () => save('manifest.json', made.manifest)),
        button('Check it and look at it', () => this.take(made.text, made.settings), { class: 'main' }))];
  }
}

/**
 * What is known of how long a run takes: it tells nothing before its end. (With one worker the native program takes
 * some 5 s for 2,000 students and 400 contested sections; a page takes about twice that, and a phone longer.)
 * @param {number} students @param {GivenFile} settings
 */
function timeWords(students, settings) {
  const mostly = students <= 150 ? 'about a second' : students <= 600 ? 'some seconds' : 'less than a minute';
  const { turns } = settingsIn(settingsText(settings));
  return `How far it is cannot be told. The search has at most ${plural(Number(turns), 'turn')}; `
    + `with ${plural(students, 'student')} it takes mostly ${mostly}, and longer where the turns are many.`;
}

/** @param {Made} made @param {Parts} parts */
function isMadeOf(made, { catalogue, roll, sessions }) {
  const before = [made.parts.catalogue, made.parts.roll, ...made.parts.sessions], now = [catalogue, roll, ...sessions];
  return before.length === now.length && before.every((it, at) =>
    it === now[at] || it.name === now[at].name && isSame(it.bytes, now[at].bytes));
}

/** @param {Parts} parts @param {boolean} isByManifest */
function orderWords(parts, isByManifest) {
  if (parts.sessions.length < 2) return '';
  const why = isByManifest ? ', which is that of the manifest' : '; “Up” in the list above changes it';
  return ` Here the sessions are heard one after the other, in this order${why}.`;
}

/** @param {Record<string, string>} values */
function settingsFields(values) {
  return el('fieldset', { class: 'settings-form' }, el('legend', {}, 'Settings'),
    NAMES.map(name => el('div', { class: 'setting' },
      el('label', { for: `setting-${name}` }, name),
      el('input', {
        id: `setting-${name}`, name, value: values[name] ?? usual(name), autocomplete: 'off',
        'aria-describedby': `about-${name}`,
      }),
      el('p', { id: `about-${name}`, class: 'quiet' },
        `${ABOUT[name]} (${RANGES[name].replace(/^a list of /, '')})`))));
}

/** @param {HTMLFormElement} form */
const formValues = form => Object.fromEntries(NAMES.map(name =>
  [name, /** @type {HTMLInputElement} */ (form.elements.namedItem(name)).value.trim()]));

/** @param {Look} look */
function lookPart({ replies, all, silent, unwanted, several }) {
  const lines = [
    `The desk carried out ${all - replies.length} of ${all} commands.`,
    silent.length ? `${plural(silent.length, 'student wants', 'students want')} nothing: ${shortList(silent)}.`
      : 'Each student wants something.',
    unwanted.length ? `Nobody wants ${shortList(unwanted)}.` : 'Each section is wanted by somebody.',
    several.length
      ? `${plural(several.length, 'student is', 'students are')} named in more than one session `
        + `(${shortList(several.map(brief))}): what `
        + 'they want at the end may depend on which session is heard first.' : '',
  ].filter(Boolean);
  const table = replies.length ? tableOf('Commands that the desk did not carry out', [
    { head: 'File', of: it => it.file, isText: true },
    { head: 'Line', of: it => it.row },
    { head: 'Reply', of: it => it.reply, isText: true },
    { head: 'Why', of: it => REPLIES[it.reply] ?? '', isText: true },
    { head: 'Command', of: it => it.command, isText: true },
  ], replies) : '';
  return [el('ul', {}, lines.map(it => el('li', {}, it))), table];
}

/**
 * What is to be known of the wishes before a text is published; nothing where the desk carried out all and each student
 * wants something.
 * @param {Parts} parts
 */
async function wishesWarning(parts) {
  const found = await read('Reading what the students want', 'look', parts);
  if (!found?.look) return '';
  const { all, replies, silent } = found.look;
  const told = [
    replies.length ? `the desk did not carry out ${replies.length} of ${all} commands` : '',
    silent.length ? `${plural(silent.length, 'student wants', 'students want')} nothing` : '',
  ].filter(Boolean);
  return told.length ? `Before you publish it: ${told.join(', and ')}. “Look at the wishes” shows which.` : '';
}

/** @param {Parts} parts @param {HTMLElement} to */
async function lookAtWishes(parts, to) {
  const found = await read('Reading what the students want', 'look', parts), look = found?.look;
  /** @type {Told} */
  const told = found?.told ?? STOPPED_WORDS;
  if (look) to.replaceChildren(el('h3', {}, 'What the desk replies'), ...lookPart(look));
  else to.replaceChildren(el('h3', {}, told.title), p(told.words), told.help ? p(told.help) : '');
}

/**
 * What a run without prices says. What is wrong with a setting is told of the form, in which it stands.
 * @param {Told} told @param {Answer} answer @param {GivenFile[]} inputs
 */
function refusedRun({ title, words, help }, answer, inputs) {
  const least = /least error (\d+)\n$/.exec(answer.text ?? '')?.[1];
  const number = Number(/^input (\d+) row/.exec(answer.text ?? '')?.[1]);
  const name = inputs[number - 1]?.kind === 'settings' ? /The setting (\w+)/.exec(words)?.[1] : undefined;
  if (name) {
    markField(name, words.replace(/^settings\.json[^:]*: /, ''));
    return [];
  }
  const set = () => {
    $('setting-accept').value = least;
    $('setting-accept').dispatchEvent(new Event('input', { bubbles: true }));
    $('setting-accept').focus();
  };
  return [el('div', { class: 'fault' }, el('h3', {}, title), p(words), help ? p(help) : '',
    least ? button(`Set “accept” to ${least}`, set) : '')];
}

/**
 * Says below a field of the form what is wrong with it.
 * @param {string} name @param {string} words
 */
function markField(name, words) {
  const field = $(`setting-${name}`);
  field.after(el('p', { class: 'fault', id: `wrong-${name}` }, words));
  field.setAttribute('aria-invalid', 'true');
  field.setAttribute('aria-describedby', `wrong-${name} about-${name}`);
  field.focus();
}

/** Takes away what is told of settings, as one of them is changed or the market is run. */
function forgetFaults() {
  document.querySelectorAll('#registrar .fault').forEach(it => it.remove());
  /** @type {NodeListOf<HTMLInputElement>} */
  const marked = document.querySelectorAll('#registrar [aria-invalid]');
  for (const it of marked) {
    it.removeAttribute('aria-invalid');
    it.setAttribute('aria-describedby', `about-${it.name}`);
  }
}
