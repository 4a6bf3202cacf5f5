// The page: files in, the check, and the three readers' views.

import { saidByAll } from './alone.js';
import { decoded, encoded } from './bytes.js';
import { checked, marketOf, ordersOf, ownMarket, stopped, summed } from './checking.js';
import { $ } from './elements.js';
import { FileList } from './file_list.js';
import { SESSIONS, filesDropped, kindOf, loaded, partsOf } from './files.js';
import { ownFiles } from './own_market.js';
import { RatingForm } from './rating_form.js';
import { Registrar } from './registrar.js';
import { AS_NAMED, spellingBy } from './spelling.js';
import { changesIn, exampleIn, held, showSums } from './sums.js';
import {
  clearVerdict, showAccepted, showChanged, showFailure, showFound, showStrangers, showOpen, showRefused, showUnopened,
} from './verdict.js';
import { drawReaders, listenToViews, recall, remember, show, shownView } from './views.js';
import { orderOf } from './wishes.js';
import { refusalOf } from './words.js';
import { isWorking, read, startProgram, stopWork } from './work.js';

const GIVE = 'First give the published files above. When their text holds, this part shows what it says.';
const GIVE_OWN = 'The published files are there. Give your own lines too: then this part shows what they say.';
const CHECKING = 'The files are being checked. When their text holds, this part shows what it says.';
const READING = 'The text holds, and is being read. Then this part shows what it says.';
const NOTHING = 'The text does not hold, so nothing of it is shown here.';

/** @type {About} */
const about = JSON.parse($('about').textContent);
const list = new FileList(() => check()), registrar = new Registrar(about, takeRun), form = new RatingForm();

/**
 * How the school spells names, by the files that are there.
 * @type {Spelling}
 */
let spelling = AS_NAMED;

/** How many checks were begun: the answers of one that is not the last are of old files. */
let checks = 0;

/**
 * Reads files and takes them; null stands for a folder that the browser did not open.
 * @param {BrowserFile[] | null} files
 */
async function give(files) {
  if (!files) return showUnopened();
  if (files.length) list.take(await Promise.all(files.map(loaded)));
}

/**
 * Takes what a run made in the place of what there was of it.
 * @param {GivenFile} text @param {GivenFile} settings
 */
async function takeRun(text, settings) {
  list.files = [...list.files.filter(it => !['text', 'settings', 'manifest'].includes(it.kind)), settings, text];
  show(await check() ? 'auditor' : 'registrar');
  remember();
  shownView().querySelector('h2')?.focus();
}

/**
 * Checks what is there. The answers on the files of before are gone at once, and what was under way on them is stopped.
 * @returns {Promise<boolean>} whether the text holds
 */
async function check() {
  const number = ++checks, isOld = () => number !== checks;
  registrar.filesChanged();
  if (isWorking()) stopWork();
  clearVerdict();
  document.body.classList.remove('answered');
  drawReaders(null, list.files.length ? CHECKING : GIVE);
  const areSummed = !list.files.some(it => it.kind === 'manifest') || await summed(list.files);
  if (isOld()) return false;
  const { parts, faults, lacks, isByManifest, unused } = partsOf(list.files);
  if (isOld()) return false;
  list.isByManifest = isByManifest;
  list.draw();
  const tables = await tablesOf(parts);
  if (isOld()) return false;
  if (!tables || !areSummed) return refuse(stopped(parts), isOld);
  spelling = tables.originals ? spellingBy(tables.originals, tables) : AS_NAMED;
  $('registrar').replaceChildren(...registrar.view(list.files, tables.roll.length));
  $('rate').replaceChildren(...form.view(list.files, parts.catalogue, tables, spelling));
  if (!list.files.length) return false;
  const found = await ordersOf(parts);
  if (isOld()) return false;
  if (!found) return refuse(stopped(parts), isOld);
  const own = ownFiles(list.files, parts, found.areOwn);
  const missing = own.length ? lacks.filter(it => it !== SESSIONS) : lacks;
  if (missing.length || faults.length) {
    showOpen(list.files, faults, missing);
    drawReaders(null, !faults.length && missing.every(it => it === SESSIONS) ? GIVE_OWN : GIVE);
    return false;
  }
  if (own.length) return checkOwn(parts, own, isOld);
  const counts = { students: tables.roll.length, sections: tables.catalogue.length };
  return checkParts(parts, isByManifest ? [] : found.orders, counts, unused, isOld);
}

/**
 * What the form shows of the files; null where reading them was stopped.
 * @param {Parts} parts
 * @returns {Promise<ReadTables | null>}
 */
async function tablesOf({ catalogue, roll }) {
  const names = list.files.filter(it => it.kind === 'names').at(-1);
  return catalogue || roll || names ? read('Reading the files', 'tables', catalogue, roll, names)
    : { catalogue: [], roll: [], originals: null, strange: [] };
}

/**
 * Checks the whole text. The verdict is told as soon as it is there; what the views show is read behind it.
 * @param {Parts} parts @param {number[][]} orders @param {{ students: number, sections: number }} counts
 * @param {GivenFile[]} unused @param {() => boolean} isOld
 */
async function checkParts(parts, orders, counts, unused, isOld) {
  const answered = await checked(parts, orders);
  if (isOld()) return false;
  if (answered.answer.status !== 0) return refuse(answered, isOld);
  closeFiles();
  showAccepted(answered, counts, unused);
  drawReaders(null, READING);
  const { market, refusal } = await marketOf(answered, spelling);
  if (isOld()) return false;
  if (!market) return refuse(refusal, isOld);
  drawReaders(market, '');
  return true;
}

/**
 * Checks what can be known with nobody's lines but these.
 * @param {Parts} parts @param {GivenFile[]} own @param {() => boolean} isOld
 */
async function checkOwn(parts, own, isOld) {
  const { market, refusal, finding } = await ownMarket(parts, own, spelling);
  if (isOld()) return false;
  if (refusal) return refuse(refusal, isOld);
  if (finding) {
    const excerpt = await read('Reading the text', 'excerpt', finding, parts);
    if (isOld()) return false;
    showFound(finding, excerpt, parts.text.name);
    drawReaders(null, NOTHING);
    return false;
  }
  if (market.said.size) closeFiles();
  else showStrangers(market, own);
  drawReaders(market, '');
  return true;
}

/** @param {Checked} refusal @param {() => boolean} isOld */
async function refuse(refusal, isOld) {
  const isStopped = refusal.answer.status === 'stopped', { parts } = refusal;
  const words = isStopped ? null : await read('Reading what is refused', 'refusal', refusal);
  if (isOld()) return false;
  const again = () => { $('files').querySelector('summary').focus(); check(); };
  const told = words ?? refusalOf(stopped(parts));
  showRefused(told, parts.text?.name, words ? null : again);
  drawReaders(null, told.told.finding ? NOTHING : GIVE);
  return false;
}

/** Makes room for an answer: folds the list of the files. What has the focus in it gives it to the line that stays. */
function closeFiles() {
  document.body.classList.add('answered');
  if ($('files').contains(document.activeElement)) $('files').querySelector('summary').focus();
  $('files').open = false;
}

/**
 * The example term as files that were given.
 * @param {[string, string][]} texts each with its name
 * @returns {GivenFile[]}
 */
function exampleFiles(texts) {
  return texts.map(([name, text]) => {
    const bytes = encoded(text);
    return { name, bytes, kind: kindOf(name, bytes) };
  });
}

/**
 * Takes of the example what one of its students has: what is published, and its own lines.
 * @param {GivenFile[]} files
 */
function takeOwnExample(files) {
  const { bytes } = files.find(it => it.kind === 'text'), name = 'n.jones';
  const sessions = files.filter(it => it.kind === 'session').map(it => it.bytes);
  const said = saidByAll(orderOf(bytes), sessions).get(name);
  list.set([...files.filter(it => it.kind !== 'session'), { name: `${name}.session`, kind: 'own', bytes: said.bytes }]);
}

/** @param {[string, string][]} example the files of the example term */
function listen(example) {
  addEventListener('unhandledrejection', event => showFailure(event.reason));
  addEventListener('error', event => showFailure(event.message));
  $('choose').addEventListener('change', async (/** @type {any} */ event) => {
    await give([...event.target.files].map(file => ({ name: file.name, file })));
    event.target.value = '';
  });
  $('example').addEventListener('click', () => list.set(exampleFiles(example)));
  $('example-own').addEventListener('click', () => takeOwnExample(exampleFiles(example)));
  $('clear').addEventListener('click', () => { $('choose').focus(); list.set([]); });
  $('stop').addEventListener('click', stopWork);
  addEventListener('beforeunload', event => { if (registrar.mayLose() || form.mayLose()) event.preventDefault(); });
  listenToViews();
  listenToDrops();
  listenToPrints();
}

function listenToDrops() {
  addEventListener('dragover', event => { event.preventDefault(); $('drop').classList.add('over'); });
  addEventListener('dragleave', event => { if (!event.relatedTarget) $('drop').classList.remove('over'); });
  addEventListener('drop', async event => {
    event.preventDefault();
    $('drop').classList.remove('over');
    await give(await filesDropped(event.dataTransfer).catch(() => null));
  });
}

/**
 * Of the questions that were asked, those that are closed on the screen are open on paper; so is what was checked, and
 * what that means.
 */
function listenToPrints() {
  /** @type {Opening[]} */
  const closed = [];
  addEventListener('beforeprint', () => {
    for (const it of [shownView(), ...shownView().querySelectorAll('.below')]) /** @type {any} */ (it).fill?.();
    for (const it of shownView().querySelectorAll('tbody')) it.fill?.();
    const folded = 'details.question:not([open]):has(.answer), details.paper:not([open])';
    for (const it of /** @type {NodeListOf<Opening>} */ (document.querySelectorAll(folded))) {
      it.open = true;
      it.fill();
      closed.push(it);
    }
  });
  addEventListener('afterprint', () => { for (const it of closed.splice(0)) it.open = false; });
}

async function begin() {
  if (typeof WebAssembly === 'undefined' || typeof DecompressionStream === 'undefined') return refuseBrowser();
  const parts = await held().catch(fault => `It cannot be unpacked (${fault}).`);
  const changes = typeof parts === 'string' ? [parts] : changesIn(parts, about);
  if (typeof parts === 'string' || changes.length) {
    return showChanged(changes);
  }
  if (!WebAssembly.validate(parts.bytes.module)) return refuseBrowser();
  showSums(parts);
  startProgram(await WebAssembly.compile(parts.bytes.module), decoded(parts.bytes.worker));
  window.onerror = null;
  listen(exampleIn(parts));
  document.querySelector('main').hidden = false;
  recall();
  await check();
  document.body.dataset.ready = 'yes';
}

/**
 * Tells that the page could not begin: nothing that would do nothing is shown.
 * @param {any} fault
 */
function failed(fault) {
  document.querySelector('main').hidden = false;
  for (const it of ['files', 'tabs']) $(it).hidden = true;
  showFailure(fault);
}

begin().catch(failed);
