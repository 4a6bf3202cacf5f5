// Tells files by what stands in them, and puts those of one market together.

import { decoded } from './bytes.js';
import { brief, listed, plural, shortList, visible } from './wording.js';

/**
 * What a file can be taken for, in words.
 * @type {Partial<Record<Kind, string>>}
 */
export const KINDS = {
  catalogue: 'catalogue', roll: 'roll', settings: 'settings', text: 'published text', session: 'session',
  manifest: 'manifest', own: 'one student\'s lines', names: 'the school\'s spelling', other: 'not needed here',
  unknown: 'not known',
};

/**
 * The files that there is one of, in words.
 * @type {Record<string, string>}
 */
export const NEEDED = {
  catalogue: 'the catalogue', roll: 'the roll', settings: 'the settings', text: 'the published text',
};

/** What is missing where there are no sessions, in words. */
export const SESSIONS = 'the sessions (what the students wished)';

/** What a student gives in their place, in words. */
export const OWN = 'your own lines (what you told the school; ask it for them)';

const LONGEST = 2 ** 27, LONGEST_MANIFEST = 2 ** 20, MOST_SESSIONS = 64;

/** @type {[RegExp, Kind][]} */
const BY_NAME = [
  [/^registrar-times/, 'other'], [/catalog/i, 'catalogue'], [/roll|student/i, 'roll'], [/setting/i, 'settings'],
  [/publish/i, 'text'], [/session/i, 'session'],
];

// The first lines of what the registrar's tools write beside a market.
const OF_TOOLS =
  /^(student,sections|section,student|section,place,student|file,row,request)\b|^<!doctype html>/i;

// How the file begins that those tools write for a student, of what it said itself.
const OWN_LINES = /^# What \S+ said, in the order in which the desk took it\./;

const OF_SESSIONS = ['rate', 'pair', 'clear', 'close'];
const OF_OTHERS = ['add', 'drop', 'leave', 'entry', 'settled', 'order', 'final', 'bundle', 'finding'];

/**
 * What a manifest lists, each with its role, file and sha256; null where these bytes are no manifest.
 * @param {Uint8Array} bytes
 * @returns {{ role: Kind, file: string, sha256?: string }[] | null}
 */
function entriesIn(bytes) {
  if (bytes.length > LONGEST_MANIFEST) return null;
  try {
    const { inputs, text } = JSON.parse(decoded(bytes));
    return [...inputs, ...text ? [{ ...text, role: 'text' }] : []].filter(it => Object.hasOwn(KINDS, it.role));
  } catch {
    return null;
  }
}

/**
 * As what a file is saved that is no text in UTF-8, and what is to be done, in words; nothing where that does not show.
 * @param {Uint8Array} bytes
 */
export function savedAs(bytes) {
  const begins = (/** @type {number[]} */ ...signs) => signs.every((it, at) => bytes[at] === it);
  if (begins(0x50, 0x4b, 3, 4)) {
    return 'a packed file or a workbook: give what is in it, of a workbook the sheet saved as CSV with commas';
  }
  if (begins(0x25, 0x50, 0x44, 0x46)) return 'a PDF, which no file of a market is';
  if (begins(0xff, 0xfe) || begins(0xfe, 0xff)) return 'a text in UTF-16: save it in UTF-8';
  return '';
}

/**
 * Whether a line has two words, the one behind the other, in capital letters or small ones. (A pattern would look anew
 * for the second behind each of the first, which takes seconds where a line of 64 KiB has nothing else.)
 * @param {string} line @param {string} one @param {string} other
 */
function hasInTurn(line, one, other) {
  const small = line.toLowerCase(), at = small.indexOf(one);
  return at >= 0 && small.includes(other, at + one.length);
}

/**
 * The kind of a file, by its first lines, and where these tell nothing by its name.
 * @param {string} name @param {Uint8Array} bytes
 * @returns {Kind}
 */
export function kindOf(name, bytes) {
  const head = decoded(bytes.subarray(0, 65536)), first = head.split(/\r\n|\r|\n/, 1)[0];
  if (savedAs(bytes)) return 'unknown';
  if (head.startsWith('course-match ')) return 'text';
  if (OWN_LINES.test(first)) return 'own';
  if (/^\s*\{/.test(head)) return entriesIn(bytes) ? 'manifest' : 'settings';
  if (hasInTurn(first, 'section', 'course')) return 'catalogue';
  if (hasInTurn(first, 'student', 'budget')) return 'roll';
  if (/^kind,original,name\b/.test(first)) return 'names';
  if (/^section/i.test(first) && hasInTurn(first, 'section', 'price') || OF_TOOLS.test(first)) return 'other';
  const word = /^[ \t]*([a-z]+)[ \t\r\n]/m.exec(head.replace(/^[ \t]*#.*$/gm, ''))?.[1];
  if (OF_SESSIONS.includes(word)) return 'session';
  if (OF_OTHERS.includes(word)) return 'other';
  if (/^\S+ \S+ (held|unrated|alone|clash|beside|less)\b/.test(first)) return 'other';
  return BY_NAME.find(([pattern]) => pattern.test(baseName(name)))?.[1] ?? 'unknown';
}

/**
 * All files of what was dropped, also those in folders; a name has the folders below what was dropped. What was dropped
 * can be asked for only before the first wait. To a page on a disk Chrome opens no entry, of a file or of a folder; so
 * files are taken as they come, and folders by their handles, and by entries where a browser has no handles.
 * @param {DataTransfer} transfer
 * @returns {Promise<BrowserFile[]>}
 */
export async function filesDropped(transfer) {
  const items = [...transfer.items].filter(it => it.kind === 'file').map((/** @type {any} */ it) => {
    const entry = it.webkitGetAsEntry?.();
    const handle = entry?.isDirectory ? it.getAsFileSystemHandle?.().catch(nothing) : null;
    return { file: it.getAsFile(), entry, handle };
  });
  const isOne = items.filter(it => it.entry?.isDirectory).length < 2, found = [];
  for (const { file, entry, handle } of items) {
    if (!entry?.isDirectory) found.push({ name: file.name, file });
    else found.push(...await filesBelow(await handle ?? entry, isOne ? '' : `${entry.name}/`));
  }
  return found.sort((one, other) => one.name.localeCompare(other.name, 'en', { numeric: true }));
}

/** @param {any} folder a handle or an entry @param {string} path @returns {Promise<BrowserFile[]>} */
async function filesBelow(folder, path) {
  const found = [], isHandle = !folder.createReader;
  for (const it of await (isHandle ? handlesBelow(folder) : entriesBelow(folder))) {
    const name = path + it.name;
    if (isHandle ? it.kind === 'directory' : it.isDirectory) found.push(...await filesBelow(it, `${name}/`));
    else found.push({ name, file: await (isHandle ? it.getFile() : new Promise((done, fail) => it.file(done, fail))) });
  }
  return found;
}

/** @param {any} folder @returns {Promise<any[]>} */
async function handlesBelow(folder) {
  const found = [];
  for await (const it of folder.values()) found.push(it);
  return found;
}

/** @param {any} folder @returns {Promise<any[]>} */
async function entriesBelow(folder) {
  const reader = folder.createReader(), found = [];
  for (;;) {
    const more = await new Promise((done, fail) => reader.readEntries(done, fail));
    if (!more.length) return found;
    found.push(...more);
  }
}

/**
 * Reads a file. One that is longer than any of a market, or that the browser cannot read, is kept by its name alone.
 * @param {BrowserFile} of
 * @returns {Promise<GivenFile>}
 */
export async function loaded({ name: given, file }) {
  const name = visible(given);
  const bytes = file.size > LONGEST ? null : await file.arrayBuffer().then(it => new Uint8Array(it), () => null);
  if (!bytes) return { name, bytes: new Uint8Array(), kind: 'unknown', isUnread: true };
  return { name, bytes, kind: kindOf(name, bytes) };
}

const nothing = () => /** @type {null} */ (null);

/** @param {string} path */
const baseName = path => String(path).split(/[\\/]/).at(-1);

/**
 * The files that a manifest names, in its order; the faults are in words. Where somebody's own lines are there,
 * sessions may be missing.
 * @param {GivenFile} manifest @param {GivenFile[]} files with their sums
 */
function byManifest(manifest, files) {
  const hasOwn = files.some(it => it.kind === 'own');
  const entries = entriesIn(manifest.bytes), faults = [];
  /** @type {Parts} */
  const found = { sessions: [] };
  if (!entries) {
    faults.push(`${manifest.name} is taken for a manifest and is none: remove it, or choose in the list what it is.`);
  }
  for (const { role, file, sha256 } of entries ?? []) {
    const path = baseName(file), base = visible(path);
    const named = files.find(it => it.name === base) ?? files.find(it => baseName(it.name) === base);
    if (!named && role === 'session' && hasOwn) continue;
    if (!named) {
      faults.push(`${manifest.name} names ${brief(path)}, which is not among the files: give it, or remove `
        + `${manifest.name}.`);
      continue;
    }
    const { sum } = named;
    if (sum && sha256 && sum !== String(sha256).toLowerCase()) {
      faults.push(`${named.name} is not the file that ${manifest.name} tells of: its SHA-256 is another. `
        + `Give that file, or remove ${manifest.name}.`);
    }
    named.kind = role;
    if (role === 'session') found.sessions.push(named);
    else found[/** @type {'text'} */ (role)] = named;
  }
  return { found, faults: fewOf(faults) };
}

/** How many faults of a manifest are told: the list of one may be as long as it likes. */
const MOST_FAULTS = 12;

/** @param {string[]} faults */
const fewOf = faults => faults.length <= MOST_FAULTS ? faults
  : [...faults.slice(0, MOST_FAULTS), `${plural(faults.length - MOST_FAULTS, 'more fault')} of it stand behind these.`];

/**
 * The parts of the market among the files; faults and lacks are in words. What a manifest names, by the sums that the
 * files have, goes before what the files' content tells, and its order of the sessions before that of the list;
 * `unused` are the files of a market that it does not name.
 * @param {GivenFile[]} files
 * @param {string[]} [wanted] the kinds that must be there, besides sessions
 */
export function partsOf(files, wanted = Object.keys(NEEDED)) {
  const of = (/** @type {string} */ kind) => files.filter(it => it.kind === kind), manifests = of('manifest');
  const { found, faults } = manifests.length ? byManifest(manifests[0], files)
    : { found: /** @type {Parts} */ ({ sessions: [] }), faults: [] };
  const isByManifest = found.sessions.length > 0;
  /** @type {any} */
  const parts = { ...found, sessions: isByManifest ? found.sessions : of('session') };
  faults.push(...tooMany(manifests, parts.sessions));
  for (const kind of Object.keys(NEEDED)) {
    parts[kind] ??= of(kind).at(-1);
    if (!(/** @type {any} */ (found))[kind] && of(kind).length > 1) {
      const names = shortList(of(kind).map(it => it.name));
      faults.push(`Several files are taken for ${NEEDED[kind]} (${names}): remove all but one.`);
    }
  }
  const lacks = wanted.filter(kind => !parts[kind]).map(kind => NEEDED[kind]);
  if (!parts.sessions.length) lacks.push(SESSIONS);
  const used = new Set(Object.values(parts).flat());
  const unused = files.filter(it => (NEEDED[it.kind] || it.kind === 'session') && !used.has(it));
  return { parts: /** @type {Parts} */ (parts), faults, lacks, isByManifest, unused };
}

/** @param {GivenFile[]} manifests @param {GivenFile[]} sessions */
function tooMany(manifests, sessions) {
  return [
    manifests.length > 1
      ? `Several files are manifests (${listed(manifests.map(it => it.name))}): remove all but one.` : '',
    sessions.length > MOST_SESSIONS
      ? `${sessions.length} files are taken for sessions, and a market has at most ${MOST_SESSIONS}: remove those that `
        + 'are none of this market, or choose in the list what they are.' : '',
  ].filter(Boolean);
}
