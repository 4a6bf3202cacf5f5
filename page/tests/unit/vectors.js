// The worked examples beside the repository, as the modules take them; their answers come from no program of this
// project.

import { existsSync, readFileSync, readdirSync } from 'node:fs';
import { fileURLToPath } from 'node:url';
import { dirname, join } from 'node:path';

import { commandLines, saidByAll } from '../../alone.js';
import { catalogueOf, rollOf } from '../../tables.js';
import { countsOf, publishedOf } from '../../texts.js';

export const TOP = join(dirname(fileURLToPath(import.meta.url)), '../../..');

/** The folder of the examples: the variable VECTORS, or beside the repository. */
export const VECTORS = process.env.VECTORS ?? join(TOP, '../shared/vectors');
export const TERM = join(TOP, 'examples/term');
export const hasVectors = existsSync(VECTORS);

/** The cases of a form, each with its words, its files by name and what is printed. @param {string} form */
export function cases(form) {
  if (!hasVectors) return [];
  return readdirSync(join(VECTORS, form)).filter(it => existsSync(join(VECTORS, form, it, 'stdout'))).map(name => {
    const folder = join(VECTORS, form, name), read = (/** @type {string} */ it) => readFileSync(join(folder, it));
    const words = read('words').toString().trimEnd().split('\n'), files = new Map();
    for (const it of words) if (existsSync(join(folder, it))) files.set(it, new Uint8Array(read(it)));
    return { name, words, files, status: Number(read('status')), stdout: read('stdout').toString() };
  });
}

/**
 * What students want at the end of the given sessions, by a desk of a few lines for well-formed commands.
 * @param {string} text the lines, one student's or several
 */
export function wishesAfter(text) {
  const wishes = new Map();
  const nothing = () => ({ ratings: new Map(), pairs: new Map() });
  const of = (/** @type {string} */ name) => wishes.get(name) ?? wishes.set(name, nothing()).get(name);
  for (const line of commandLines(new TextEncoder().encode(text))) {
    const [word, name, ...rest] = new TextDecoder().decode(line).trim().split(/[ \t]+/);
    if (word === 'clear') wishes.delete(name);
    if (word === 'rate' && Number(rest[1])) of(name).ratings.set(rest[0], Number(rest[1]));
    else if (word === 'rate') of(name).ratings.delete(rest[0]);
    if (word === 'pair') of(name).pairs.set([rest[0], rest[1]].sort().join(' '), Number(rest[2]));
  }
  return new Map([...wishes].map(([name, { ratings, pairs }]) =>
    [name, { ratings, pairs: [...pairs].map(([key, points]) => [...key.split(' '), points]) }]));
}

/**
 * The market of a text, as the views have it.
 * @param {{ catalogue: Uint8Array, roll: Uint8Array, settings: Uint8Array, text: Uint8Array, sessions: Uint8Array[] }}
 * of
 */
export function marketIn({ catalogue, roll, settings, text, sessions }) {
  const plain = (/** @type {Uint8Array} */ it) => new TextDecoder().decode(it);
  const sections = catalogueOf(plain(catalogue)), students = rollOf(plain(roll));
  const published = publishedOf(text, sections, students), said = saidByAll(published.order, sessions);
  const lines = [...said.values()].map(it => plain(it.bytes)).join('');
  return {
    catalogue: sections, roll: students, text: published, said, parts: { text: { bytes: text } },
    settings: JSON.parse(plain(settings)),
    wishes: wishesAfter(lines), sectionOf: new Map(sections.map(it => [it.name, it])),
    counts: countsOf(published.bundles.map(it => it.names), sections),
  };
}

/** The market of a case of `check` or `explain`. @param {{ words: string[], files: Map<string, Uint8Array> }} of */
export function marketOfCase({ words, files }) {
  const [catalogue, roll, settings, text] = words.slice(1, 5).map(it => files.get(it));
  const sessions = words.slice(words[0] === 'explain' ? 7 : 5).map(it => files.get(it));
  return marketIn({ catalogue, roll, settings, text, sessions });
}

/** The market of the example term. */
export function term() {
  const read = (/** @type {string} */ it) => new Uint8Array(readFileSync(join(TERM, it)));
  return marketIn({
    catalogue: read('catalogue.csv'), roll: read('roll.csv'), settings: read('settings.json'),
    text: read('published.txt'), sessions: [read('desk.session'), read('web.session')],
  });
}
