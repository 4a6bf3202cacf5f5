// What the unit tests share: markets out of folders, and the preferences that their sessions leave.

import { existsSync, readFileSync, readdirSync } from 'node:fs';
import { dirname, join } from 'node:path';
import { fileURLToPath } from 'node:url';
import { decoded } from '../../bytes.js';
import { catalogueOf, rollOf } from '../../tables.js';
import { countsOf, publishedOf } from '../../texts.js';

const HERE = dirname(fileURLToPath(import.meta.url));

/** The repository, and the worked examples beside it. */
export const TOP = join(HERE, '../../..');
export const VECTORS = process.env.VECTORS ?? join(TOP, '../shared/vectors');

/** The folders of the worked examples of a form; none where they are not there. */
export function casesOf(form) {
  const folder = join(VECTORS, form);
  return existsSync(folder) ? readdirSync(folder).sort().map(it => join(folder, it)) : [];
}

/** A file of a folder as the page has it. */
export const fileOf = (folder, name, kind) => ({ name, kind, bytes: new Uint8Array(readFileSync(join(folder, name))) });

/** What the desk does with sessions in the order of a text (FORMATS, "Sessions"); only of lines that it carries out. */
export function wishesAfter(order, sessions, students, sections) {
  const left = sessions.map(it => decoded(it.bytes).split('\n').map(line => line.trim().split(/[ \t]+/))
    .filter(([word]) => word && !word.startsWith('#')));
  const at = sessions.map(() => 0), wishes = new Map();
  const of = name => wishes.get(name) ?? wishes.set(name, { ratings: new Map(), pairs: [] }).get(name);
  let isClosed = false;
  for (const session of order) {
    const [word, student, ...rest] = left[session - 1][at[session - 1]++];
    if (word === 'close') isClosed = true;
    if (isClosed || !students.has(student)) continue;
    const value = Number(rest.at(-1)), isKnown = rest.slice(0, -1).every(it => sections.has(it));
    if (word === 'clear') wishes.delete(student);
    else if (word === 'rate' && isKnown && value >= 0 && value <= 100) of(student).ratings.set(rest[0], value);
    else if (word === 'pair' && isKnown && Math.abs(value) <= 200) {
      of(student).pairs = of(student).pairs.filter(([one, other]) => !(rest.includes(one) && rest.includes(other)));
      if (value) of(student).pairs.push([rest[0], rest[1], value]);
    }
  }
  return wishes;
}

/** The market of an accepted text. */
export function marketIn(folder, names) {
  const [catalogue, roll] = [catalogueOf(read(folder, names.catalogue)), rollOf(read(folder, names.roll))];
  const printed = fileOf(folder, names.text, 'text'), text = publishedOf(printed.bytes, catalogue, roll);
  const sessions = names.sessions.map(it => fileOf(folder, it, 'session'));
  const known = of => new Set(of.map(it => it.name));
  return {
    catalogue, roll, text, parts: { text: printed }, settings: JSON.parse(read(folder, names.settings)),
    wishes: wishesAfter(text.order, sessions, known(roll), known(catalogue)),
    sectionOf: new Map(catalogue.map(it => [it.name, it])),
    counts: countsOf(text.bundles.map(it => it.names), catalogue), endCounts: countsOf(text.finals, catalogue),
  };
}

/** A text of a folder. */
export const read = (folder, name) => decoded(new Uint8Array(readFileSync(join(folder, name))));

/** The names of the files of `check` and `explain`, from their words. */
export function namesIn(words, asked = 0) {
  const [, catalogue, roll, settings, text, ...rest] = words;
  return { catalogue, roll, settings, text, sessions: rest.slice(asked) };
}
