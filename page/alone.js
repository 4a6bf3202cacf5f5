// The market of one student: what the program is asked in, where nobody else's ratings are at hand or are needed.
//
// What `check`, `explain` and `demand` say of one student depends on its own lines, its budget and caps, the catalogue
// and the prices, and on nothing of anybody else. So the page makes a market that has all of these and one student:
// each section has a seat for it, its base is the budget that is printed, nothing is drawn or raised, and the bundle
// and its tree are lines of a text that the program checks. Where not all sections are to be had, as at a turn of the
// aftermarket, those that are not cost more than the budget: by "Trees" (FORMATS) a place is closed alike for both, and
// the tree is the same.

import { encoded } from './bytes.js';
import { LINE_FEED, commandsIn, eachCommand, firstWords } from './lines.js';

/** The greatest budget that a roll can give to one student alone. */
export const MOST_BASE = 900000;

/** The greatest number of a session. */
const LAST_SESSION = 64;

const SETTINGS = encoded('{"seed":0,"spread":0,"accept":0,"turns":0,"tabu":1,"patience":1,"steps":[1],"raise":0}');

/** The comment that comes first, so that no line stands where a byte order mark is dropped. */
const HEAD = encoded('# The lines of one student.\n');

/**
 * The lines of a session that are commands, in their order, without the line feed. A byte order mark at the beginning
 * of the session belongs to no line.
 * @param {Uint8Array} bytes
 * @returns {Uint8Array[]}
 */
export function commandLines(bytes) {
  /** @type {Uint8Array[]} */
  const found = [];
  eachCommand(bytes, (from, to) => found.push(bytes.subarray(from, to)));
  return found;
}

/**
 * Which students the lines of a session name, each with how many commands name it; `others` are the commands that name
 * nobody, as `close` or a line that is none.
 * @param {Uint8Array} bytes
 * @returns {{ names: Map<string, number>, others: number }}
 */
export function namedIn(bytes) {
  /** @type {Map<string, number>} */
  const names = new Map();
  let others = 0;
  eachCommand(bytes, (from, to) => {
    const { first, second } = firstWords(bytes, from, to);
    if (['rate', 'pair', 'clear'].includes(first) && second) names.set(second, (names.get(second) ?? 0) + 1);
    else others++;
  });
  return { names, others };
}

/**
 * A session of lines, byte for byte, behind the comment.
 * @param {Uint8Array[]} lines
 */
export function sessionOf(lines) {
  const all = new Uint8Array(lines.reduce((sum, it) => sum + it.length + 1, HEAD.length));
  all.set(HEAD);
  let at = HEAD.length;
  for (const it of lines) {
    all.set(it, at);
    all[at + it.length] = LINE_FEED;
    at += it.length + 1;
  }
  return all;
}

/**
 * The lines of one student among those of a session that somebody handed out as the student's own.
 * @param {Uint8Array} bytes
 * @param {string} name
 * @returns {Said}
 */
export function saidIn(bytes, name) {
  /** @type {Uint8Array[]} */
  const lines = [];
  eachCommand(bytes, (from, to) => {
    if (firstWords(bytes, from, to).second === name) lines.push(bytes.subarray(from, to));
  });
  return { bytes: sessionOf(lines), count: lines.length };
}

/**
 * The lines of each student among all sessions, in the order of the text, up to the first `close`. All lie in one piece
 * of memory, which goes from the worker to the page as one.
 * @param {number[]} order the number of a session, from 1, for each command
 * @param {Uint8Array[]} sessions
 * @returns {Map<string, Said>}
 */
export function saidByAll(order, sessions) {
  const commands = sessions.map(commandsIn);
  /** @type {Map<string, { count: number, size: number, at: number }>} */
  const students = new Map();
  const each = (/** @type {(name: string, line: Uint8Array) => void} */ take) => {
    const at = sessions.map(() => 0);
    for (const it of order) {
      const number = at[it - 1]++, bytes = sessions[it - 1];
      const from = commands[it - 1].from[number], to = commands[it - 1].to[number];
      const { first, second } = firstWords(bytes, from, to);
      if (first === 'close' && second === undefined) break;
      if (second !== undefined) take(second, bytes.subarray(from, to));
    }
  };
  each((name, line) => {
    const of = students.get(name) ?? { count: 0, size: HEAD.length, at: 0 };
    students.set(name, { count: of.count + 1, size: of.size + line.length + 1, at: 0 });
  });
  return filled(students, each);
}

/**
 * The lines of students, each behind the head of its own session.
 * @param {Map<string, { count: number, size: number, at: number }>} students how much each has
 * @param {(take: (name: string, line: Uint8Array) => void) => void} each tells the lines
 * @returns {Map<string, Said>}
 */
function filled(students, each) {
  const all = new Uint8Array([...students.values()].reduce((sum, it) => sum + it.size, 0));
  let end = 0;
  for (const it of students.values()) {
    all.set(HEAD, end);
    it.at = end + HEAD.length;
    end += it.size;
  }
  each((name, line) => {
    const of = students.get(name);
    all.set(line, of.at);
    of.at += line.length + 1;
    all[of.at - 1] = LINE_FEED;
  });
  return new Map([...students].map(([name, { count, size, at }]) =>
    [name, { bytes: all.subarray(at - size, at), count }]));
}

/**
 * The greatest number of a session in an order, 0 where there is none. An order as it stands in a text may have
 * anything between its blanks: what no session has for its number is passed over.
 * @param {number[]} order
 */
export const lastIn = order =>
  order.reduce((most, it) => Number.isInteger(it) && it > most ? Math.min(it, LAST_SESSION) : most, 0);

/**
 * Sessions of as many commands as an order takes of each, none of which is readable. With these `check` judges of a
 * text what stands before the bundles: its form, and everybody's budget.
 * @param {number[]} order
 * @returns {GivenFile[]}
 */
export function blankSessions(order) {
  const counts = new Array(Math.max(1, lastIn(order))).fill(0);
  for (const it of order) if (it >= 1 && it <= counts.length) counts[it - 1]++;
  return counts.map((count, at) =>
    fileOf('session', `session ${at + 1}, without what it says`, encoded('x\n'.repeat(count))));
}

/**
 * The prices where only some sections are to be had: each other one costs more than the budget.
 * @param {Section[]} catalogue
 * @param {number[]} prices
 * @param {Set<string> | undefined} allowed all sections, where it is left out
 * @param {number} budget
 */
export function pricesWithin(catalogue, prices, allowed, budget) {
  return allowed ? catalogue.map(it => allowed.has(it.name) ? prices[it.at] : budget + 1) : prices;
}

/**
 * The inputs of a market of one student.
 * @param {Section[]} catalogue
 * @param {Alone} of
 * @returns {Parts & { prices: GivenFile }}
 */
export function roomOf(catalogue, of) {
  const prices = pricesWithin(catalogue, of.prices, of.allowed, of.budget);
  const rows = catalogue.map(it => [it.name, it.course, 1, it.credits, meetingsText(it), it.parts].join());
  const roll = ['student,budget,credits,courses', [of.name, of.budget, of.credits, of.courses].join()];
  return {
    catalogue: fileOf('catalogue', 'catalogue', table(['section,course,seats,credits,meetings,parts', ...rows])),
    roll: fileOf('roll', 'roll', table(roll)),
    settings: fileOf('settings', 'settings', SETTINGS),
    prices: fileOf('prices', 'prices', table(['section,price', ...catalogue.map(it => `${it.name},${prices[it.at]}`)])),
    text: fileOf('text', 'text', encoded(textOfOne(catalogue, prices, of))),
    sessions: [fileOf('session', 'lines', of.said.bytes)],
  };
}

/** @param {Kind} kind @param {string} name @param {Uint8Array} bytes @returns {GivenFile} */
const fileOf = (kind, name, bytes) => ({ kind, name, bytes });

/** @param {string[]} rows */
const table = rows => encoded(`${rows.join('\n')}\n`);

/** @param {Section} section */
const meetingsText = section => section.meetings.map(it => `${it.day}${it.from}-${it.to}`).join(';');

/**
 * The published text of one student alone.
 * @param {Section[]} catalogue @param {number[]} prices @param {Alone} of
 */
function textOfOne(catalogue, prices, of) {
  const bundle = `[${of.names.join()}]`, budget = `budget ${of.name} ${of.budget}`;
  return [
    'course-match 2', 'order' + ' 1'.repeat(of.said.count), budget,
    ...catalogue.map(it => `start ${it.name} 0`), 'error 0',
    ...catalogue.map(it => `price ${it.name} ${prices[it.at]}`),
    `bundle ${of.name} ${bundle} ${of.tree}`, `turn 1 ${of.name} ${bundle} ${of.tree}`, `final ${of.name} ${bundle}`,
    ...catalogue.map(it => `used ${it.name} ${of.names.includes(it.name) ? 1 : 0} 1`), 'end', '',
  ].join('\n');
}
