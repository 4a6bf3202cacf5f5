// What the students said. The desk itself is the program's: what all have said, in the text's order, is put into one
// session, and `prefer` tells how it ends.

import { lastIn, namedIn } from './alone.js';
import { decoded, encoded, isSame } from './bytes.js';
import { LINE_FEED, commandCount, commandsIn, eachCommand, hasMark } from './lines.js';
import { plural, shortList, visible } from './wording.js';

/** The most bytes of a session. */
const MOST_BYTES = 2 ** 24;

/** A line that says nothing. */
const COMMENT = encoded('#');

/** The most bytes of an order line that are read: one of 200,000 commands in 64 sessions is shorter. */
const LONGEST_ORDER = 2 ** 20;

/**
 * How often each session stands in an order.
 * @param {number[]} order @returns {Map<number, number>}
 */
function countsIn(order) {
  const counts = new Map();
  for (const it of order) counts.set(it, (counts.get(it) ?? 0) + 1);
  return counts;
}

/**
 * The orders of the given sessions in which each has as many commands as the text says, the given order first; each is
 * the sessions' places. Where no order has, that is seen before any is tried.
 * @param {number[]} sizes how many commands each session has @param {number[]} order
 * @param {number} most how many are looked for
 * @returns {number[][]}
 */
export function possibleOrders(sizes, order, most) {
  const counts = countsIn(order), wanted = sizes.map((_, at) => counts.get(at + 1) ?? 0);
  /** @type {number[][]} */
  const found = [];
  const go = (/** @type {number[]} */ chosen) => {
    if (found.length === most) return;
    if (chosen.length === sizes.length) { found.push(chosen); return; }
    sizes.forEach((size, at) => {
      if (size === wanted[chosen.length] && !chosen.includes(at)) go([...chosen, at]);
    });
  };
  if (String([...sizes].sort()) === String([...wanted].sort())) go([]);
  return found;
}

/**
 * The order line of a text, without reading the rest of it.
 * @param {Uint8Array} bytes @returns {number[]}
 */
export function orderOf(bytes) {
  const line = decoded(bytes.subarray(...orderPlace(bytes)));
  return line.startsWith('order') ? line.split(' ').slice(1).map(Number) : [];
}

/**
 * A text up to the end of its order line.
 * @param {Uint8Array} bytes
 */
export const upToOrder = bytes => bytes.subarray(0, orderPlace(bytes)[1]);

/**
 * From where to where the order line of a text stands, as far as it is read.
 * @param {Uint8Array} bytes
 * @returns {[number, number]}
 */
function orderPlace(bytes) {
  const from = bytes.indexOf(LINE_FEED) + 1, to = bytes.indexOf(LINE_FEED, from);
  return [from, Math.min(to < 0 ? bytes.length : to, from + LONGEST_ORDER)];
}

/** How a line looks by which a student says what it wishes. */
export const WISH_LINE = 'Such a line looks so, with nothing before it: “rate NAME SECTION POINTS”.';

/**
 * Which sessions of a student's wishes have none, in words: of those of which the order of a text does not take so many
 * commands.
 * @param {GivenFile[]} sessions @param {number[]} order
 */
export const silentAmong = (sessions, order) => strayAmong(sessions, order).map(silentWords).filter(Boolean);

/**
 * The sessions that no session of the order has as many commands as.
 * @param {GivenFile[]} sessions @param {number[]} order
 */
function strayAmong(sessions, order) {
  const left = [...countsIn(order).values()];
  return sessions.filter(it => {
    const at = left.indexOf(commandCount(it.bytes));
    if (at >= 0) left.splice(at, 1);
    return at < 0;
  });
}

/**
 * How the given sessions differ from those that the order of a text takes, in words.
 * @param {GivenFile[]} sessions @param {number[]} order
 * @returns {string[]}
 */
export function sessionsWords(sessions, order) {
  const counts = countsIn(order), wanted = Array.from({ length: lastIn(order) }, (_, at) => counts.get(at + 1) ?? 0);
  const here = sessions.map(it => ({ name: it.name, size: commandCount(it.bytes) }));
  const left = [...here], lacking = [];
  for (const size of wanted) {
    const at = left.findIndex(it => it.size === size);
    if (at < 0) lacking.push(size);
    else left.splice(at, 1);
  }
  const sized = (/** @type {{ name: string, size: number }} */ it) => `${it.name} (${plural(it.size, 'command')})`;
  const takes = wanted.map((size, at) => `${plural(size, 'command')} of session ${at + 1}`);
  return [
    `The order of the text takes ${shortList(takes)}. Given are ${shortList(here.map(sized))}.`,
    lackingWords(lacking), strayWords(left.map(sized)), ...sameWords(sessions),
    lacking.length || left.length ? ''
      : 'Each session has as many commands as the text takes, but they stand in another order: the school says in '
        + 'which.',
  ].filter(Boolean);
}

/**
 * That a file has no line of a wish, in words; nothing where it has one.
 * @param {GivenFile} file
 */
export function silentWords({ name, bytes }) {
  if (!bytes.length) return `${name} is empty.`;
  return namedIn(bytes).names.size ? '' : `No line of ${name} is a student's wish.`;
}

/** @param {number[]} lacking */
function lackingWords(lacking) {
  if (!lacking.length) return '';
  const which = lacking.length > 1 ? 'these are missing, or were changed' : 'one is missing, or was changed';
  return `No session of ${shortList(lacking.map(it => plural(it, 'command')))} is left for it: ${which}.`;
}

/** @param {string[]} left */
function strayWords(left) {
  if (!left.length) return '';
  const which = left.length > 1 ? 'they belong to another text, or were changed'
    : 'it belongs to another text, or was changed';
  return `The text takes no session of so many commands as ${shortList(left)}: ${which}.`;
}

/**
 * Which sessions were given twice.
 * @param {GivenFile[]} sessions
 */
function sameWords(sessions) {
  return sessions.flatMap((it, at) => sessions.slice(0, at)
    .filter(other => it.bytes.length && isSame(it.bytes, other.bytes))
    .map(other => `${it.name} is the same as ${other.name}: remove one of them.`));
}

/**
 * All commands in the order of the text, byte for byte, in as few sessions as hold them, heard one after the other.
 * @param {number[]} order @param {Uint8Array[]} sessions
 * @returns {Uint8Array[]}
 */
export function inPrintedOrder(order, sessions) {
  const commands = sessions.map(commandsIn), at = sessions.map(() => 0);
  const lines = function* () {
    for (const it of order) {
      const number = at[it - 1]++, { from, to } = commands[it - 1];
      yield sessions[it - 1].subarray(from[number], to[number]);
    }
  };
  return packed(lines());
}

/**
 * Lines in as few sessions as hold them. No line stands where a byte order mark of its own would be dropped.
 * @param {Iterable<Uint8Array>} lines
 * @returns {Uint8Array[]}
 */
export function packed(lines) {
  /** @type {Uint8Array[]} */
  const parts = [], room = new Uint8Array(MOST_BYTES + COMMENT.length + 1);
  let size = 0;
  const put = (/** @type {Uint8Array} */ it) => {
    room.set(it, size);
    size += it.length + 1;
    room[size - 1] = LINE_FEED;
  };
  const end = () => {
    if (size) parts.push(room.slice(0, size - 1));
    size = 0;
  };
  for (const it of lines) {
    if (size + it.length + 1 > MOST_BYTES) end();
    if (!size && hasMark(it, 0)) put(COMMENT);
    put(it);
  }
  end();
  return parts;
}

/**
 * The closed preferences that `prefer` prints: of each student the ratings and the adjustments.
 * @param {string} answer
 * @returns {Map<string, Wishes>}
 */
export function preferencesOf(answer) {
  const found = new Map();
  const of = (/** @type {string} */ name) => {
    if (!found.has(name)) found.set(name, { ratings: new Map(), pairs: [] });
    return found.get(name);
  };
  for (const line of answer.split('\n')) {
    const [word, student, ...rest] = line.split(' ');
    if (word === 'rate') of(student).ratings.set(rest[0], Number(rest[1]));
    else if (word === 'pair') of(student).pairs.push([rest[0], rest[1], Number(rest[2])]);
  }
  return found;
}

/**
 * The lines of the closed preferences that `prefer` prints, by students.
 * @param {string} answer
 * @returns {Map<string, string>}
 */
export function wishedLines(answer) {
  const found = new Map();
  for (const line of answer.split('\n')) {
    const [word, student] = line.split(' ', 2);
    if (word === 'rate' || word === 'pair') found.set(student, `${found.get(student) ?? ''}${line}\n`);
  }
  return found;
}

/**
 * What students want, by these lines, each read when it is asked for.
 * @param {Map<string, string>} lines
 * @returns {WishesOfAll}
 */
export function wishesBy(lines) {
  /** @type {Map<string, Wishes>} */
  const known = new Map();
  return { get: name => {
    if (!known.has(name) && lines.has(name)) known.set(name, preferencesOf(lines.get(name)).get(name));
    return known.get(name);
  } };
}

/**
 * Why the desk does not carry a command out, by its reply, in words.
 * @type {Record<string, string>}
 */
export const REPLIES = {
  unreadable: 'the line is no command', closed: 'a session has closed the desk',
  'no-student': 'the student is not on the roll',
  'no-section': 'the section is not in the catalogue', 'same-pair': 'the two sections are the same',
  'out-of-range': 'a rating is 0 to 100, an adjustment -200 to 200',
  'too-many': 'a student has at most 60 ratings and 200 adjustments',
};

/**
 * The desk's replies other than `done`, each with the file and line of its command.
 * @param {string} answer what `prefer` printed @param {GivenFile[]} sessions
 * @returns {Reply[]}
 */
export function repliesOf(answer, sessions) {
  const left = sessions.map(({ bytes }) => {
    /** @type {{ row: number, said: Uint8Array }[]} */
    const lines = [];
    eachCommand(bytes, (from, to, row) => lines.push({ row, said: bytes.subarray(from, to) }));
    return lines;
  });
  const at = sessions.map(() => 0), found = [];
  for (const line of answer.split('\n')) {
    const [word, session, reply, ...command] = line.split(' ');
    if (word !== 'entry') continue;
    const number = Number(session) - 1, { row, said } = left[number][at[number]++];
    if (reply === 'done') continue;
    const isUnread = command[0] === 'unreadable';
    const shown = () => visible(decoded(said.subarray(0, MOST_SHOWN)).replace(/\r$/, '').replace(BLANKS, ''));
    found.push({ file: sessions[number].name, row, reply, command: isUnread ? shown() : command.join(' ') });
  }
  return found;
}

/** Blanks at the ends of a line. (A return that is no line's end stays: for it the desk could not read the line.) */
const BLANKS = /^[ \t]+|[ \t]+$/g;

/** How many bytes of a line are shown that the desk could not read. */
const MOST_SHOWN = 300;
