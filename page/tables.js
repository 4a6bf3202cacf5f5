// Reads the catalogue and the roll, to show what stands in them. Whether they are in order the program says.

import { decoded } from './bytes.js';
import { visible } from './wording.js';

/**
 * The records of a text of comma-separated fields, as the program reads them (FORMATS, "The catalogue"), one after the
 * other.
 * @param {string} text
 * @returns {Generator<string[], void>}
 */
export function* eachRecord(text) {
  /** @type {string[]} */
  let row = [];
  for (let at = 0; at < text.length;) {
    if (!row.length && isLineEnd(text, at)) { at++; continue; }
    const { field, end } = text[at] === '"' ? quotedField(text, at) : plainField(text, at);
    row.push(field);
    at = end + 1;
    if (text[end] === ',') {
      if (at < text.length) continue;
      row.push('');
    }
    yield row;
    row = [];
  }
}

const COMMA = 44, QUOTE = 34;

/** @param {string} text @param {number} at */
function isLineEnd(text, at) {
  const sign = text.charCodeAt(at);
  return sign === 10 || sign === 13;
}

/**
 * A field that does not begin with a quote, and where it ends.
 * @param {string} text @param {number} at
 */
function plainField(text, at) {
  let end = at;
  while (end < text.length && text.charCodeAt(end) !== COMMA && !isLineEnd(text, end)) end++;
  return { field: text.slice(at, end), end };
}

/**
 * A field that begins with a quote, and where it ends: what stands behind its last quote is of it too. One whose quote
 * is not closed ends with the text.
 * @param {string} text @param {number} at
 */
function quotedField(text, at) {
  let quote = at + 1;
  for (; quote < text.length; quote++) {
    if (text.charCodeAt(quote) !== QUOTE) continue;
    if (text.charCodeAt(quote + 1) !== QUOTE) break;
    quote++;
  }
  const field = text.slice(at + 1, quote).replace(/""/g, '"');
  const rest = plainField(text, quote + 1);
  return { field: field + rest.field, end: Math.min(rest.end, text.length) };
}

/**
 * All records of a text.
 * @param {string} text
 */
export const records = text => [...eachRecord(text)];

/**
 * One record of a text, by its row, the first being 1; none where the text has no such row.
 * @param {string} text @param {number} row
 * @returns {string[]}
 */
export function recordAt(text, row) {
  let number = 0;
  for (const it of eachRecord(text)) if (++number === row) return it;
  return [];
}

/** The most students of a market, and the most sections. */
export const MOST_STUDENTS = 2000;
export const MOST_SECTIONS = 400;

/** The longest field that is shown: ten meetings are shorter, and so is any name. */
const LONGEST_FIELD = 200;

/**
 * The first records of a text, the header with them; null where one of them has a field that no table of a market has.
 * @param {string} text @param {number} most
 * @returns {string[][] | null}
 */
export function firstRecords(text, most) {
  const found = [];
  for (const it of eachRecord(text)) {
    if (found.length === most) break;
    if (it.length > 10 || it.some(field => field.length > LONGEST_FIELD)) return null;
    found.push(it);
  }
  return found;
}

const DAYS = new Map([
  ['M', 'Mon'], ['T', 'Tue'], ['W', 'Wed'], ['R', 'Thu'], ['F', 'Fri'], ['S', 'Sat'], ['U', 'Sun'],
]);
const HALVES = new Map([['1', ', first half'], ['2', ', second half']]);

/** @param {string} it four digits */
export const clock = it => `${it.slice(0, 2)}:${it.slice(2)}`;

/** @param {string} text @returns {Meeting[]} */
function meetingsOf(text) {
  return text ? text.split(';').map(it => ({ day: it[0], from: it.slice(1, 5), to: it.slice(6, 10) })) : [];
}

/**
 * `Tue Thu 10:30-12:00`, with the half of the term where it is not the whole; also of a catalogue that the program did
 * not see yet.
 * @param {Section} section
 */
export function meetingWords(section) {
  const times = new Map();
  for (const it of section.meetings) {
    const time = `${clock(it.from)}-${clock(it.to)}`;
    times.set(time, [...times.get(time) ?? [], DAYS.get(it.day) ?? it.day]);
  }
  const words = [...times].map(([time, days]) => `${days.join(' ')} ${time}`).join(', ') || 'no meetings';
  return visible(words) + (HALVES.get(section.parts) ?? '');
}

/**
 * The rows of a catalogue.
 * @param {string} text @returns {Section[]}
 */
export const catalogueOf = text => sectionsOf(records(text));

/**
 * The sections of a catalogue's records, of which the first is the header.
 * @param {string[][]} rows @returns {Section[]}
 */
export function sectionsOf(rows) {
  return rows.slice(1).map(([name, course, seats, credits, meetings = '', parts = '12'], at) =>
    ({ at, name, course, seats: Number(seats), credits: Number(credits), meetings: meetingsOf(meetings), parts }));
}

/**
 * The rows of a roll.
 * @param {string} text @returns {Student[]}
 */
export const rollOf = text => studentsOf(records(text));

/**
 * The students of a roll's records, of which the first is the header.
 * @param {string[][]} rows @returns {Student[]}
 */
export function studentsOf(rows) {
  return rows.slice(1).map(([name, base, credits, courses, carry = '0'], at) =>
    ({ at, name, base: Number(base), credits: Number(credits), courses: Number(courses), carry: Number(carry) }));
}

/** @param {Parts} parts */
export const catalogueIn = parts => catalogueOf(decoded(parts.catalogue.bytes));

/** @param {Parts} parts */
export const rollIn = parts => rollOf(decoded(parts.roll.bytes));
