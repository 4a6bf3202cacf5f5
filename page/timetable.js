// The week of some sections: which days have meetings, and what meets when.

import { clock } from './tables.js';

/**
 * The days of a week, in its order.
 * @type {[string, string][]}
 */
const WEEK = [['M', 'Mon'], ['T', 'Tue'], ['W', 'Wed'], ['R', 'Thu'], ['F', 'Fri'], ['S', 'Sat'], ['U', 'Sun']];

/**
 * The week of sections. Its rows are the times at which something begins and ends, the earliest first; a row has for
 * each of the days the sections that meet then. Days from Monday to Friday are left out only where nothing meets on any
 * day before or after; a day of the weekend stands where something meets on it.
 * @param {Section[]} sections
 * @returns {Week}
 */
export function weekOf(sections) {
  const met = new Set(sections.flatMap(it => it.meetings.map(that => that.day)));
  const days = WEEK.filter(([day], at) => met.has(day) || (met.size > 0 && at < 5));
  /** @type {Map<string, WeekRow>} */
  const rows = new Map();
  for (const section of sections) {
    for (const { day, from, to } of section.meetings) {
      const time = `${from}-${to}`;
      if (!rows.has(time)) rows.set(time, { from: clock(from), to: clock(to), cells: days.map(() => []) });
      const cell = rows.get(time).cells[days.findIndex(([it]) => it === day)];
      if (!cell.includes(section)) cell.push(section);
    }
  }
  return {
    days: days.map(([, word]) => word),
    rows: [...rows].sort(([one], [other]) => one < other ? -1 : 1).map(([, row]) => row),
    without: sections.filter(it => !it.meetings.length),
  };
}

/**
 * The half of the term in which a section runs, in words; nothing where it runs in both.
 * @param {Section} section
 */
export const halfWords = section => section.parts === '1' ? 'first half' : section.parts === '2' ? 'second half' : '';
