import assert from 'node:assert/strict';
import { test } from 'node:test';

import { dayWords } from '../../sheet.js';
import { halfWords, weekOf } from '../../timetable.js';

/** @param {string} name @param {string[]} times @param {string} [parts] @returns {any} */
const section = (name, times, parts = '12') => ({
  name, parts, meetings: times.map(it => ({ day: it[0], from: it.slice(1, 5), to: it.slice(6) })),
});

test('a row stands for each time, in its order, with a cell for each day', () => {
  const early = section('A', ['T0830-1000', 'R0830-1000']), late = section('B', ['R1030-1200']);
  const week = weekOf([late, early]);
  assert.deepEqual(week.days, ['Mon', 'Tue', 'Wed', 'Thu', 'Fri']);
  assert.deepEqual(week.rows.map(it => [it.from, it.to, it.cells.map(cell => cell.map(that => that.name).join())]), [
    ['08:30', '10:00', ['', 'A', '', 'A', '']], ['10:30', '12:00', ['', '', '', 'B', '']],
  ]);
});

test('the weekend stands where something meets, and what never meets stands apart', () => {
  const week = weekOf([section('A', ['S0900-1000']), section('B', [])]);
  assert.deepEqual(week.days, ['Mon', 'Tue', 'Wed', 'Thu', 'Fri', 'Sat']);
  assert.deepEqual(week.without.map(it => it.name), ['B']);
  assert.deepEqual(weekOf([section('B', [])]).days, []);
});

test('halves of the term share a cell, and are told', () => {
  const one = section('A', ['M0900-1020'], '1'), other = section('B', ['M0900-1020'], '2');
  assert.deepEqual(weekOf([one, other]).rows[0].cells[0], [one, other]);
  assert.deepEqual([one, other, section('C', [])].map(halfWords), ['first half', 'second half', '']);
});

test('a sheet says its day and time as the browser would', () => {
  for (const month of Array(12).keys()) {
    const time = new Date(2025, month, 1 + 2 * month, 2 * month, 5 * month);
    assert.equal(dayWords(time), time.toLocaleString('en-GB', { dateStyle: 'long', timeStyle: 'short' }));
  }
});
