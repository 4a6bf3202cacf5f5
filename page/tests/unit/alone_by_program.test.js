// The market of one student, asked of the native program: COURSE_MATCH_PROGRAM, PROGRAM, or what `rt ci` left.

import assert from 'node:assert/strict';
import { spawnSync } from 'node:child_process';
import { existsSync, mkdtempSync, rmSync, writeFileSync } from 'node:fs';
import { tmpdir } from 'node:os';
import { join } from 'node:path';
import { after, before, test } from 'node:test';

import { blankSessions, roomOf } from '../../alone.js';
import { stagesOf as stagesShown, takenIfFree } from '../../one_student.js';
import { treeAt, turnsOf } from '../../texts.js';
import { TOP, cases, marketOfCase, term } from './vectors.js';

const { PROGRAM: NAMED, COURSE_MATCH_PROGRAM = NAMED } = process.env;
const PROGRAM = COURSE_MATCH_PROGRAM ?? join(TOP, 'crates/market_program/out/market_program');
const options = { skip: existsSync(PROGRAM) ? false : 'there is no native program' };
/** @type {string} */
let room;
before(() => { room = mkdtempSync(join(tmpdir(), 'course-match-')); });
after(() => rmSync(room, { recursive: true }));

/** What the program answers to words; those that begin with a kind of file stand for that file of the parts. */
function ask(/** @type {string[]} */ words, /** @type {any} */ parts) {
  const { catalogue, roll, settings, text, prices, sessions } = parts;
  const files = [
    ['CATALOGUE', catalogue], ['ROLL', roll], ['SETTINGS', settings], ['TEXT', text], ['PRICES', prices],
    ...sessions.map((/** @type {any} */ it, /** @type {number} */ at) => [`SESSION${at}`, it]),
  ];
  for (const [name, file] of files) if (file) writeFileSync(join(room, name), file.bytes);
  const ran = spawnSync(PROGRAM, words, { cwd: room, encoding: 'utf8' });
  return { status: ran.status, text: ran.stdout };
}

/** A student's stages: the second one, and its turns. @param {any} market @param {number} at */
function stagesOf(market, at) {
  const { name, credits, courses } = market.roll[at], budget = market.text.budgets[at], { prices } = market.text;
  const of = { name, credits, courses, prices, said: market.said.get(name) ?? { bytes: new Uint8Array(), count: 0 } };
  const raised = budget + Math.floor(budget * market.settings.raise / 100);
  const printed = (/** @type {PrintedBundle} */ it) => (
    { names: it.names, tree: treeAt(market.parts.text.bytes, it) });
  return [{ ...of, budget, ...printed(market.text.bundles[at]) },
    ...turnsOf(market, at).map(it => ({ ...of, budget: raised, ...printed(it), allowed: it.allowed }))];
}

const CHECK = ['check', 'CATALOGUE', 'ROLL', 'SETTINGS', 'TEXT', 'SESSION0'];

test('each bundle of an accepted text, also of a turn, is accepted in the market of its student', options, () => {
  const markets = [term(), ...cases('check').filter(it => it.status === 0).map(marketOfCase)];
  let count = 0;
  for (const market of markets) {
    const every = market.roll.length > 20 ? 10 : 1;
    for (const { at, name } of market.roll.filter(it => it.at % every === 0 || it.name === 'n.jones')) {
      for (const stage of stagesOf(market, at)) {
        assert.deepEqual(ask(CHECK, roomOf(market.catalogue, stage)), { status: 0, text: 'accepted\n' }, name);
        count++;
      }
    }
  }
  assert.ok(count > 20);
});

test('a bundle that is not the best is refused with the finding of the whole text', options, () => {
  for (const it of cases('check')) {
    const [finding, name] = /^finding: student (\S+) .*\n$/.exec(it.stdout) ?? [];
    if (!finding) continue;
    const market = marketOfCase(it), at = market.roll.findIndex(that => that.name === name);
    const [second] = stagesOf({ ...market, text: { ...market.text, turns: [] } }, at);
    assert.deepEqual(ask(CHECK, roomOf(market.catalogue, second)), { status: 8, text: finding }, it.name);
  }
});

test('explain answers in the market of one as in the whole one', options, () => {
  for (const it of cases('explain').filter(it => it.status === 0)) {
    const market = marketOfCase(it), [name, section] = it.words.slice(5, 7);
    const [second] = stagesOf(market, market.roll.findIndex(that => that.name === name));
    const words = ['explain', 'CATALOGUE', 'ROLL', 'SETTINGS', 'TEXT', name, section, 'SESSION0'];
    assert.deepEqual(ask(words, roomOf(market.catalogue, second)), { status: 0, text: it.stdout }, it.name);
  }
});

test('demand at the printed prices takes the printed bundle', options, () => {
  const market = term(), at = market.roll.findIndex(it => it.name === 'n.jones'), [second] = stagesOf(market, at);
  const words = ['demand', '1', 'CATALOGUE', 'ROLL', 'SETTINGS', 'PRICES', 'SESSION0'];
  const { text } = ask(words, roomOf(market.catalogue, second));
  assert.match(text, /^bundle n\.jones \[ACCT-611-B,FNCE-601-A,HCMG-841-A\]$/m);
});

test('what would be taken with a free seat is the best of that and of what was free', options, async () => {
  const market = /** @type {any} */ (term());
  const at = market.roll.findIndex((/** @type {Student} */ it) => it.name === 'n.jones');
  const stages = stagesShown(market, at), by = async (/** @type {string} */ _, /** @type {Call} */ call) => {
    for (const [name, bytes] of call.files) writeFileSync(join(room, name), bytes);
    const ran = spawnSync(PROGRAM, call.words, { cwd: room, encoding: 'utf8' });
    return /** @type {any} */ ({ status: ran.status, text: ran.stdout });
  };
  assert.ok(!stages[1].allowed.has('MGMT-691-B') && !stages[1].allowed.has('FNCE-717-A'));
  assert.deepEqual(await takenIfFree(by, market, at, stages[1], 'MGMT-691-B'), stages[2].names);
  assert.deepEqual(await takenIfFree(by, market, at, stages[1], 'FNCE-717-A'), stages[1].names);
  assert.deepEqual(await takenIfFree(by, market, at, stages[2], 'FNCE-717-A'), stages[2].names);
  const stopped = async () => /** @type {any} */ ({ status: 'stopped', text: '' });
  assert.equal(await takenIfFree(stopped, market, at, stages[1], 'FNCE-717-A'), null);
});

test('with blank sessions check judges form and budgets, and then the first bundle that is not empty', options, () => {
  for (const it of cases('check').filter(it => it.words.length === 6)) {
    const [catalogue, roll, settings, text] = it.words.slice(1, 5).map(word => ({ bytes: it.files.get(word) }));
    if (!text.bytes || it.status === 3) continue;
    const [, order = ''] = /^course-match \d\norder([ \d]*)\n/.exec(new TextDecoder().decode(text.bytes)) ?? [];
    const sessions = blankSessions(order.split(' ').filter(Boolean).map(Number));
    const words = ['check', 'CATALOGUE', 'ROLL', 'SETTINGS', 'TEXT', ...sessions.map((_, at) => `SESSION${at}`)];
    const answer = ask(words, { catalogue, roll, settings, text, sessions });
    if (/^finding: (line|budget)/.test(it.stdout)) assert.equal(answer.text, it.stdout, it.name);
    else assert.match(answer.text, /^(accepted\n$|finding: (student|seats|turn|not quiet|final|used))/, it.name);
  }
});
