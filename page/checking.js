// Checks a text, and puts together what the views show of one that holds.

import { callOf, filesOf } from './program.js';
import { upToOrder, wishesBy } from './wishes.js';
import { read, work } from './work.js';

const MOST_ORDERS = 24;

/**
 * The orders of the sessions that the text allows, one more than are tried; where there is none, whether these are the
 * own lines of students. Null where that was stopped.
 * @param {Parts} parts
 * @returns {Promise<{ orders: number[][], areOwn: boolean } | null>}
 */
export async function ordersOf({ text, sessions }) {
  if (!text || !sessions.length) return { orders: [], areOwn: false };
  const order = upToOrder(text.bytes); // (the rest need not go to the worker for it)
  return read('Reading the sessions', 'orders', order, sessions.map(it => it.bytes), MOST_ORDERS + 1);
}

/**
 * Checks the text, with the sessions in the given orders, until one is accepted or the most are tried.
 * @param {Parts} parts
 * @param {number[][]} orders none where the order of the sessions is known
 * @returns {Promise<Checked>}
 */
export async function checked(parts, orders) {
  const given = parts.sessions.map((_, at) => at);
  /** @type {Checked | undefined} */
  let first;
  for (const order of orders.length ? orders.slice(0, MOST_ORDERS) : [given]) {
    const tried = { ...parts, sessions: order.map(it => parts.sessions[it]) };
    const call = callOf('check', tried), answer = await work('Checking the text', call);
    if (answer.status === 0) return { call, answer, parts: tried };
    first ??= { call, answer, parts: tried, isCut: orders.length > MOST_ORDERS };
    if (answer.status !== 8 || /^finding: line/.test(answer.text)) break;
  }
  return first;
}

/**
 * Computes the SHA-256 of files, of each once; null stands for that of a browser that computes none.
 * @param {GivenFile[]} files
 * @returns {Promise<boolean>} whether it was not stopped
 */
export async function summed(files) {
  for (const it of files) {
    if (it.sum !== undefined) continue;
    const found = await read('Computing the sums', 'sum', it.bytes);
    if (!found) return false;
    it.sum = found.sum;
  }
  return true;
}

/** @type {Answer} */
const STOPPED_ANSWER = { status: 'stopped', text: '', out: new Uint8Array(), ms: 0, memory: 0 };

/**
 * An answer that was stopped, of these files.
 * @param {Parts} parts
 * @returns {Checked}
 */
export const stopped = parts =>
  ({ answer: STOPPED_ANSWER, call: { form: '', words: [], inputs: [], files: [] }, parts });

/**
 * What the views need of a text that holds.
 * @param {Checked} of @param {Spelling} spelling the school's
 * @returns {Promise<{ market?: Market, refusal?: Checked }>}
 */
export async function marketOf({ answer, parts }, spelling) {
  const found = await read('Reading the text, and what the students want', 'whole', parts);
  if (!found) return { refusal: stopped(parts) };
  if (found.refusal) return { refusal: found.refusal };
  const files = summedAs(filesOf(parts, parts.sessions), found.sums);
  return { market: withFiles(found.market, parts, files, answer.ms, spelling) };
}

/**
 * What the views need of a text as far as one student can know it.
 * @param {Parts} parts @param {GivenFile[]} lines the students' own @param {Spelling} spelling the school's
 * @returns {Promise<{ market?: Market, refusal?: Checked, finding?: string }>}
 */
export async function ownMarket(parts, lines, spelling) {
  const found = await read('Checking the text', 'own', parts, lines);
  if (!found) return { refusal: stopped(parts) };
  if (!found.market) return { refusal: found.refusal, finding: found.finding };
  const given = { ...parts, sessions: /** @type {GivenFile[]} */ ([]) };
  const files = summedAs(filesOf(parts, lines), found.sums);
  return { market: withFiles(found.market, given, files, found.ms, spelling) };
}

/**
 * Files with their sums.
 * @param {GivenFile[]} files @param {(string | null)[]} sums
 */
function summedAs(files, sums) {
  files.forEach((it, at) => { it.sum ??= sums[at]; });
  return files;
}

/**
 * A market with its files.
 * @param {ReadMarket} market @param {Parts} parts @param {GivenFile[]} files @param {number} ms
 * @param {Spelling} spelling
 * @returns {Market}
 */
const withFiles = ({ wished, ...market }, parts, files, ms, spelling) =>
  ({ ...market, wishes: wishesBy(wished), parts, files, ms, spelling });
