// The worker thread: it is given the module once, and then one run of the program or one reading after another. The
// long bytes of a message come before it, in pieces.

import { withText } from './bytes.js';
import { runProgram } from './host.js';
import { assembled } from './pieces.js';
import { READINGS } from './readings.js';

/** @type {WebAssembly.Module} */
let module;

/**
 * The bytes that came ahead of each message that is still to come.
 * @type {Map<number, Map<number, Uint8Array>>}
 */
const ahead = new Map();

onmessage = ({ data }) => {
  if (data.module) module = data.module;
  else if (data.piece) takePiece(data);
  else {
    const message = assembled(data, ahead.get(data.id) ?? new Map());
    ahead.delete(data.id);
    answer(message);
  }
};

/** @param {{ of: number, key: number, size: number, from: number, piece: Uint8Array }} data */
function takePiece({ of, key, size, from, piece }) {
  if (!ahead.has(of)) ahead.set(of, new Map());
  const parts = ahead.get(of);
  if (piece.length === size) parts.set(key, piece);
  else if (!parts.has(key)) parts.set(key, new Uint8Array(size));
  if (piece.length < size) parts.get(key).set(piece, from);
}

/** @param {any} message a run, or a reading */
async function answer({ id, words, files, limit, reading, given }) {
  if (!reading) {
    const told = answerOf(words, files, limit);
    postMessage({ ...told, id }, /** @type {any} */ ([told.out.buffer]));
    return;
  }
  let memory = 0;
  const ask = async (/** @type {string} */ _, /** @type {Call} */ call) => {
    const told = answerOf(call.words, call.files, limit);
    memory = Math.max(memory, told.memory);
    return withText(told);
  };
  try {
    const read = /** @type {any} */ (READINGS)[reading];
    postMessage({ id, value: await read(...given, ask), memory });
  } catch (fault) {
    postMessage({ id, fault: String(fault) });
  }
}

/**
 * One run of the program.
 * @param {string[]} words @param {[string, Uint8Array][]} files @param {number} limit the most bytes of memory
 */
function answerOf(words, files, limit) {
  const begun = performance.now();
  let answer;
  try {
    answer = runProgram(module, words, files, limit);
  } catch (fault) {
    const isMemory = fault instanceof RangeError || /memory/i.test(String(fault));
    answer = { status: isMemory ? 7 : 'fault', out: new Uint8Array(), fault: String(fault), memory: 0 };
  }
  return { ...answer, ms: performance.now() - begun };
}
