// The program in a worker thread, and its calls.

import { withText } from './bytes.js';
import { PIECE, lifted } from './pieces.js';

/** @typedef {Omit<Answer, 'text'>} Raw */

/** A run that held more bytes of memory than this leaves none of it behind: its thread ends with it, and another stands
 * ready. */
const MUCH = 2 ** 26;

/** The program in a worker thread. One run follows another; a stop ends the thread, and the next run has a new one. */
export class Program {
  /**
   * @param {WebAssembly.Module} module
   * @param {string} source of the worker's script
   */
  constructor(module, source) {
    this.module = module;
    this.source = source;
    /** @type {Map<number, (answer: Raw) => void>} */
    this.waiting = new Map();
    this.count = 0;
    /** @type {Worker | null} */
    this.worker = null;
    /** The most bytes of memory of a run; none where it is 0. */
    this.limit = 0;
  }

  start() {
    const address = URL.createObjectURL(new Blob([this.source], { type: 'text/javascript' }));
    this.worker = new Worker(address);
    URL.revokeObjectURL(address);
    this.worker.onmessage = ({ data }) => {
      this.waiting.get(data.id)?.(data);
      this.waiting.delete(data.id);
      if (data.memory > MUCH && !this.waiting.size) {
        this.end('stopped');
        this.start();
      }
    };
    this.worker.onerror = event => this.end('fault', event.message);
    this.worker.postMessage({ module: this.module });
  }

  /**
   * Runs the program; the status of a run that was stopped is `stopped`.
   * @param {{ words: string[], files: [string, Uint8Array][] }} call
   * @returns {Promise<Answer>}
   */
  async ask({ words, files }) {
    return withText(await this.told({ words, files }));
  }

  /**
   * Has the worker read something; null where that was stopped.
   * @param {string} reading its name @param {any[]} given what is read
   * @returns {Promise<any>}
   */
  async read(reading, given) {
    const answer = await this.told({ reading, given });
    await pause(); // (what was read may be long: taking it out of its message, and what is done with it, are two tasks)
    if (answer.fault) throw new Error(answer.fault);
    return answer.status === 'stopped' ? null : answer.value;
  }

  /**
   * What the worker answers to a message.
   * @param {any} message
   * @returns {Promise<any>}
   */
  told(message) {
    if (!this.worker) this.start();
    const id = ++this.count;
    return new Promise(done => {
      this.waiting.set(id, done);
      this.post({ ...message, id, limit: this.limit });
    });
  }

  /**
   * Sends a message: what is long in it goes ahead, in pieces between which the page answers, until it is stopped.
   * @param {any} message
   */
  async post(message) {
    const { worker } = this, { shell, ahead } = lifted(message);
    for (const [key, bytes] of ahead) {
      for (let from = 0; from < bytes.length; from += PIECE) {
        const piece = bytes.slice(from, from + PIECE);
        worker.postMessage({ of: message.id, key, size: bytes.length, from, piece }, [piece.buffer]);
        await pause();
        if (worker !== this.worker) return;
      }
    }
    worker.postMessage(shell);
  }

  /** @param {'stopped' | 'fault'} status @param {string} [fault] */
  end(status, fault) {
    this.worker?.terminate();
    this.worker = null;
    for (const done of this.waiting.values()) done({ status, fault, out: new Uint8Array(), ms: 0, memory: 0 });
    this.waiting.clear();
  }

  stop() {
    this.end('stopped');
  }
}

/** Lets the page do what else it has to do. */
const pause = () => new Promise(done => setTimeout(done));

/**
 * The files of each form, in the order of its words.
 * @type {Record<string, (keyof Parts)[]>}
 */
const INPUTS = {
  check: ['catalogue', 'roll', 'settings', 'text', 'sessions'],
  explain: ['catalogue', 'roll', 'settings', 'text', 'sessions'],
  audit: ['catalogue', 'roll', 'settings', 'text', 'sessions'],
  run: ['catalogue', 'roll', 'settings', 'sessions'],
  prefer: ['catalogue', 'roll', 'sessions'],
  demand: ['catalogue', 'roll', 'settings', 'prices', 'sessions'],
};
/** @type {Record<string, string[]>} */
const BEFORE = { audit: ['1'], run: ['1'], demand: ['1'] };

/**
 * One call of the program: its words, and its inputs in their order, the first being input 1. In `explain` the names
 * that are asked for stand between the text and the sessions.
 * @param {string} form @param {Parts} parts @param {string[]} [names]
 * @returns {Call}
 */
export function callOf(form, parts, names = []) {
  const inputs = INPUTS[form].flatMap(kind => parts[kind]), given = inputs.map((_, at) => `input ${at + 1}`);
  const sessions = parts.sessions.length, tables = given.slice(0, given.length - sessions);
  const words = [form, ...BEFORE[form] ?? [], ...tables, ...names, ...given.slice(given.length - sessions)];
  return { form, words, inputs, files: inputs.map((it, at) => [given[at], it.bytes]) };
}

/**
 * The files of a market, with the given ones of what the students wished.
 * @param {Parts} parts @param {GivenFile[]} lines
 */
export const filesOf = ({ catalogue, roll, settings, text }, lines) => [catalogue, roll, settings, text, ...lines];
