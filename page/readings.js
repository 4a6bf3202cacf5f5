// What the worker reads and works out, so that no long text holds the page up. What comes back are plain values.

import { namedIn, roomOf, saidIn } from './alone.js';
import { decoded, hashOf } from './bytes.js';
import { lookOf } from './look.js';
import { commandCount } from './lines.js';
import { ownMarketOf } from './own_market.js';
import { callOf, filesOf } from './program.js';
import { originalsIn } from './spelling.js';
import { MOST_SECTIONS, MOST_STUDENTS, firstRecords, sectionsOf, studentsOf } from './tables.js';
import { wholeMarketOf } from './whole_market.js';
import { orderOf, possibleOrders, preferencesOf } from './wishes.js';
import { answerWords, excerptOf, refusalOf } from './words.js';

/** @typedef {import('./one_student.js').Ask} Ask */

/** Each reading, by its name: the last argument asks the program. */
export const READINGS = {
  /**
   * What the form shows of a catalogue, a roll and the school's names; of a longer table than any of a market its first
   * rows.
   * @param {GivenFile | undefined} catalogue @param {GivenFile | undefined} roll @param {GivenFile | undefined} names
   * @returns {ReadTables}
   */
  tables: (catalogue, roll, names) => {
    const rows = (/** @type {GivenFile | undefined} */ it, /** @type {number} */ most) =>
      it ? firstRecords(decoded(it.bytes), most + 1) : [];
    const [sections, students] = [rows(catalogue, MOST_SECTIONS), rows(roll, MOST_STUDENTS)];
    return {
      catalogue: sectionsOf(sections ?? []), roll: studentsOf(students ?? []),
      originals: names ? originalsIn(names.bytes) : null,
      strange: [sections ? '' : catalogue.name, students ? '' : roll.name].filter(Boolean),
    };
  },

  /**
   * The orders of the sessions in which each has as many commands as the text takes; and, where there is none, whether
   * each names one student alone.
   * @param {Uint8Array} text up to its order line @param {Uint8Array[]} sessions
   * @param {number} most how many orders are looked for
   */
  orders: (text, sessions, most) => {
    const orders = possibleOrders(sessions.map(commandCount), orderOf(text), most);
    return { orders, areOwn: !orders.length && sessions.every(it => namedIn(it).names.size === 1) };
  },

  /**
   * How many lines of a student each session has.
   * @param {Uint8Array[]} sessions @param {string} name
   */
  counts: (sessions, name) => sessions.map(it => saidIn(it, name).count),

  /**
   * What a student's lines in a session come to, as the program says.
   * @param {GivenFile} file the catalogue @param {Section[]} catalogue @param {Uint8Array} session
   * @param {{ name: string, credits: number, courses: number }} student @param {Ask} [ask]
   */
  earlier: async (file, catalogue, session, student, ask) => {
    const said = saidIn(session, student.name), prices = catalogue.map(() => 0);
    const room = roomOf(catalogue, { ...student, budget: 0, prices, names: [], tree: '*', said });
    const call = callOf('prefer', { ...room, catalogue: file }), answer = await ask('Reading the lines', call);
    if (answer.status !== 0) return { failed: answerWords(answer, call).words };
    return { wishes: preferencesOf(answer.text).get(student.name) };
  },

  /**
   * The SHA-256 of bytes.
   * @param {Uint8Array} bytes
   */
  sum: async bytes => ({ sum: await hashOf(bytes) }),

  /**
   * What the views need of a text that holds, with the sums of its files: a long text need not come once more for its
   * own.
   * @param {Parts} parts @param {Ask} [ask]
   */
  whole: async (parts, ask) =>
    ({ ...await wholeMarketOf(ask, parts), sums: await sumsOf(filesOf(parts, parts.sessions)) }),

  /** @param {Parts} parts @param {GivenFile[]} lines @param {Ask} [ask] */
  own: async (parts, lines, ask) =>
    ({ ...await ownMarketOf(ask, parts, lines), sums: await sumsOf(filesOf(parts, lines)) }),

  /** @param {Checked} checked */
  refusal: checked => refusalOf(checked),

  /** @param {Answer} answer @param {Call} call */
  told: (answer, call) => answerWords(answer, call),

  /** @param {string} finding @param {Parts} parts */
  excerpt: (finding, parts) => excerptOf(finding, parts),

  /**
   * What the desk replies to the wishes, by `prefer`; or, where that is refused, what is told of it.
   * @param {Parts} parts @param {Ask} [ask]
   * @returns {Promise<{ look?: Look, told?: Told }>}
   */
  look: async (parts, ask) => {
    const call = callOf('prefer', parts), answer = await ask('Reading what the students want', call);
    return answer.status === 0 ? { look: lookOf(answer.text, parts) } : { told: answerWords(answer, call) };
  },
};

/**
 * The SHA-256 of each file, also of those that were summed before.
 * @param {GivenFile[]} files
 */
const sumsOf = files => Promise.all(files.map(it => it.sum ?? hashOf(it.bytes)));
