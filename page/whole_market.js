// What the views show of a whole text that holds.

import { saidByAll } from './alone.js';
import { decoded } from './bytes.js';
import { callOf } from './program.js';
import { menuOf, worthOf } from './reckoning.js';
import { catalogueIn, rollIn } from './tables.js';
import { countsOf, publishedOf } from './texts.js';
import { inPrintedOrder, packed, wishedLines, wishesBy } from './wishes.js';

/** The most sessions of one call. */
const MOST_IN_A_CALL = 64;

/**
 * What the views need of a text that holds, but for its files; what the students want comes from the program.
 * @param {import('./one_student.js').Ask} ask
 * @param {Parts} parts with the sessions in the order of the text
 * @returns {Promise<{ market?: ReadMarket, refusal?: Checked }>}
 */
export async function wholeMarketOf(ask, parts) {
  const catalogue = catalogueIn(parts), roll = rollIn(parts);
  const text = publishedOf(parts.text.bytes, catalogue, roll), sessions = parts.sessions.map(it => it.bytes);
  const said = saidByAll(text.order, sessions);
  const { wished, refusal } = await wishesOf(ask, parts, wishedIn(text.order, sessions, said, roll));
  if (refusal) return { refusal };
  return { market: {
    catalogue, roll, text, said, wished, worths: worthsOf({ catalogue, roll, text, wishes: wishesBy(wished) }),
    settings: JSON.parse(decoded(parts.settings.bytes)),
    sectionOf: new Map(catalogue.map(it => [it.name, it])),
    counts: countsOf(text.bundles.map(it => it.names), catalogue), endCounts: countsOf(text.finals, catalogue),
  } };
}

/**
 * What the bundles of each student are worth to it.
 * @param {{ catalogue: Section[], roll: Student[], text: PublishedText, wishes: WishesOfAll }} market
 * @returns {Worths[]}
 */
function worthsOf(market) {
  return market.roll.map(({ at }) => {
    const menu = menuOf(market, at);
    const worth = (/** @type {string[]} */ names) => worthOf(menu, names.map(it => menu.of.get(it)));
    const second = worth(market.text.bundles[at].names), end = worth(market.text.finals[at]);
    return { rated: menu.places.length, second, end };
  });
}

/**
 * The sessions, call by call, with which `prefer` tells what the students want: all commands in the printed order; or,
 * where these are more sessions than a call may have, each student's own lines up to the close.
 * @param {number[]} order @param {Uint8Array[]} sessions @param {Map<string, Said>} said @param {Student[]} roll
 * @returns {Uint8Array[][]}
 */
export function wishedIn(order, sessions, said, roll) {
  const all = inPrintedOrder(order, sessions);
  if (all.length <= MOST_IN_A_CALL) return [all];
  const own = packed(roll.flatMap(it => said.get(it.name)?.bytes ?? []));
  return Array.from({ length: Math.ceil(own.length / MOST_IN_A_CALL) }, (_, at) =>
    own.slice(at * MOST_IN_A_CALL, (at + 1) * MOST_IN_A_CALL));
}

/**
 * What the students want, from one call of `prefer` after the other.
 * @param {import('./one_student.js').Ask} ask @param {Parts} parts @param {Uint8Array[][]} calls
 * @returns {Promise<{ wished?: Map<string, string>, refusal?: Checked }>}
 */
async function wishesOf(ask, parts, calls) {
  const wished = new Map();
  for (const sessions of calls) {
    /** @type {GivenFile[]} */
    const named = sessions.map((bytes, at) =>
      ({ name: `all sessions in the order of the text, part ${at + 1}`, kind: 'session', bytes }));
    const heard = { ...parts, sessions: named }, call = callOf('prefer', heard);
    const answer = await ask('Reading what the students want', call);
    if (answer.status !== 0) return { refusal: { answer, call, parts: heard } };
    for (const [name, lines] of wishedLines(answer.text)) wished.set(name, lines);
  }
  return { wished };
}
