// What the desk replies to the wishes, and what they come to.

import { namedIn } from './alone.js';
import { commandCount } from './lines.js';
import { catalogueIn, rollIn } from './tables.js';
import { preferencesOf, repliesOf } from './wishes.js';

/**
 * What the desk replies, how many commands there are, who wants nothing and what nobody wants, and whom several
 * sessions name.
 * @param {string} answer what `prefer` printed @param {Parts} parts
 * @returns {Look}
 */
export function lookOf(answer, parts) {
  const wishes = preferencesOf(answer);
  const has = (/** @type {string} */ name) => [...wishes.get(name)?.ratings.values() ?? []].some(it => it > 0);
  const wanted = new Set([...wishes.values()].flatMap(it => [...it.ratings.keys()]));
  return {
    replies: repliesOf(answer, parts.sessions),
    all: parts.sessions.reduce((sum, it) => sum + commandCount(it.bytes), 0),
    silent: rollIn(parts).map(it => it.name).filter(it => !has(it)),
    unwanted: catalogueIn(parts).map(it => it.name).filter(it => !wanted.has(it)),
    several: inSeveral(parts.sessions),
  };
}

/**
 * The students that more than one session names.
 * @param {GivenFile[]} sessions
 * @returns {string[]}
 */
function inSeveral(sessions) {
  const seen = new Set(), several = new Set();
  for (const { bytes } of sessions) {
    const names = [...namedIn(bytes).names.keys()];
    for (const it of names) if (seen.has(it)) several.add(it);
    for (const it of names) seen.add(it);
  }
  return [...several];
}
