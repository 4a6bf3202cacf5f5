// What was packed into the page, and its sums: they are compared with those that the page was built with, and with one
// that was published.

import { decoded, encoded, hashOf } from './bytes.js';
import { $, el, p } from './elements.js';

/**
 * What the page holds, and the sum of each, null where the browser computes none.
 * @typedef {{ bytes: Record<Packed, Uint8Array>, sums: Record<Packed, string | null> }} Held
 */

/** @type {Record<Packed, string>} */
const NAMES_OF = { module: 'module', example: 'example term', worker: 'worker\'s script' };

/**
 * Bytes that were packed into the page: compressed, and written in base64. (A loop reads them in a third of the time of
 * `Uint8Array.from`, which holds the page up as it opens.)
 * @param {string} id
 * @returns {Promise<Uint8Array>}
 */
async function unpacked(id) {
  const signs = atob($(id).textContent.trim()), bytes = new Uint8Array(signs.length);
  for (let at = 0; at < bytes.length; at++) bytes[at] = signs.charCodeAt(at);
  const stream = new Blob([bytes]).stream().pipeThrough(new DecompressionStream('gzip'));
  return new Uint8Array(await new Response(stream).arrayBuffer());
}

/**
 * Unpacks what the page holds, and computes the sums.
 * @returns {Promise<Held>}
 */
export async function held() {
  const bytes = {
    module: await unpacked('module'), example: await unpacked('example-files'),
    worker: encoded($('worker').textContent),
  };
  const [module, example, worker] = await Promise.all([bytes.module, bytes.example, bytes.worker].map(hashOf));
  return { bytes, sums: { module, example, worker } };
}

/**
 * The files of the example term, each with its name and its text.
 * @param {Held} held
 * @returns {[string, string][]}
 */
export const exampleIn = ({ bytes }) => JSON.parse(decoded(bytes.example));

/**
 * What of the page is not as it was built, in words; nothing where all is.
 * @param {Held} held @param {About} about
 */
export function changesIn({ sums }, about) {
  const parts = /** @type {Packed[]} */ (Object.keys(NAMES_OF));
  return parts.filter(it => sums[it] !== null && sums[it] !== about.sums[it])
    .map(it => `The ${NAMES_OF[it]} of this page has the SHA-256 ${sums[it]}, and was built with ${about.sums[it]}.`);
}

/**
 * What a sum that was published says of this page's module.
 * @param {string} typed the sum, or a line that has it @param {string} sum of the module
 */
export function comparedWords(typed, sum) {
  const found = /[0-9a-f]{64}/i.exec(typed)?.[0].toLowerCase();
  if (!typed.trim()) return '';
  if (!found) return 'This is no SHA-256, which has 64 digits from 0 to 9 and a to f.';
  if (found === sum) return 'It is the sum of the module of this page.';
  return 'It is not the sum of the module of this page. (The sum of the whole page, course-match.html, is compared '
    + 'outside of it: the guide says how.)';
}

/**
 * Shows the sums beside a field for the one that was published.
 * @param {Held} held
 */
export function showSums({ sums }) {
  if (!sums.module) {
    $('sums').replaceChildren(
      p('This browser computes no sum of a page that came by http: open it by https, or from the disk.'));
    return;
  }
  const said = el('span', { role: 'status' });
  const oninput = (/** @type {any} */ event) => { said.textContent = comparedWords(event.target.value, sums.module); };
  $('sums').replaceChildren(
    p('SHA-256, computed when the page was opened: of the module ', el('code', { id: 'module-sum' }, sums.module),
      ', of the example term ', el('code', {}, sums.example), '.'),
    el('p', { class: 'ask' }, el('label', { for: 'published-sum' }, 'The sum of the module that was published: '),
      el('input', { id: 'published-sum', autocomplete: 'off', autocapitalize: 'off', spellcheck: 'false', oninput }),
      ' ', said));
}
