// Making elements.

/**
 * The element of an id.
 * @param {string} id @returns {any}
 */
export const $ = id => document.getElementById(id);

/**
 * Makes an element. Properties that begin with `on` are listeners, others attributes; null and false are left out.
 * @param {string} tag
 * @param {Record<string, any>} [properties]
 * @param {...any} children nodes, texts and lists of them; null and false are left out
 * @returns {any}
 */
export function el(tag, properties, ...children) {
  const made = document.createElement(tag);
  for (const [name, value] of Object.entries(properties ?? {})) {
    if (name.startsWith('on')) made.addEventListener(name.slice(2), value);
    else if (value !== null && value !== undefined && value !== false) {
      made.setAttribute(name, value === true ? '' : value);
    }
  }
  made.append(...children.flat().filter(it => it !== null && it !== undefined && it !== false));
  return made;
}

/**
 * A paragraph.
 * @param {...any} children
 */
export const p = (...children) => el('p', {}, ...children);

/**
 * Words of a program.
 * @param {string} it
 */
export const code = it => el('code', {}, it);

/**
 * A button.
 * @param {string} words @param {() => any} onclick @param {Record<string, any>} [properties]
 */
export const button = (words, onclick, properties) => el('button', { type: 'button', onclick, ...properties }, words);

/**
 * A field with its label, which stay on one line where it has room for both.
 * @param {string} label @param {HTMLElement} of
 */
export const labelled = (label, of) => el('span', { class: 'field' }, el('label', { for: of.id }, label), of);

/**
 * A part of a view, with its title.
 * @param {string} title @param {...any} children
 */
export const part = (title, ...children) => el('section', {}, el('h3', {}, title), ...children);

/**
 * Names in a cell of a grid: none is broken at a dash.
 * @param {string[]} names
 */
export function namesCell(names) {
  if (!names.length) return 'nothing';
  return el('span', { class: 'names' }, names.flatMap((it, at) => [at ? ', ' : '', el('bdi', {}, it)]));
}

/**
 * A bar as wide as its share of the whole. Its number stands beside it in words, so it is hidden from a screen reader.
 * @param {number} share from 0 to 1
 * @param {string} [kind] one more class
 */
export function bar(share, kind = '') {
  const filled = el('span', { class: `filled ${kind}` });
  filled.style.inlineSize = `${Math.min(100, Math.max(0, 100 * share))}%`;
  return el('span', { class: 'bar', 'aria-hidden': 'true' }, filled);
}

/**
 * The names that a field suggests. They are made when the field gets the focus, or something is typed, since thousands
 * take long.
 * @param {HTMLElement} field which names the list @param {string} id of the list
 * @param {() => [string, string][]} names each with how it is shown
 */
export function suggestions(field, id, names) {
  const list = el('datalist', { id });
  const fill = () => {
    if (!list.childElementCount) list.append(...names().map(([value, shown]) => el('option', { value }, shown)));
  };
  for (const it of ['focus', 'input']) field.addEventListener(it, fill);
  return list;
}

/**
 * A part that opens; what stands in it is made when it opens first.
 * @param {any} summary
 * @param {() => any} make
 * @param {boolean} [isOpen]
 * @param {Record<string, any>} [properties]
 * @returns {Opening}
 */
export function opening(summary, make, isOpen = false, properties = {}) {
  const made = el('details', properties, el('summary', {}, summary));
  let isMade = false;
  made.fill = () => {
    if (isMade || !made.open) return;
    isMade = true;
    made.append(...[make()].flat());
  };
  made.addEventListener('toggle', made.fill);
  made.open = isOpen;
  made.fill();
  return made;
}

/**
 * Brings an answer into sight, where it does not stand in the upper half of the screen.
 * @param {HTMLElement} answer
 */
export function toAnswer(answer) {
  const { top } = answer.getBoundingClientRect();
  if (top < 0 || top > innerHeight / 2) answer.scrollIntoView();
}

/**
 * Saves bytes or a text as a file.
 * @param {string} name
 * @param {Uint8Array | string} content
 */
export function save(name, content) {
  const address = URL.createObjectURL(new Blob([content], { type: 'application/octet-stream' }));
  const link = el('a', { href: address, download: name });
  document.body.append(link);
  link.click();
  link.remove();
  setTimeout(() => URL.revokeObjectURL(address), 10000);
}

/**
 * Copies a text, also from a page on a disk, where the clipboard may be closed to scripts.
 * @param {string} text
 * @returns {Promise<boolean>} whether it was copied
 */
export async function copied(text) {
  try {
    await navigator.clipboard.writeText(text);
    return true;
  } catch {
    const area = el('textarea', { class: 'aside', 'aria-hidden': 'true' });
    area.value = text;
    document.body.append(area);
    area.select();
    const isDone = document.execCommand('copy');
    area.remove();
    return isDone;
  }
}
