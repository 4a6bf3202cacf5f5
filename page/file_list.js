// The list of the files that were given.

import { $, button, el } from './elements.js';
import { KINDS } from './files.js';

/** How many rows are drawn at once: a row has a dozen choices, and of hundreds of files most are never looked at. */
const FILES_AT_ONCE = 20;

/** The files that were given, and their list on the page. */
export class FileList {
  /** @param {() => void} changed is called when a file comes, goes, or is taken for another thing */
  constructor(changed) {
    this.changed = changed;
    /** @type {GivenFile[]} */
    this.files = [];
    /** Whether a manifest says the order of the sessions. */
    this.isByManifest = false;
    /** How many rows may stand there: more as the last one comes into view. */
    this.most = FILES_AT_ONCE;
    /**
     * The row of each file, and of what it was made.
     * @type {WeakMap<GivenFile, { made: string, node: HTMLElement }>}
     */
    this.rows = new WeakMap();
    this.watch = new IntersectionObserver(seen => {
      if (!seen.some(it => it.isIntersecting)) return;
      this.most += FILES_AT_ONCE;
      this.draw();
    });
  }

  /**
   * Takes files beside those that are there; one of the same name takes the other's place.
   * @param {GivenFile[]} files
   */
  take(files) {
    for (const it of files) {
      const at = this.files.findIndex(other => other.name === it.name);
      if (at < 0) this.files.push(it);
      else this.files[at] = it;
    }
    this.changed();
  }

  /**
   * Has these files, and no others.
   * @param {GivenFile[]} files
   */
  set(files) {
    this.files = files;
    this.changed();
  }

  /** @param {GivenFile} file */
  remove(file) {
    this.set(this.files.filter(it => it !== file));
  }

  /**
   * Moves a session before the one above it.
   * @param {GivenFile} file
   */
  moveUp(file) {
    const at = this.files.indexOf(file), before = this.files.slice(0, at).findLastIndex(it => it.kind === 'session');
    this.files.splice(at, 1);
    this.files.splice(before, 0, file);
    this.changed();
  }

  /** Draws what changed in the list; what has the focus in it has it again. */
  draw() {
    const list = $('file-list'), { activeElement } = document;
    const label = list.contains(activeElement) && activeElement.getAttribute('aria-label');
    this.most = Math.max(FILES_AT_ONCE, Math.min(this.most, this.files.length));
    const first = this.files.findIndex(it => it.kind === 'session');
    const rows = this.files.slice(0, this.most).map((it, at) => this.rowOf(it, first >= 0 && first < at));
    const areShown = new Set(rows);
    for (const it of [...list.children]) if (!areShown.has(it)) it.remove();
    rows.forEach((it, at) => { if (list.children[at] !== it) list.insertBefore(it, list.children[at] ?? null); });
    this.watch.disconnect();
    if (rows.length < this.files.length) this.watch.observe(rows.at(-1));
    $('files-count').textContent = this.files.length ? `: ${this.files.length}` : '';
    $('clear').hidden = !this.files.length;
    if (!label || list.contains(document.activeElement)) return;
    const again = [...list.querySelectorAll('[aria-label]')].find(it => it.getAttribute('aria-label') === label);
    (again ?? $('choose')).focus();
  }

  /**
   * The row of a file, made anew only where it would be another.
   * @param {GivenFile} file @param {boolean} isBehind whether a session stands above it
   */
  rowOf(file, isBehind) {
    const mayGoUp = file.kind === 'session' && isBehind && !this.isByManifest, made = `${file.kind} ${mayGoUp}`;
    const before = this.rows.get(file);
    if (before?.made === made) return before.node;
    const node = this.row(file, mayGoUp);
    this.rows.set(file, { made, node });
    return node;
  }

  /** @param {GivenFile} file @param {boolean} mayGoUp whether it can be moved before the session above it */
  row(file, mayGoUp) {
    const onchange = (/** @type {any} */ event) => { file.kind = event.target.value; this.changed(); };
    const kind = el('select', { 'aria-label': `What ${file.name} is`, onchange },
      Object.entries(KINDS).map(([value, words]) => el('option', { value, selected: value === file.kind }, words)));
    const up = mayGoUp && button('Up', () => this.moveUp(file),
      { class: 'small', 'aria-label': `Move ${file.name} before the session above it` });
    const remove = button('Remove', () => this.remove(file),
      { class: 'small', 'aria-label': `Remove ${file.name}` });
    return el('li', { class: file.kind }, el('bdi', { class: 'name' }, file.name), kind, up, remove);
  }
}
