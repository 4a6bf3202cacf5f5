// The settings of a market: what each is, and what stands in a file of them.

import { decoded, encoded } from './bytes.js';
import { listed, quoted, shortList } from './wording.js';

/**
 * What each setting may be.
 * @type {Record<string, string>}
 */
export const RANGES = {
  seed: '0 to 18446744073709551615', spread: '0 to 49', accept: '0 to 1000000000000', turns: '0 to 10000',
  tabu: '1 to 1000', patience: '1 to 10000', steps: 'a list of 1 to 16 numbers, each 1 to 100000', raise: '0 to 50',
};

/** The settings in the order of the form. */
export const NAMES = Object.keys(RANGES);

/** @type {Record<string, string>} */
const USUAL = {
  seed: '2026', spread: '7', accept: '60', turns: '120', tabu: '30', patience: '25', steps: '3, 12, 50', raise: '10',
};

/**
 * What stands in the form where no file says anything.
 * @param {string} name
 */
export const usual = name => USUAL[name];

/** How long a text is that is read for the form; no settings are longer. */
const LONGEST_SETTINGS = 2 ** 18;

/**
 * The text of settings, as far as any settings are long.
 * @param {{ bytes: Uint8Array }} of
 */
export const settingsText = ({ bytes }) => bytes.length > LONGEST_SETTINGS ? '' : decoded(bytes);

/**
 * What the browser says of a text that is not JSON; nothing of one that is.
 * @param {string} text @returns {string}
 */
function jsonFault(text) {
  try {
    JSON.parse(text);
    return '';
  } catch (fault) {
    return fault.message;
  }
}

/** @param {string} text */
const isJson = text => !jsonFault(text);

/**
 * Where a text stops to be JSON, if the browser tells it.
 * @param {string} text
 */
export function jsonPlace(text) {
  const [, row, column] = /line (\d+) column (\d+)/.exec(jsonFault(text)) ?? [];
  return row ? `, line ${row}, column ${column}` : '';
}

/**
 * Whether a text is a JSON object, which settings it lacks, and what it has that is none.
 * @param {string} text
 */
export function settingsLacks(text) {
  const found = text.length <= LONGEST_SETTINGS && isJson(text) ? JSON.parse(text) : null;
  const isObject = found !== null && typeof found === 'object' && !Array.isArray(found);
  const names = isObject ? Object.keys(found) : [];
  return {
    isObject, lacking: NAMES.filter(it => !names.includes(it)), strange: names.filter(it => !Object.hasOwn(RANGES, it)),
  };
}

/**
 * The cause of refused settings.
 * @param {string} cause the program's words @param {string} text
 */
export function settingsWords(cause, text) {
  const [, key] = /(?:missing|range of) (\w+)$/.exec(cause) ?? [];
  if (cause === 'not json' && isJson(text)) {
    return 'The program takes it for no JSON: a number in it is beyond what 64 bits hold (1e400), an escape is half a '
      + 'pair, brackets are nested deeper than 127, or it is not in UTF-8.';
  }
  if (cause === 'not json') return 'It is not JSON (a comma, a quote or a bracket too many or too few).';
  if (cause === 'not an object') return 'It is JSON, but no object: the settings stand between { and }.';
  if (cause === 'unknown key') {
    return `It has ${shortList(settingsLacks(text).strange.map(quoted))}, which is no setting: the settings are `
      + `${listed(NAMES)}. Capital letters count.`;
  }
  if (cause.startsWith('missing')) return `The setting ${key} is missing.`;
  return `The setting ${key} is out of its range. Expected: `
    + `${key === 'steps' ? '' : 'a whole number, '}${RANGES[key]}, `
    + 'without point, exponent or sign.';
}

const JSON_STRING = /"(?:[^"\\]|\\.)*"/g;

/**
 * The settings of a file as they stand in it, so that a seed of 64 bits keeps its digits; of a setting that is written
 * twice the last one counts, also where its name is written with escapes. A text that is no JSON object has none.
 * @param {string} text
 */
export function settingsIn(text) {
  /** @type {Record<string, string>} */
  const found = {};
  if (!settingsLacks(text).isObject) return found;
  const plain = text.replace(JSON_STRING, it => JSON.stringify(JSON.parse(it)));
  for (const name of NAMES) {
    const pattern = new RegExp(`"${name}"\\s*:\\s*(\\[[^\\]]*\\]|[^,}\\s]+)`, 'g');
    const value = [...plain.matchAll(pattern)].at(-1)?.[1];
    if (value !== undefined) found[name] = value.replace(/[[\]]/g, '').trim().replace(/\s+/g, ' ');
  }
  return found;
}

/**
 * Where the form does not stand as the file of the settings does, in words.
 * @param {GivenFile} of
 */
export function settingsNotes({ name, bytes }) {
  const { isObject, lacking, strange } = settingsLacks(settingsText({ bytes }));
  if (!isObject) return [`${name} is no JSON object, so that the usual settings stand here.`];
  return [
    lacking.length ? `${name} does not say ${listed(lacking)}: what stands here is the usual.` : '',
    strange.length ? `${name} has ${shortList(strange.map(quoted))}, which is no setting and is not taken.` : '',
  ].filter(Boolean);
}

/** Between two numbers of the steps. */
const STEP = /\s*,\s*|\s+/;
const NUMBER = /^(0|[1-9]\d*)$/;

/**
 * A file of these settings.
 * @param {Record<string, string>} values @returns {GivenFile}
 */
export function settingsFile(values) {
  const lines = NAMES.map(it => `  "${it}": ${it === 'steps' ? `[${values[it].split(STEP).join(', ')}]` : values[it]}`);
  return { name: 'settings.json', kind: 'settings', bytes: encoded(`{\n${lines.join(',\n')}\n}\n`) };
}

/**
 * The first setting in which no number stands, or no list of numbers; of the ranges the program judges.
 * @param {Record<string, string>} values
 */
export const wrongField = values => NAMES.find(it =>
  !(it === 'steps' ? values[it].split(STEP) : [values[it]]).every(that => NUMBER.test(that)));
